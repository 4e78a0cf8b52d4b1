//! The link layer: "Frames" in docs/PROTOCOL.md.

use crate::fault::{Fault, Refusal};

pub const ACKNOWLEDGEMENT: u8 = 0xE5;
pub const SHORT_START: u8 = 0x10;
pub const LONG_START: u8 = 0x68;
pub const STOP: u8 = 0x16;

/// Bytes before the control byte.
pub const SHORT_HEADER: usize = 1;
pub const LONG_HEADER: usize = 4;

/// Bytes after the last byte that the checksum covers: checksum and stop.
pub const TRAILER: usize = 2;

pub const SHORT_SIZE: usize = 5;

/// L counts the control, address and information bytes and the data.
pub const SMALLEST_LENGTH: u8 = 3;
pub const MOST_DATA: usize = 252;

#[derive(Debug, Clone, Copy, PartialEq, Eq)]
pub enum Frame<'a> {
    Acknowledgement,
    Short { control: u8, address: u8 },
    Long(LongFrame<'a>),
}

#[derive(Debug, Clone, Copy, PartialEq, Eq)]
pub struct LongFrame<'a> {
    pub control: u8,
    pub address: u8,
    pub information: u8,
    pub data: &'a [u8],
}

impl<'a> Frame<'a> {
    /// Reads the bytes of exactly one frame; the first failing check decides.
    pub fn read(bytes: &'a [u8]) -> Result<Self, Fault> {
        match bytes.first() {
            None => Err(Refusal::NoByte.at(0)),
            Some(&ACKNOWLEDGEMENT) if bytes.len() > 1 => Err(Refusal::TooManyBytes.at(1)),
            Some(&ACKNOWLEDGEMENT) => Ok(Frame::Acknowledgement),
            Some(&SHORT_START) => read_short(bytes),
            Some(&LONG_START) => read_long(bytes),
            Some(_) => Err(Refusal::UnknownStart.at(0)),
        }
    }

    /// The bytes that read as this frame. Panics on more than 252 bytes of
    /// data, which only a mistake in this program could ask for.
    pub fn to_bytes(self) -> Vec<u8> {
        match self {
            Frame::Acknowledgement => vec![ACKNOWLEDGEMENT],
            Frame::Short { control, address } => close(&[SHORT_START], &[control, address]),
            Frame::Long(frame) => frame.to_bytes(),
        }
    }
}

impl LongFrame<'_> {
    fn to_bytes(self) -> Vec<u8> {
        assert!(self.data.len() <= MOST_DATA, "too much data for a frame");
        let mut content = vec![self.control, self.address, self.information];
        content.extend(self.data);
        close(&long_header(content.len() as u8), &content)
    }
}

pub fn long_header(length: u8) -> [u8; LONG_HEADER] {
    [LONG_START, length, length, LONG_START]
}

/// Header and content, closed with a right checksum and the stop byte.
/// Whether header and content agree is the caller's business: test cases
/// need frames in which they do not.
pub fn close(header: &[u8], content: &[u8]) -> Vec<u8> {
    let mut bytes = [header, content].concat();
    bytes.extend([checksum(content), STOP]);
    bytes
}

pub fn checksum(content: &[u8]) -> u8 {
    content.iter().copied().fold(0, u8::wrapping_add)
}

fn read_short(bytes: &[u8]) -> Result<Frame<'_>, Fault> {
    let content = checked_content(bytes, SHORT_HEADER, SHORT_SIZE)?;
    Ok(Frame::Short {
        control: content[0],
        address: content[1],
    })
}

fn read_long(bytes: &[u8]) -> Result<Frame<'_>, Fault> {
    let length = checked_length(bytes)?;
    let content = checked_content(bytes, LONG_HEADER, LONG_HEADER + length + TRAILER)?;
    Ok(Frame::Long(LongFrame {
        control: content[0],
        address: content[1],
        information: content[2],
        data: &content[3..],
    }))
}

/// Checks the header of a long frame and gives its L.
fn checked_length(bytes: &[u8]) -> Result<usize, Fault> {
    let Some(&[_, length, repeated, start]) = bytes.first_chunk::<LONG_HEADER>() else {
        return Err(Refusal::TooFewBytes.at(bytes.len()));
    };
    if length < SMALLEST_LENGTH {
        Err(Refusal::BadHeader.at(1))
    } else if repeated != length {
        Err(Refusal::BadHeader.at(2))
    } else if start != LONG_START {
        Err(Refusal::BadHeader.at(3))
    } else {
        Ok(usize::from(length))
    }
}

/// Checks size, stop byte and checksum, and gives the bytes that the checksum
/// covers.
fn checked_content(bytes: &[u8], header: usize, size: usize) -> Result<&[u8], Fault> {
    if bytes.len() < size {
        return Err(Refusal::TooFewBytes.at(bytes.len()));
    }
    if bytes.len() > size {
        return Err(Refusal::TooManyBytes.at(size));
    }
    let content = &bytes[header..size - TRAILER];
    if bytes[size - 1] != STOP {
        Err(Refusal::WrongStop.at(size - 1))
    } else if bytes[size - 2] != checksum(content) {
        Err(Refusal::WrongChecksum.at(size - 2))
    } else {
        Ok(content)
    }
}

#[cfg(test)]
mod tests {
    use super::*;

    #[test]
    fn reads_each_kind() {
        assert_eq!(Frame::read(&[0xE5]), Ok(Frame::Acknowledgement));
        let fetch = Frame::Short {
            control: 0x7B,
            address: 0xFD,
        };
        assert_eq!(Frame::read(&[0x10, 0x7B, 0xFD, 0x78, 0x16]), Ok(fetch));
        let long = Frame::Long(LongFrame {
            control: 0x08,
            address: 0x01,
            information: 0x72,
            data: &[0xFF],
        });
        // 08 + 01 + 72 + FF = 17A
        let bytes = [0x68, 0x04, 0x04, 0x68, 0x08, 0x01, 0x72, 0xFF, 0x7A, 0x16];
        assert_eq!(Frame::read(&bytes), Ok(long));
    }

    #[test]
    fn writes_what_it_reads() {
        for bytes in [
            &[0xE5][..],
            &[0x10, 0x40, 0xFD, 0x3D, 0x16],
            &[0x68, 0x03, 0x03, 0x68, 0x08, 0x01, 0x72, 0x7B, 0x16],
        ] {
            assert_eq!(Frame::read(bytes).unwrap().to_bytes(), bytes);
        }
    }

    #[test]
    fn refuses_each_fault_at_its_place() {
        let refused = |bytes: &[u8]| Frame::read(bytes).unwrap_err();
        assert_eq!(refused(&[]), Refusal::NoByte.at(0));
        assert_eq!(refused(&[0x16, 0x10]), Refusal::UnknownStart.at(0));
        assert_eq!(refused(&[0x10, 0x7B]), Refusal::TooFewBytes.at(2));
        assert_eq!(refused(&[0xE5, 0xE5]), Refusal::TooManyBytes.at(1));
        assert_eq!(
            refused(&[0x10, 0x7B, 0xFD, 0x78, 0x17]),
            Refusal::WrongStop.at(4)
        );
        assert_eq!(
            refused(&[0x10, 0x7B, 0xFD, 0x79, 0x16]),
            Refusal::WrongChecksum.at(3)
        );
    }

    #[test]
    fn the_first_failing_check_decides() {
        let refused = |bytes: &[u8]| Frame::read(bytes).unwrap_err();
        // Fewer than four bytes come before a bad L.
        assert_eq!(refused(&[0x68, 0x00, 0x01]), Refusal::TooFewBytes.at(3));
        assert_eq!(refused(&[0x68, 0x02, 0x03, 0x00]), Refusal::BadHeader.at(1));
        assert_eq!(refused(&[0x68, 0x03, 0x04, 0x00]), Refusal::BadHeader.at(2));
        assert_eq!(refused(&[0x68, 0x03, 0x03, 0x00]), Refusal::BadHeader.at(3));
        assert_eq!(
            refused(&[0x68, 0x03, 0x03, 0x68]),
            Refusal::TooFewBytes.at(4)
        );
        // One byte too many, a wrong stop byte and a wrong checksum at once.
        assert_eq!(
            refused(&[0x10, 0x7B, 0xFD, 0x79, 0x17, 0x00]),
            Refusal::TooManyBytes.at(5)
        );
        assert_eq!(
            refused(&[0x10, 0x7B, 0xFD, 0x79, 0x17]),
            Refusal::WrongStop.at(4)
        );
    }
}
