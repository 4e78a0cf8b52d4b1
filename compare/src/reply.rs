//! The head of a meter's answer: "Addresses and patterns" and "Reply
//! telegrams" in docs/PROTOCOL.md.

use crate::digits::Digits;
use crate::fault::{Fault, Refusal};
use crate::frame::{Frame, LongFrame};
use crate::records::Items;

pub const REPLY_CONTROL: u8 = 0x08;
pub const REPLY_INFORMATION: u8 = 0x72;

/// Data bytes of the address, which comes first.
pub const ADDRESS_BYTES: usize = 8;

/// Data bytes before the body: address, access number, status, signature.
pub const REPLY_HEAD: usize = ADDRESS_BYTES + 4;
pub const MOST_BODY: usize = 240;

/// Places in the whole telegram.
const START_PLACE: usize = 0;
const LENGTH_PLACE: usize = 1;
const CONTROL_PLACE: usize = 4;
const INFORMATION_PLACE: usize = 6;
const NUMBER_PLACE: usize = 7;
const BODY_PLACE: usize = 19;

/// A meter's secondary address.
#[derive(Debug, Clone, Copy, PartialEq, Eq)]
pub struct MeterAddress {
    /// At most 99999999.
    pub number: u32,
    pub maker: u16,
    pub version: u8,
    pub medium: u8,
}

impl MeterAddress {
    /// The address as it travels.
    pub fn to_bytes(self) -> [u8; ADDRESS_BYTES] {
        let [first, second, third, fourth] = number_bytes(self.number);
        let [low, high] = self.maker.to_le_bytes();
        [
            first,
            second,
            third,
            fourth,
            low,
            high,
            self.version,
            self.medium,
        ]
    }
}

#[derive(Debug, Clone, Copy, PartialEq, Eq)]
pub struct Reply<'a> {
    pub meter: MeterAddress,
    pub access: u8,
    pub status: u8,
    pub signature: u16,
    pub body: &'a [u8],
}

impl<'a> Reply<'a> {
    /// Reads a frame as a reply telegram; the first failing check decides.
    pub fn read(frame: &LongFrame<'a>) -> Result<Self, Fault> {
        if frame.control != REPLY_CONTROL {
            return Err(Refusal::NoReply.at(CONTROL_PLACE));
        }
        if frame.information != REPLY_INFORMATION {
            return Err(Refusal::NoReply.at(INFORMATION_PLACE));
        }
        let Some((head, body)) = frame.data.split_first_chunk::<REPLY_HEAD>() else {
            return Err(Refusal::NoReply.at(LENGTH_PLACE));
        };
        Ok(Reply {
            meter: MeterAddress {
                number: read_number([head[0], head[1], head[2], head[3]])?,
                maker: u16::from_le_bytes([head[4], head[5]]),
                version: head[6],
                medium: head[7],
            },
            access: head[8],
            status: head[9],
            signature: u16::from_le_bytes([head[10], head[11]]),
            body,
        })
    }

    /// Reads the bytes of a whole telegram, the frame first.
    pub fn read_telegram(bytes: &'a [u8]) -> Result<Self, Fault> {
        match Frame::read(bytes)? {
            Frame::Long(frame) => Reply::read(&frame),
            _ => Err(Refusal::NoReply.at(START_PLACE)),
        }
    }

    /// The items of the body, up to its end or to the first refusal.
    pub fn items(&self) -> Items<'a> {
        Items::new(self.body, BODY_PLACE)
    }

    /// The whole telegram, with the primary address A. Panics on more than 240
    /// bytes of body, which only a mistake in this program could ask for.
    pub fn to_telegram(self, primary: u8) -> Vec<u8> {
        Frame::Long(LongFrame {
            control: REPLY_CONTROL,
            address: primary,
            information: REPLY_INFORMATION,
            data: &self.to_data(),
        })
        .to_bytes()
    }

    /// The data bytes of the frame that carries this reply.
    pub fn to_data(self) -> Vec<u8> {
        let mut data = self.meter.to_bytes().to_vec();
        data.extend([self.access, self.status]);
        data.extend(self.signature.to_le_bytes());
        data.extend(self.body);
        data
    }
}

fn read_number(pairs: [u8; 4]) -> Result<u32, Fault> {
    let digits = Digits::new(pairs);
    match digits.first_bad_byte() {
        Some(offset) => Err(Refusal::AddressDigitAboveNine.at(NUMBER_PLACE + offset)),
        None => Ok(digits.value() as u32),
    }
}

fn number_bytes(number: u32) -> [u8; 4] {
    let pair = |power: u32| (number / 100_u32.pow(power) % 100) as u8;
    [0, 1, 2, 3].map(|power| (pair(power) / 10) << 4 | (pair(power) % 10))
}

#[cfg(test)]
mod tests {
    use super::*;

    const HEAD: [u8; REPLY_HEAD] = [
        0x78, 0x56, 0x34, 0x12, 0x2D, 0x2C, 0x01, 0x04, 0x07, 0x80, 0xCD, 0xAB,
    ];

    fn read(control: u8, information: u8, data: &[u8]) -> Result<Reply<'_>, Fault> {
        Reply::read(&LongFrame {
            control,
            address: 0,
            information,
            data,
        })
    }

    #[test]
    fn reads_low_bytes_first() {
        let reply = read(0x08, 0x72, &HEAD).unwrap();
        assert_eq!(reply.meter.number, 12_345_678);
        assert_eq!(reply.meter.maker, 0x2C2D);
        assert_eq!((reply.meter.version, reply.meter.medium), (0x01, 0x04));
        assert_eq!((reply.access, reply.status), (0x07, 0x80));
        assert_eq!(reply.signature, 0xABCD);
        assert_eq!(reply.body, []);
        assert_eq!(reply.to_data(), HEAD);
    }

    #[test]
    fn only_a_long_frame_is_a_reply_telegram() {
        let refused = |bytes| Reply::read_telegram(bytes).unwrap_err();
        assert_eq!(refused(&[]), Refusal::NoByte.at(0));
        assert_eq!(refused(&[0xE5]), Refusal::NoReply.at(0));
        let fetch = [0x10, 0x7B, 0xFD, 0x78, 0x16];
        assert_eq!(refused(&fetch), Refusal::NoReply.at(0));
        let reply = read(0x08, 0x72, &HEAD).unwrap();
        let telegram = reply.to_telegram(0x05);
        assert_eq!(Reply::read_telegram(&telegram), Ok(reply));
    }

    #[test]
    fn refuses_in_order() {
        let short = &HEAD[..REPLY_HEAD - 1];
        assert_eq!(read(0x18, 0x73, short), Err(Refusal::NoReply.at(4)));
        assert_eq!(read(0x08, 0x73, short), Err(Refusal::NoReply.at(6)));
        assert_eq!(read(0x08, 0x72, short), Err(Refusal::NoReply.at(1)));
    }

    #[test]
    fn refuses_the_first_byte_with_a_digit_above_nine() {
        let mut head = HEAD;
        head[3] = 0x1A;
        assert_eq!(
            read(0x08, 0x72, &head),
            Err(Refusal::AddressDigitAboveNine.at(10))
        );
        head[1] = 0xA0;
        assert_eq!(
            read(0x08, 0x72, &head),
            Err(Refusal::AddressDigitAboveNine.at(8))
        );
    }
}
