//! What a master sends: "Requests" in docs/PROTOCOL.md.

use super::pattern::Pattern;
use crate::frame::{Frame, LongFrame};

/// All requests go to the meters that were selected.
const TO_SELECTED: u8 = 0xFD;

const SELECTION_CONTROL: u8 = 0x53;
const OTHER_SELECTION_CONTROL: u8 = 0x73;
const SELECTION_INFORMATION: u8 = 0x52;
const FETCH_BIT_1: u8 = 0x7B;
const FETCH_BIT_0: u8 = 0x5B;
const RELEASE: u8 = 0x40;

#[derive(Debug, Clone, Copy, PartialEq, Eq)]
pub enum Request {
    Selection(Pattern),
    Fetch { bit: bool },
    Release,
}

impl Request {
    pub fn to_bytes(self) -> Vec<u8> {
        let short = |control| {
            Frame::Short {
                control,
                address: TO_SELECTED,
            }
            .to_bytes()
        };
        match self {
            Request::Selection(pattern) => Frame::Long(LongFrame {
                control: SELECTION_CONTROL,
                address: TO_SELECTED,
                information: SELECTION_INFORMATION,
                data: &pattern.0,
            })
            .to_bytes(),
            Request::Fetch { bit: true } => short(FETCH_BIT_1),
            Request::Fetch { bit: false } => short(FETCH_BIT_0),
            Request::Release => short(RELEASE),
        }
    }

    /// None if the bytes are no request.
    pub fn read(bytes: &[u8]) -> Option<Self> {
        match Frame::read(bytes).ok()? {
            Frame::Short {
                control,
                address: TO_SELECTED,
            } => match control {
                FETCH_BIT_1 => Some(Request::Fetch { bit: true }),
                FETCH_BIT_0 => Some(Request::Fetch { bit: false }),
                RELEASE => Some(Request::Release),
                _ => None,
            },
            Frame::Long(LongFrame {
                control: SELECTION_CONTROL | OTHER_SELECTION_CONTROL,
                address: TO_SELECTED,
                information: SELECTION_INFORMATION,
                data,
            }) => Some(Request::Selection(Pattern(data.try_into().ok()?))),
            _ => None,
        }
    }
}

#[cfg(test)]
mod tests {
    use super::*;

    #[test]
    fn requests_have_the_bytes_in_the_document() {
        let bit_1 = Request::Fetch { bit: true };
        let bit_0 = Request::Fetch { bit: false };
        assert_eq!(bit_1.to_bytes(), [0x10, 0x7B, 0xFD, 0x78, 0x16]);
        assert_eq!(bit_0.to_bytes(), [0x10, 0x5B, 0xFD, 0x58, 0x16]);
        assert_eq!(Request::Release.to_bytes(), [0x10, 0x40, 0xFD, 0x3D, 0x16]);
        let of = |digits: &[u8]| Request::Selection(Pattern::of_beginning(digits)).to_bytes();
        assert_eq!(of(&[])[..7], [0x68, 0x0B, 0x0B, 0x68, 0x53, 0xFD, 0x52]);
        assert_eq!(of(&[])[15..], [0x9A, 0x16]);
        assert_eq!(of(&[1, 2, 3])[15..], [0xED, 0x16]);
    }

    #[test]
    fn what_is_sent_is_understood() {
        for request in [
            Request::Selection(Pattern([0x12; 8])),
            Request::Fetch { bit: true },
            Request::Fetch { bit: false },
            Request::Release,
        ] {
            assert_eq!(Request::read(&request.to_bytes()), Some(request));
        }
    }

    #[test]
    fn both_controls_select_and_nothing_else_does() {
        let read = |control, address, information, data| {
            let frame = Frame::Long(LongFrame {
                control,
                address,
                information,
                data,
            });
            Request::read(&frame.to_bytes())
        };
        let pattern = Pattern([0x01; 8]);
        let selection = Some(Request::Selection(pattern));
        assert_eq!(read(0x53, 0xFD, 0x52, &pattern.0), selection);
        assert_eq!(read(0x73, 0xFD, 0x52, &pattern.0), selection);
        assert_eq!(read(0x63, 0xFD, 0x52, &pattern.0), None);
        assert_eq!(read(0x53, 0xFE, 0x52, &pattern.0), None);
        assert_eq!(read(0x53, 0xFD, 0x56, &pattern.0), None);
        assert_eq!(read(0x53, 0xFD, 0x52, &[0x01; 7]), None);
        assert_eq!(read(0x53, 0xFD, 0x52, &[0x01; 9]), None);
        assert_eq!(Request::read(&[0xE5]), None);
        assert_eq!(Request::read(&[]), None);
    }
}
