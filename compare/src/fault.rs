//! What a telegram is refused with: "Faults" in docs/PROTOCOL.md.

use std::fmt;

/// The layer that a fault's number belongs to.
#[derive(Debug, Clone, Copy, PartialEq, Eq)]
pub enum Layer {
    Frame,
    Reply,
    Record,
    Master,
    Making,
}

impl fmt::Display for Layer {
    fn fmt(&self, f: &mut fmt::Formatter) -> fmt::Result {
        f.write_str(match self {
            Layer::Frame => "frame",
            Layer::Reply => "reply",
            Layer::Record => "record",
            Layer::Master => "master",
            Layer::Making => "making",
        })
    }
}

/// Why something is refused. Number 8 is missing: nothing here writes more
/// data than a frame holds.
#[derive(Debug, Clone, Copy, PartialEq, Eq)]
#[repr(u8)]
pub enum Refusal {
    NoByte = 1,
    UnknownStart = 2,
    TooFewBytes = 3,
    BadHeader = 4,
    TooManyBytes = 5,
    WrongStop = 6,
    WrongChecksum = 7,
    NoReply = 9,
    AddressDigitAboveNine = 10,
    BadDataField = 11,
    EleventhExtension = 12,
    VifWithoutMeaning = 13,
    DecimalDigitAboveNine = 14,
    TextTooLong = 15,
    BodyEndsEarly = 16,
    NoPlaceLeft = 17,
    PickUnanswered = 18,
    NoReplyTelegram = 19,
    FetchUnanswered = 20,
    TooLarge = 21,
    BadPart = 22,
    LimitAboveSeven = 23,
}

impl Refusal {
    pub fn number(self) -> u8 {
        self as u8
    }

    pub fn layer(self) -> Layer {
        match self.number() {
            ..=8 => Layer::Frame,
            9 | 10 => Layer::Reply,
            11..=16 => Layer::Record,
            17..=20 => Layer::Master,
            21.. => Layer::Making,
        }
    }

    pub fn at(self, place: usize) -> Fault {
        Fault {
            refusal: self,
            place,
        }
    }
}

/// A refusal and the offset of the byte that it is about.
#[derive(Debug, Clone, Copy, PartialEq, Eq)]
pub struct Fault {
    pub refusal: Refusal,
    pub place: usize,
}

/// A fault as it is told: not every refusal has a place, and not every one is
/// about a numbered telegram.
#[derive(Debug, Clone, Copy, PartialEq, Eq)]
pub struct Report {
    pub telegram: Option<usize>,
    pub place: Option<usize>,
    pub refusal: Refusal,
}

impl Report {
    pub fn of_telegram(telegram: usize, fault: Fault) -> Self {
        Report {
            telegram: Some(telegram),
            ..Report::from(fault)
        }
    }
}

impl From<Fault> for Report {
    fn from(fault: Fault) -> Self {
        Report {
            telegram: None,
            place: Some(fault.place),
            refusal: fault.refusal,
        }
    }
}

impl From<Refusal> for Report {
    fn from(refusal: Refusal) -> Self {
        Report {
            telegram: None,
            place: None,
            refusal,
        }
    }
}
