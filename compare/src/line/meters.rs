//! The meters on a line, and what a request that they hear does to them.

use super::pattern::{Pattern, packed};
use super::request::Request;
use crate::frame::ACKNOWLEDGEMENT;
use crate::reply::MeterAddress;

/// What lines made from a table of meters answer for garbled bytes.
pub const GARBLED: u8 = 0x00;

#[derive(Debug, Clone, PartialEq, Eq)]
pub struct Meter {
    pub address: MeterAddress,
    /// One at least.
    pub telegrams: Vec<Vec<u8>>,
}

/// What requests change.
#[derive(Debug, Clone, Copy, PartialEq, Eq, Default)]
pub struct State {
    selection: Option<Pattern>,
    /// The frame count bit of the last fetch that was taken up.
    kept_bit: Option<bool>,
    /// The number, from 1, of a telegram of the only selected meter; 0 if no
    /// bit is kept.
    turn: usize,
}

/// Whom a selection is for.
#[derive(Debug, Clone, Copy, PartialEq, Eq)]
pub enum Selected<'a> {
    Nobody,
    One(&'a Meter),
    Several,
}

pub struct Meters {
    meters: Vec<Meter>,
    /// The meters' addresses for filters: every request looks at them all.
    addresses: Vec<u64>,
}

impl Meters {
    pub fn new(meters: Vec<Meter>) -> Self {
        let addresses = meters.iter().map(|meter| packed(meter.address)).collect();
        Meters { meters, addresses }
    }

    pub fn all(&self) -> &[Meter] {
        &self.meters
    }

    /// The state after hearing any bytes, and the reply that is then due.
    pub fn hear(&self, state: State, request: &[u8]) -> (State, Vec<u8>) {
        match Request::read(request) {
            None => (state, Vec::new()),
            Some(Request::Selection(pattern)) => self.hear_selection(pattern),
            Some(Request::Fetch { bit }) => self.hear_fetch(state, bit),
            Some(Request::Release) => (State::default(), Vec::new()),
        }
    }

    pub fn selected(&self, state: State) -> Selected<'_> {
        state
            .selection
            .map_or(Selected::Nobody, |pattern| self.fitting(pattern))
    }

    pub fn fitting(&self, pattern: Pattern) -> Selected<'_> {
        let filter = pattern.filter();
        let mut fitting =
            (0..self.meters.len()).filter(|&index| filter.lets_through(self.addresses[index]));
        match (fitting.next(), fitting.next()) {
            (None, _) => Selected::Nobody,
            (Some(index), None) => Selected::One(&self.meters[index]),
            (Some(_), Some(_)) => Selected::Several,
        }
    }

    fn hear_selection(&self, pattern: Pattern) -> (State, Vec<u8>) {
        let state = State {
            selection: Some(pattern),
            ..State::default()
        };
        let due = match self.selected(state) {
            Selected::Nobody => Vec::new(),
            _ => vec![ACKNOWLEDGEMENT],
        };
        (state, due)
    }

    fn hear_fetch(&self, state: State, bit: bool) -> (State, Vec<u8>) {
        match self.selected(state) {
            Selected::Nobody => (state, Vec::new()),
            Selected::Several => (state, vec![GARBLED]),
            Selected::One(meter) => {
                let count = meter.telegrams.len();
                let turn = match state.kept_bit {
                    // The same fetch again, whose reply got lost.
                    Some(kept) if kept == bit => state.turn,
                    _ => state.turn % count + 1,
                };
                let state = State {
                    kept_bit: Some(bit),
                    turn,
                    ..state
                };
                (state, meter.telegrams[turn - 1].clone())
            }
        }
    }
}

#[cfg(test)]
mod tests {
    use super::*;

    fn meter(number: u32, telegrams: usize) -> Meter {
        let address = MeterAddress {
            number,
            maker: 0x2C2D,
            version: 1,
            medium: 4,
        };
        // What a telegram holds does not matter here.
        let telegrams = (1..=telegrams as u8).map(|turn| vec![turn]).collect();
        Meter { address, telegrams }
    }

    /// The replies due to these requests, in a row.
    fn due(meters: &Meters, requests: &[Request]) -> Vec<Vec<u8>> {
        let mut state = State::default();
        let mut replies = Vec::new();
        for request in requests {
            let (after, reply) = meters.hear(state, &request.to_bytes());
            state = after;
            replies.push(reply);
        }
        replies
    }

    fn selection(digits: &[u8]) -> Request {
        Request::Selection(Pattern::of_beginning(digits))
    }

    const BIT_0: Request = Request::Fetch { bit: false };
    const BIT_1: Request = Request::Fetch { bit: true };

    #[test]
    fn telegrams_come_in_turn_as_the_bit_changes() {
        let meters = Meters::new(vec![meter(12_345_678, 2)]);
        let requests = [
            selection(&[1]),
            BIT_1,
            BIT_1,
            BIT_0,
            BIT_1,
            BIT_1,
            selection(&[]),
            BIT_0,
        ];
        let expected: [&[u8]; 8] = [&[0xE5], &[1], &[1], &[2], &[1], &[1], &[0xE5], &[1]];
        assert_eq!(due(&meters, &requests), expected);
    }

    #[test]
    fn nobody_is_silent_and_several_are_garbled() {
        let meters = Meters::new(vec![meter(12_345_678, 1), meter(12_900_003, 1)]);
        let requests = [
            BIT_1,
            selection(&[2]),
            BIT_1,
            selection(&[1, 2]),
            BIT_1,
            Request::Release,
            BIT_1,
        ];
        let expected: [&[u8]; 7] = [&[], &[], &[], &[0xE5], &[0x00], &[], &[]];
        assert_eq!(due(&meters, &requests), expected);
    }

    #[test]
    fn what_is_no_request_changes_nothing() {
        let meters = Meters::new(vec![meter(12_345_678, 1)]);
        let (state, _) = meters.hear(State::default(), &selection(&[]).to_bytes());
        for bytes in [&[][..], &[0xE5], &[0x10, 0x40, 0xFE, 0x3E, 0x16]] {
            assert_eq!(meters.hear(state, bytes), (state, Vec::new()));
        }
    }
}
