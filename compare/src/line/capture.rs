//! A line made from recorded reply telegrams.

use super::Line;
use super::meters::{Meter, Meters, State};
use crate::fault::{Refusal, Report};
use crate::frame::{LONG_HEADER, TRAILER};
use crate::reply::Reply;

pub const MOST_BYTES: usize = 60_000;
pub const MOST_METERS: usize = 250;
pub const MOST_TELEGRAMS: usize = 16;

pub struct Capture {
    meters: Meters,
    state: State,
}

impl Capture {
    pub fn read(bytes: &[u8]) -> Result<Self, Report> {
        if bytes.len() > MOST_BYTES {
            return Err(Report::from(Refusal::TooLarge));
        }
        let mut meters = Vec::new();
        let mut rest = bytes;
        let mut number = 0;
        while !rest.is_empty() {
            number += 1;
            let (telegram, after) = rest.split_at(first_size(rest));
            add(&mut meters, number, telegram)?;
            rest = after;
        }
        Ok(Capture {
            meters: Meters::new(meters),
            state: State::default(),
        })
    }

    /// How many telegrams there are of all meters together.
    pub fn telegrams(&self) -> usize {
        let counts = self.meters.all().iter().map(|meter| meter.telegrams.len());
        counts.sum()
    }
}

/// How many bytes belong to the first telegram, whether it is good or not: as
/// many as a long frame has with the second byte as its L, if there are so
/// many.
fn first_size(bytes: &[u8]) -> usize {
    match bytes.get(1) {
        Some(&length) => bytes.len().min(LONG_HEADER + usize::from(length) + TRAILER),
        None => bytes.len(),
    }
}

fn add(meters: &mut Vec<Meter>, number: usize, telegram: &[u8]) -> Result<(), Report> {
    let reply =
        Reply::read_telegram(telegram).map_err(|fault| Report::of_telegram(number, fault))?;
    let too_large = Report {
        telegram: Some(number),
        ..Report::from(Refusal::TooLarge)
    };
    let full = meters.len() == MOST_METERS;
    match meters.last_mut() {
        Some(last) if last.address == reply.meter => {
            if last.telegrams.len() == MOST_TELEGRAMS {
                return Err(too_large);
            }
            last.telegrams.push(telegram.to_vec());
        }
        _ if full => return Err(too_large),
        _ => meters.push(Meter {
            address: reply.meter,
            telegrams: vec![telegram.to_vec()],
        }),
    }
    Ok(())
}

impl Line for Capture {
    fn exchange(&mut self, request: &[u8]) -> Vec<u8> {
        let (state, due) = self.meters.hear(self.state, request);
        self.state = state;
        due
    }

    fn meters(&self) -> &Meters {
        &self.meters
    }

    fn state(&self) -> State {
        self.state
    }

    fn run(&self) -> usize {
        0
    }

    fn streak(&self) -> usize {
        0
    }
}

#[cfg(test)]
mod tests {
    use super::*;
    use crate::reply::MeterAddress;

    fn telegram(number: u32, body: &[u8]) -> Vec<u8> {
        Reply {
            meter: MeterAddress {
                number,
                maker: 0x2C2D,
                version: 1,
                medium: 4,
            },
            access: number as u8,
            status: 0,
            signature: 0,
            body,
        }
        .to_telegram(5)
    }

    fn sizes(bytes: &[u8]) -> Vec<usize> {
        let capture = Capture::read(bytes).unwrap_or_else(|report| panic!("{report}"));
        let meters = capture.meters.all();
        meters.iter().map(|meter| meter.telegrams.len()).collect()
    }

    /// Telegram, place and number of the refusal.
    fn refusal(bytes: &[u8]) -> (Option<usize>, Option<usize>, u8) {
        let refused = Capture::read(bytes).err().expect("the capture is refused");
        (refused.telegram, refused.place, refused.refusal.number())
    }

    #[test]
    fn neighbours_with_equal_addresses_are_one_meter() {
        let (one, two) = (telegram(1, &[0x2F]), telegram(2, &[]));
        assert_eq!(sizes(&[]), []);
        let bytes = [&one[..], &one, &two, &one].concat();
        assert_eq!(sizes(&bytes), [2, 1, 1]);
    }

    #[test]
    fn a_fault_is_told_with_its_telegram() {
        let good = telegram(1, &[]);
        let after_good = |bytes: &[u8]| refusal(&[&good[..], bytes].concat());
        assert_eq!(after_good(&[0x68]), (Some(2), Some(1), 3));
        assert_eq!(after_good(&[0xE5]), (Some(2), Some(0), 9));
        assert_eq!(after_good(&[0xE5, 0x00]), (Some(2), Some(1), 5));
        let fetch = [0x10, 0x7B, 0xFD, 0x78, 0x16];
        assert_eq!(after_good(&fetch), (Some(2), Some(0), 9));
        // The size comes from the second byte, whatever the first is.
        let short = [0x10, 0x01, 0x00, 0x01, 0x16];
        assert_eq!(after_good(&short), (Some(2), Some(0), 9));
        let with_more = [&short[..], &good].concat();
        assert_eq!(after_good(&with_more), (Some(2), Some(5), 5));
        assert_eq!(refusal(&good[..20]), (Some(1), Some(20), 3));
    }

    #[test]
    fn limits_of_meters_telegrams_and_bytes() {
        let sixteen = telegram(1, &[]).repeat(16);
        assert_eq!(sizes(&sixteen), [16]);
        assert_eq!(refusal(&telegram(1, &[]).repeat(17)), (Some(17), None, 21));
        let meters = |count| (0..count).flat_map(|number| telegram(number, &[]));
        assert_eq!(sizes(&meters(250).collect::<Vec<_>>()).len(), 250);
        let refused = refusal(&meters(251).collect::<Vec<_>>());
        assert_eq!(refused, (Some(251), None, 21));
        assert_eq!(refusal(&[0; 60_001]), (None, None, 21));
        assert_eq!(refusal(&[0; 60_000]), (Some(1), Some(0), 2));
    }
}
