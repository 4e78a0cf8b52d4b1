//! A line made from a table of meters and a list of faults, for tests.

use super::Line;
use super::meters::{GARBLED, Meter, Meters, State};
use crate::fault::{Refusal, Report};
use crate::reply::{MOST_BODY, MeterAddress, Reply};

pub const MOST_ROWS: usize = 250;
pub const MOST_AREA: usize = 65_535;
pub const MOST_CODES: usize = 4096;
pub const MOST_BODIES: usize = 16;

const CLEAN: u8 = 0;
const LOST_OUT: u8 = 1;
const LOST_BACK: u8 = 2;
const DAMAGED: u8 = 3;

#[derive(Debug, Clone, PartialEq, Eq)]
pub struct Row {
    pub address: MeterAddress,
    /// The byte A of the row's telegrams.
    pub primary: u8,
    pub bodies: Vec<Span>,
}

/// A part of the area.
#[derive(Debug, Clone, Copy, PartialEq, Eq)]
pub struct Span {
    pub start: u16,
    pub length: u16,
}

pub struct Bench {
    meters: Meters,
    state: State,
    codes: Vec<u8>,
    /// The code of the next exchange, if there is one.
    next: usize,
    run: usize,
    streak: usize,
}

impl Bench {
    pub fn new(rows: &[Row], area: &[u8], codes: &[u8]) -> Result<Self, Report> {
        check(rows, area, codes)?;
        let meters = rows.iter().map(|row| row.meter(area)).collect();
        let stretches = codes.split(|&code| code == CLEAN);
        Ok(Bench {
            meters: Meters::new(meters),
            state: State::default(),
            codes: codes.to_vec(),
            next: 0,
            run: stretches.map(<[u8]>::len).max().unwrap_or(0),
            streak: 0,
        })
    }

    fn next_code(&mut self) -> u8 {
        let code = self.codes.get(self.next).copied().unwrap_or(CLEAN);
        self.next += 1;
        code
    }
}

impl Line for Bench {
    fn exchange(&mut self, request: &[u8]) -> Vec<u8> {
        let code = self.next_code();
        self.streak = if code == CLEAN { 0 } else { self.streak + 1 };
        if code == LOST_OUT {
            return Vec::new();
        }
        let (state, due) = self.meters.hear(self.state, request);
        self.state = state;
        match code {
            LOST_BACK => Vec::new(),
            DAMAGED if !due.is_empty() => vec![GARBLED],
            _ => due,
        }
    }

    fn meters(&self) -> &Meters {
        &self.meters
    }

    fn state(&self) -> State {
        self.state
    }

    fn run(&self) -> usize {
        self.run
    }

    fn streak(&self) -> usize {
        self.streak
    }
}

impl Row {
    fn is_good(&self, area: &[u8]) -> bool {
        (1..=MOST_BODIES).contains(&self.bodies.len())
            && self
                .bodies
                .iter()
                .all(|body| usize::from(body.length) <= MOST_BODY && body.of(area).is_some())
    }

    /// Of a good row.
    fn meter(&self, area: &[u8]) -> Meter {
        let telegrams = self
            .bodies
            .iter()
            .filter_map(|body| body.of(area))
            .map(|body| self.telegram(body))
            .collect();
        Meter {
            address: self.address,
            telegrams,
        }
    }

    fn telegram(&self, body: &[u8]) -> Vec<u8> {
        Reply {
            meter: self.address,
            access: 0,
            status: 0,
            signature: 0,
            body,
        }
        .to_telegram(self.primary)
    }
}

impl Span {
    /// None if it is not inside the area.
    fn of(self, area: &[u8]) -> Option<&[u8]> {
        let start = usize::from(self.start);
        area.get(start..start + usize::from(self.length))
    }
}

fn check(rows: &[Row], area: &[u8], codes: &[u8]) -> Result<(), Report> {
    if rows.len() > MOST_ROWS || area.len() > MOST_AREA || codes.len() > MOST_CODES {
        return Err(Report::from(Refusal::TooLarge));
    }
    let bad_row = rows.iter().position(|row| !row.is_good(area));
    let bad_code = || codes.iter().position(|&code| code > DAMAGED);
    match bad_row.or_else(bad_code) {
        Some(number) => Err(Report::from(Refusal::BadPart.at(number))),
        None => Ok(()),
    }
}

#[cfg(test)]
mod tests {
    use super::*;
    use crate::line::{Pattern, Request};

    fn row(bodies: &[(u16, u16)]) -> Row {
        let span = |&(start, length)| Span { start, length };
        Row {
            address: MeterAddress {
                number: 12_345_678,
                maker: 0x2C2D,
                version: 1,
                medium: 4,
            },
            primary: 5,
            bodies: bodies.iter().map(span).collect(),
        }
    }

    fn refusal(rows: &[Row], area: usize, codes: &[u8]) -> Option<(u8, Option<usize>)> {
        let refused = Bench::new(rows, &vec![0x2F; area], codes).err()?;
        Some((refused.refusal.number(), refused.place))
    }

    #[test]
    fn rows_at_their_limits() {
        let one = |bodies: &[(u16, u16)]| refusal(&[row(&[(0, 0)]), row(bodies)], 300, &[]);
        let bad = Some((22, Some(1)));
        assert_eq!(one(&[(0, 240)]), None);
        assert_eq!(one(&[(0, 241)]), bad);
        assert_eq!(one(&[(60, 240), (300, 0)]), None);
        assert_eq!(one(&[(0, 0), (61, 240)]), bad);
        assert_eq!(one(&[(301, 0)]), bad);
        assert_eq!(one(&[]), bad);
        assert_eq!(one(&[(0, 1); 16]), None);
        assert_eq!(one(&[(0, 1); 17]), bad);
    }

    #[test]
    fn sizes_come_before_rows_and_rows_before_codes() {
        let good = row(&[(0, 0)]);
        let rows = |count| vec![good.clone(); count];
        assert_eq!(refusal(&rows(250), 65_535, &[0; 4096]), None);
        assert_eq!(refusal(&rows(251), 0, &[]), Some((21, None)));
        assert_eq!(refusal(&[row(&[])], 65_536, &[4]), Some((21, None)));
        assert_eq!(refusal(&[], 0, &[0; 4097]), Some((21, None)));
        assert_eq!(refusal(&[row(&[])], 0, &[4]), Some((22, Some(0))));
        assert_eq!(refusal(&[], 0, &[3, 0, 4, 5]), Some((22, Some(2))));
    }

    #[test]
    fn the_run_is_the_longest_stretch_of_faults() {
        let run = |codes: &[u8]| Bench::new(&[], &[], codes).map(|bench| bench.run());
        assert_eq!(run(&[]), Ok(0));
        assert_eq!(run(&[0, 0]), Ok(0));
        assert_eq!(run(&[1, 0, 2, 3, 0, 0, 1]), Ok(2));
        assert_eq!(run(&[0, 1, 1, 1]), Ok(3));
    }

    #[test]
    fn each_code_befalls_one_exchange() {
        let rows = [row(&[(0, 0)])];
        let mut bench = Bench::new(&rows, &[], &[0, 1, 2, 3, 3]).unwrap();
        let selection = Request::Selection(Pattern::of_beginning(&[1])).to_bytes();
        let nobody = Request::Selection(Pattern::of_beginning(&[2])).to_bytes();
        assert_eq!(bench.exchange(&selection), [0xE5]);
        let selected = bench.state();
        assert_eq!(bench.exchange(&nobody), []);
        assert_eq!(bench.state(), selected);
        assert_eq!(bench.exchange(&nobody), []);
        assert_ne!(bench.state(), selected);
        assert_eq!(bench.exchange(&selection), [0x00]);
        assert_eq!(bench.exchange(&nobody), []);
        assert_eq!(bench.streak(), 4);
        assert_eq!(bench.exchange(&selection), [0xE5]);
        assert_eq!(bench.streak(), 0);
    }
}
