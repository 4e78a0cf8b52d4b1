//! Random test houses, from tiny ones to the limits.

use super::addresses::addresses;
use super::area::Area;
use super::calls::calls;
use super::fault_codes::codes;
use super::generator::Generator;
use crate::beginnings;
use crate::line::{MOST_BODIES, MOST_CODES, MOST_RETRIES, MOST_ROWS, Row};
use crate::reply::MeterAddress;
use crate::scenario::{MOST_LAYERS, MOST_PLACES, TestHouse};

/// Exchanges that the searches in one house may take about; one search is
/// always allowed.
const MOST_EXCHANGES: usize = 300_000;

/// One house in this many has as much of everything as there can be.
const FULL_ONE_IN: usize = 60;

/// One house in this many has the largest area.
const FULL_AREA_ONE_IN: usize = 40;

/// A house from which a line can be made.
pub fn good_house(generator: &mut Generator) -> TestHouse {
    let full = generator.one_in(FULL_ONE_IN);
    let count = if full { MOST_ROWS } else { meters(generator) };
    let addresses = addresses(generator, count);
    let numbers: Vec<u32> = addresses.iter().map(|address| address.number).collect();
    let limits = limits(generator);
    let tries: usize = limits.iter().map(|&limit| usize::from(limit) + 1).product();
    let cost = tries * (1 + 10 * beginnings::common(&numbers));
    let (rows, area) = rows(generator, &addresses, full);
    let mut codes = codes(generator, tries, MOST_CODES);
    if full {
        codes.resize(MOST_CODES, 0);
    }
    TestHouse {
        rows,
        area,
        codes,
        limits,
        places: places(generator, numbers),
        calls: calls(generator, &addresses, (MOST_EXCHANGES / cost).max(1)),
    }
}

/// The rows and the area that they lie in.
fn rows(generator: &mut Generator, addresses: &[MeterAddress], full: bool) -> (Vec<Row>, Vec<u8>) {
    let mut area = Area::default();
    let mut rows: Vec<Row> = addresses
        .iter()
        .map(|&address| row(generator, address, &mut area, full))
        .collect();
    if full || generator.one_in(FULL_AREA_ONE_IN) {
        let last = area.fill();
        if let Some(row) = rows.first_mut() {
            row.bodies[0] = last;
        }
    }
    (rows, area.bytes)
}

fn meters(generator: &mut Generator) -> usize {
    match generator.below(64) {
        0 => MOST_ROWS,
        1 | 2 => generator.below(MOST_ROWS + 1),
        3..12 => generator.below(40),
        12..40 => generator.below(10),
        40..60 => generator.pick(&[1, 2, 2, 3]),
        _ => 0,
    }
}

fn row(generator: &mut Generator, address: MeterAddress, area: &mut Area, full: bool) -> Row {
    let count = match generator.below(10) {
        _ if full => MOST_BODIES,
        0 => MOST_BODIES,
        1 | 2 => 1 + generator.below(MOST_BODIES),
        3..6 => 2 + generator.below(2),
        _ => 1,
    };
    Row {
        address,
        primary: generator.byte(),
        bodies: (0..count).map(|_| area.body(generator)).collect(),
    }
}

/// Small limits come more often, so that faults reach the top.
fn limits(generator: &mut Generator) -> Vec<u8> {
    let count = generator.below(MOST_LAYERS + 1);
    let limit = |_| match generator.below(4) {
        0 => generator.below(usize::from(MOST_RETRIES) + 1) as u8,
        _ => generator.pick(&[0, 1, 1, 1, 2, 2, 3]),
    };
    (0..count).map(limit).collect()
}

/// Often enough places, at times just enough or one too few.
fn places(generator: &mut Generator, mut numbers: Vec<u32>) -> usize {
    numbers.sort_unstable();
    numbers.dedup();
    match generator.below(8) {
        0 => numbers.len(),
        1 => numbers.len().saturating_sub(1),
        2 => generator.below(numbers.len() + 1),
        3 => generator.below(MOST_PLACES + 1),
        _ => MOST_PLACES,
    }
}

#[cfg(test)]
mod tests {
    use super::*;

    #[test]
    fn a_line_can_be_made_from_each() {
        let mut generator = Generator::new(3);
        for _ in 0..1000 {
            assert!(good_house(&mut generator).line().is_ok());
        }
    }
}
