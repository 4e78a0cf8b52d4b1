//! Spoils a test house, so that no line can be made from it.

use super::generator::Generator;
use crate::line::{MOST_AREA, MOST_BODIES, MOST_CODES, MOST_RETRIES, MOST_ROWS, Row, Span};
use crate::reply::{MOST_BODY, MeterAddress};
use crate::scenario::TestHouse;

#[derive(Clone, Copy)]
enum Flaw {
    ManyRows,
    LargeArea,
    ManyCodes,
    BadRow,
    BadCode,
    HighLimit,
}

/// The flaws that are told with a place stand here more often.
const MIX: [(Flaw, usize); 6] = [
    (Flaw::ManyRows, 1),
    (Flaw::LargeArea, 1),
    (Flaw::ManyCodes, 1),
    (Flaw::BadRow, 5),
    (Flaw::BadCode, 3),
    (Flaw::HighLimit, 3),
];

/// Several flaws at once show the order of the checks.
pub fn spoil(generator: &mut Generator, house: &mut TestHouse) {
    spoil_once(generator, house);
    while generator.one_in(3) {
        spoil_once(generator, house);
    }
}

fn spoil_once(generator: &mut Generator, house: &mut TestHouse) {
    // Far beyond at times: more than what the limits need must be held too.
    let beyond = generator.pick(&[1, 1, 1, 1, 2, 10, 2000]);
    match generator.pick_weighted(&MIX) {
        Flaw::ManyRows => {
            let row = house.rows.first().cloned().unwrap_or_else(bad_row);
            house.rows.resize(MOST_ROWS + beyond, row);
        }
        Flaw::LargeArea => house.area.resize(MOST_AREA + 40 * beyond - 39, 0x2F),
        Flaw::ManyCodes => house.codes.resize(MOST_CODES + beyond, 0),
        Flaw::BadRow => spoil_row(generator, house),
        Flaw::BadCode => {
            let place = generator.below(house.codes.len() + 1);
            let code = 4 + generator.below(252) as u8;
            house.codes.insert(place, generator.pick(&[4, 255, code]));
        }
        Flaw::HighLimit => {
            let limit = MOST_RETRIES + 1 + generator.below(248) as u8;
            let limit = generator.pick(&[MOST_RETRIES + 1, 255, limit]);
            match house.limits.len() {
                0 => house.limits.push(limit),
                count => house.limits[generator.below(count)] = limit,
            }
        }
    }
}

fn spoil_row(generator: &mut Generator, house: &mut TestHouse) {
    let end = house.area.len();
    if house.rows.is_empty() {
        house.rows.push(bad_row());
        return;
    }
    let index = generator.below(house.rows.len());
    let bodies = &mut house.rows[index].bodies;
    let bad = match generator.below(6) {
        0 => {
            bodies.clear();
            return;
        }
        1 => {
            let count = generator.pick(&[MOST_BODIES + 1, MOST_BODIES + 1, MOST_BODIES + 2, 5000]);
            bodies.resize(count, span(0, 0));
            return;
        }
        2 => span(0, MOST_BODY + 1),
        3 => span(end, 1),
        4 => span(end + 1, 0),
        _ => {
            let length = generator.below(MOST_BODY);
            span((end + 1).saturating_sub(length), length)
        }
    };
    let place = generator.below(bodies.len().max(1));
    bodies.truncate(MOST_BODIES - 1);
    bodies.insert(place.min(bodies.len()), bad);
}

/// As far as 16 bits allow.
fn span(start: usize, length: usize) -> Span {
    Span {
        start: start.min(MOST_AREA) as u16,
        length: length.min(MOST_AREA) as u16,
    }
}

fn bad_row() -> Row {
    Row {
        address: MeterAddress {
            number: 0,
            maker: 0,
            version: 0,
            medium: 0,
        },
        primary: 0,
        bodies: Vec::new(),
    }
}
