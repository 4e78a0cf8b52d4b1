//! Random bodies of replies: rows of records, good and bad.

use super::damage;
use super::generator::Generator;
use super::record::Record;
use crate::records::{FILLER, MAKER, MAKER_AND_MORE};
use crate::reply::MOST_BODY;

/// One body in this many is noise.
const NOISE_ONE_IN: usize = 12;

/// One body of records in this many is damaged.
const DAMAGED_ONE_IN: usize = 3;

/// One reading in this many is spoiled.
const SPOILED_ONE_IN: usize = 20;

const FILLER_ONE_IN: usize = 8;
const MAKER_ONE_IN: usize = 6;

/// Mostly a row of records; its damage comes before any checksum is made.
pub fn body(generator: &mut Generator) -> Vec<u8> {
    if generator.one_in(NOISE_ONE_IN) {
        let count = generator.count(MOST_BODY);
        return generator.bytes(count);
    }
    let count = match generator.below(12) {
        0 => MOST_BODY,
        _ => generator.below(8),
    };
    let mut body = row(generator, count, any_reading);
    if generator.one_in(DAMAGED_ONE_IN) {
        damage::damage_body(generator, &mut body);
        while generator.one_in(4) {
            damage::damage_body(generator, &mut body);
        }
    }
    body.truncate(MOST_BODY);
    body
}

/// Up to `count` readings, as long as they fit, with fillers between them and
/// manufacturer's data behind them at times.
pub fn row(
    generator: &mut Generator,
    count: usize,
    reading: impl Fn(&mut Generator) -> Record,
) -> Vec<u8> {
    let mut row = Vec::new();
    for _ in 0..count {
        push_fillers(generator, &mut row);
        let next = reading(generator).to_bytes();
        if row.len() + next.len() > MOST_BODY {
            break;
        }
        row.extend(next);
    }
    push_fillers(generator, &mut row);
    if generator.one_in(MAKER_ONE_IN) {
        row.push(generator.pick(&[MAKER, MAKER_AND_MORE]));
        let count = generator.count(30);
        row.extend(generator.bytes(count));
    }
    row.truncate(MOST_BODY);
    row
}

fn push_fillers(generator: &mut Generator, row: &mut Vec<u8>) {
    while generator.one_in(FILLER_ONE_IN) {
        row.push(FILLER);
    }
}

fn any_reading(generator: &mut Generator) -> Record {
    let mut record = Record::random(generator);
    if generator.one_in(SPOILED_ONE_IN) {
        record.spoil(generator);
    }
    record
}
