//! Random captures, good and damaged, up to the limits and one past each.

use super::addresses::{addresses, any_address};
use super::area::body_of_telegram;
use super::damage;
use super::generator::Generator;
use crate::line::{MOST_BYTES, MOST_METERS, MOST_TELEGRAMS};
use crate::records::MAKER_AND_MORE;
use crate::reply::{MOST_BODY, MeterAddress, Reply};

/// Bytes of the smallest reply telegram.
const SMALLEST: usize = 21;

const DAMAGED_ONE_IN: usize = 4;

/// What can be about a capture.
#[derive(Clone, Copy)]
enum Size {
    Empty,
    Usual,
    ManyMeters,
    ManyTelegrams,
    ManyBytes,
}

const SIZES: [(Size, usize); 5] = [
    (Size::Empty, 1),
    (Size::Usual, 30),
    (Size::ManyMeters, 3),
    (Size::ManyTelegrams, 3),
    (Size::ManyBytes, 3),
];

type Telegrams = Vec<Vec<u8>>;

pub fn capture(generator: &mut Generator) -> Vec<u8> {
    let mut telegrams = match generator.pick_weighted(&SIZES) {
        Size::Empty => Vec::new(),
        Size::Usual => {
            let count = 1 + generator.count(20);
            of_meters(generator, count)
        }
        Size::ManyMeters => many_meters(generator),
        Size::ManyTelegrams => many_telegrams(generator),
        Size::ManyBytes => many_bytes(generator),
    };
    if generator.one_in(DAMAGED_ONE_IN) {
        spoil(generator, &mut telegrams);
    }
    let mut capture = telegrams.concat();
    if generator.one_in(3 * DAMAGED_ONE_IN) {
        spoil_bytes(generator, &mut capture);
    }
    capture
}

/// So many meters, some of which stand at two places.
fn of_meters(generator: &mut Generator, count: usize) -> Telegrams {
    let mut telegrams = Vec::new();
    for address in addresses(generator, count) {
        telegrams.extend(of_meter(generator, address));
    }
    while generator.one_in(3) {
        let place = generator.below(telegrams.len() + 1);
        let copied = telegrams[generator.below(telegrams.len())].clone();
        telegrams.insert(place, copied);
    }
    telegrams
}

fn of_meter(generator: &mut Generator, address: MeterAddress) -> Telegrams {
    let count = match generator.below(10) {
        0 => MOST_TELEGRAMS,
        1 | 2 => 1 + generator.below(MOST_TELEGRAMS),
        3..6 => 2 + generator.below(2),
        _ => 1,
    };
    // As real meters do it, for ever, or at random.
    let promises = generator.pick(&[count - 1, count - 1, count, 0]);
    (0..count)
        .map(|index| {
            let mut body = body_of_telegram(generator);
            if index < promises && !generator.one_in(20) {
                body.clear();
                body.push(MAKER_AND_MORE);
            }
            telegram(generator, address, &body)
        })
        .collect()
}

fn telegram(generator: &mut Generator, meter: MeterAddress, body: &[u8]) -> Vec<u8> {
    Reply {
        meter,
        access: generator.byte(),
        status: generator.byte(),
        signature: 0,
        body,
    }
    .to_telegram(generator.byte())
}

/// One meter more or less than there may be, with small telegrams.
fn many_meters(generator: &mut Generator) -> Telegrams {
    let count = generator.pick(&[MOST_METERS - 1, MOST_METERS, MOST_METERS, MOST_METERS + 1]);
    let mut telegrams: Telegrams = Vec::new();
    for address in addresses(generator, count) {
        let body = generator.pick(&[&[][..], &[0x1F], &[0x01, 0x13, 0x05]]);
        let count = 1 + generator.below(3);
        telegrams.extend((0..count).map(|_| telegram(generator, address, body)));
    }
    telegrams
}

/// One meter, among others, with as many telegrams as it may have, or one more.
fn many_telegrams(generator: &mut Generator) -> Telegrams {
    let count = generator.below(6);
    let mut telegrams = of_meters(generator, count.max(1));
    let address = any_address(generator);
    let more = MOST_TELEGRAMS + generator.below(2);
    let promises = generator.pick(&[0, more - 1, more]);
    let place = generator.below(telegrams.len() + 1);
    for index in 0..more {
        let body = if index < promises {
            vec![MAKER_AND_MORE, index as u8]
        } else {
            vec![0x01, 0x13, index as u8]
        };
        let telegram = telegram(generator, address, &body);
        telegrams.insert(place + index, telegram);
    }
    telegrams
}

/// As many bytes as there may be, or one more or less.
fn many_bytes(generator: &mut Generator) -> Telegrams {
    let mut left = MOST_BYTES + generator.below(3) - 1;
    let mut telegrams = Vec::new();
    let mut address = any_address(generator);
    let mut of_address = 0;
    while left > 0 {
        // The rest has to be enough for a telegram of its own, or nothing.
        let largest = SMALLEST + MOST_BODY;
        let size = match left {
            ..=261 => left,
            262..=282 => left - SMALLEST,
            _ => largest - generator.below(30),
        };
        let mut body = body_of_telegram(generator);
        body.resize(size.min(largest) - SMALLEST, 0x2F);
        telegrams.push(telegram(generator, address, &body));
        left -= size.min(largest);
        of_address += 1;
        if of_address == MOST_TELEGRAMS || generator.one_in(8) {
            address = any_address(generator);
            of_address = 0;
        }
    }
    telegrams
}

/// Damages one telegram or two, or puts in something else.
fn spoil(generator: &mut Generator, telegrams: &mut Telegrams) {
    for _ in 0..=generator.below(2) {
        if telegrams.is_empty() || generator.one_in(5) {
            let place = generator.below(telegrams.len() + 1);
            telegrams.insert(place, generator.pick(OTHERS).to_vec());
            continue;
        }
        let index = generator.below(telegrams.len());
        match generator.below(3) {
            0 => spoil_head(generator, &mut telegrams[index]),
            _ => damage::damage(generator, &mut telegrams[index]),
        }
    }
}

/// What has no place in a capture.
const OTHERS: &[&[u8]] = &[
    &[0xE5],
    &[0x68],
    &[0x00],
    &[0x10, 0x7B, 0xFD, 0x78, 0x16],
    &[0x10, 0x01, 0x00, 0x01, 0x16],
    &[0x68, 0x03, 0x03, 0x68, 0x08, 0x01, 0x72, 0x7B, 0x16],
];

/// Changes the control or information byte or digits of the number, and makes
/// the checksum right again: the telegram stays a frame.
fn spoil_head(generator: &mut Generator, telegram: &mut [u8]) {
    for _ in 0..=generator.below(2) {
        let place = generator.pick(&[4, 6, 7, 8, 9, 10]);
        let digit = 0xA + generator.below(6) as u8;
        let bits = generator.pick(&[digit, digit << 4]);
        if let Some(byte) = telegram.get_mut(place) {
            *byte |= bits;
        }
    }
    damage::mend_checksum(telegram);
}

/// Cuts the capture, drops a byte or puts one in.
fn spoil_bytes(generator: &mut Generator, capture: &mut Vec<u8>) {
    let place = generator.below(capture.len() + 1);
    match generator.below(4) {
        0 if place < capture.len() => {
            capture.remove(place);
        }
        1 => capture.insert(place, generator.byte()),
        2 => capture.push(generator.pick(&[0xE5, 0x68, 0x10, 0x00])),
        _ => capture.truncate(place),
    }
}

#[cfg(test)]
#[path = "captures_tests.rs"]
mod tests;
