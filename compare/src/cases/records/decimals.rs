//! Decimal numbers.

use super::{Cases, with_byte, with_more};

/// Data fields of decimal numbers and their bytes.
const FIELDS: [(u8, usize); 5] = [(0x9, 1), (0xA, 2), (0xB, 3), (0xC, 4), (0xE, 6)];

pub fn add(cases: &mut Cases) {
    for (field, bytes) in FIELDS {
        add_good(cases, field, bytes);
        add_bad_topmost(cases, field, bytes);
    }
    for (field, bytes) in [(0xA, 2), (0xE, 6)] {
        add_bad_digits(cases, field, bytes);
    }
    add_every_byte(cases);
}

fn add_good(cases: &mut Cases, field: u8, bytes: usize) {
    cases.note(&format!(
        "decimal numbers: digits, nines, zeros, width in bytes: {bytes}"
    ));
    let top = bytes - 1;
    let zeros = vec![0x00; bytes];
    let nines = vec![0x99; bytes];
    let counting: Vec<u8> = [0x12, 0x34, 0x56, 0x78, 0x90, 0x21][..bytes].to_vec();
    for data in [&counting, &nines, &zeros] {
        cases.body(with_more(&[field, 0x13], data));
    }
    for data in [with_byte(&zeros, 0, 0x01), with_byte(&zeros, top, 0x10)] {
        cases.body(with_more(&[field, 0x13], &data));
    }
    cases.note("the same with F topmost: minus");
    for data in [&counting, &nines, &zeros] {
        let sign = 0xF0 | data[top] & 0x0F;
        cases.body(with_more(&[field, 0x13], &with_byte(data, top, sign)));
    }
    for (data, sign) in [(&zeros, 0xF1), (&nines, 0xF0)] {
        cases.body(with_more(&[field, 0x13], &with_byte(data, top, sign)));
    }
}

fn add_bad_topmost(cases: &mut Cases, field: u8, bytes: usize) {
    cases.note("a digit above 9 topmost, and the one below it, with and without a sign");
    let zeros = vec![0x00; bytes];
    for top in [0xA0, 0xB9, 0xE0, 0x0A, 0x9F, 0xFA, 0xFF, 0xEF] {
        cases.body(with_more(
            &[field, 0x13],
            &with_byte(&zeros, bytes - 1, top),
        ));
    }
}

fn add_bad_digits(cases: &mut Cases, field: u8, bytes: usize) {
    cases.note(&format!(
        "a digit above 9 in each place of {bytes} bytes: A, E and F"
    ));
    let digits: Vec<u8> = [0x12, 0x34, 0x56, 0x78, 0x90, 0x21][..bytes].to_vec();
    for place in 0..bytes {
        for digit in [0xA, 0xE, 0xF] {
            for pair in [
                digits[place] & 0xF0 | digit,
                digits[place] & 0x0F | digit << 4,
            ] {
                cases.body(with_more(&[field, 0x13], &with_byte(&digits, place, pair)));
            }
        }
    }
    cases.note("the same with F topmost, digits A and F");
    let signed = with_byte(&digits, bytes - 1, 0xF1);
    for place in 0..bytes {
        for digit in [0xA, 0xF] {
            let pair = signed[place] & 0xF0 | digit;
            cases.body(with_more(&[field, 0x13], &with_byte(&signed, place, pair)));
        }
    }
    cases.note("digits above 9 in two bytes, then in all: the first byte decides");
    for second in 1..bytes {
        let one = with_byte(&digits, second - 1, 0x1A);
        cases.body(with_more(&[field, 0x13], &with_byte(&one, second, 0xA1)));
    }
    cases.body(with_more(&[field, 0x13], &vec![0xAA; bytes]));
    cases.body(with_more(&[field, 0x13], &vec![0xFF; bytes]));
}

fn add_every_byte(cases: &mut Cases) {
    cases.note("a one-byte decimal: every pair with a half 0, 9, A, E or F");
    for pair in 0x00..=0xFF_u8 {
        let edges = [0x0, 0x9, 0xA, 0xE, 0xF];
        if edges.contains(&(pair >> 4)) && edges.contains(&(pair & 0x0F)) {
            cases.body([0x09, 0x13, pair]);
        }
    }
}
