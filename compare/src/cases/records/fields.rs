//! Every data field, and the edges of whole and real numbers.

use super::{Cases, with_byte, with_more};

/// How many bytes of data each data field has. A text is of two bytes here,
/// behind its length byte.
const WIDTHS: [usize; 16] = [0, 1, 2, 3, 4, 4, 6, 8, 0, 1, 2, 3, 4, TEXT_WIDTH, 6, 0];
const TEXT: u8 = 0xD;
const TEXT_WIDTH: usize = 3;

const WHOLE_NUMBERS: [u8; 6] = [0x1, 0x2, 0x3, 0x4, 0x6, 0x7];

const REALS: [u32; 14] = [
    0x0000_0000,
    0x8000_0000,
    0x0000_0001,
    0x007F_FFFF,
    0x0080_0000,
    0x3F80_0000,
    0xBF80_0000,
    0x7F7F_FFFF,
    0x7F80_0000,
    0xFF80_0000,
    0x7F80_0001,
    0x7FC0_0000,
    0xFFFF_FFFF,
    0xC2F6_E979,
];

pub fn add(cases: &mut Cases) {
    add_every_field(cases);
    add_whole_numbers(cases);
    add_missing_data(cases);
    add_reals(cases);
}

fn width(field: u8) -> usize {
    WIDTHS[usize::from(field)]
}

/// As many bytes of this value as the data field has.
fn fitting_data(field: u8, value: u8) -> Vec<u8> {
    let data = vec![value; width(field)];
    if field == TEXT {
        with_byte(&data, 0, TEXT_WIDTH as u8 - 1)
    } else {
        data
    }
}

fn add_every_field(cases: &mut Cases) {
    cases.note("every data field with fitting data, with and without the storage bit");
    for storage_bit in [0x00, 0x40] {
        for field in 0x0..=0xF {
            let data = fitting_data(field, 0x01);
            cases.body(with_more(&[storage_bit | field, 0x13], &data));
        }
    }
    cases.note("every data field with bytes of 00, then of FF");
    for value in [0x00, 0xFF] {
        for field in 0x0..=0xF {
            let data = fitting_data(field, value);
            cases.body(with_more(&[0x40 | field, 0x13], &data));
        }
    }
    cases.note("data field 0: no data, all sorts of VIFs, another reading at once");
    cases.body([0x00, 0x13]);
    cases.body([0x30, 0x6D]);
    cases.body([0x00, 0xFD, 0x17]);
    cases.body([0x00, 0x13, 0x00, 0x14, 0x01, 0x15, 0x00]);
    cases.note("data field 8: alone, with fitting data, with each function");
    cases.body([0x08]);
    for high in 0x0..=0xF_u8 {
        cases.body([high << 4 | 0x8, 0x13, 0x00, 0x00, 0x00, 0x00]);
    }
}

fn add_whole_numbers(cases: &mut Cases) {
    for field in WHOLE_NUMBERS {
        let bytes = width(field);
        cases.note(&format!(
            "whole numbers at their edges, width in bytes: {bytes}"
        ));
        let zero = vec![0x00; bytes];
        let minus_one = vec![0xFF; bytes];
        let top = bytes - 1;
        let counting: Vec<u8> = (1..=bytes).map(|byte| 0x11 * byte as u8).collect();
        for data in [
            with_byte(&zero, 0, 0x01),
            with_byte(&minus_one, 0, 0xFE),
            with_byte(&zero, top, 0x80),
            with_byte(&minus_one, top, 0x7F),
            with_byte(&zero, 0, 0x80),
            with_byte(&zero, 0, 0xFF),
            with_byte(&minus_one, 0, 0x00),
            with_byte(&zero, top, 0x01),
            with_byte(&minus_one, top, 0x80),
            with_byte(&zero, top, 0x7F),
            counting.clone(),
            counting.iter().map(|byte| !byte).collect(),
        ] {
            cases.body(with_more(&[field, 0x13], &data));
        }
    }
}

fn add_missing_data(cases: &mut Cases) {
    cases.note("one byte of data too few, then none, for every data field that has data");
    for field in (0x0..=0xF).filter(|&field| width(field) > 0) {
        let data = fitting_data(field, 0x01);
        cases.body(with_more(&[field, 0x13], &data[..data.len() - 1]));
        cases.body([field, 0x13]);
    }
}

fn add_reals(cases: &mut Cases) {
    cases.note("real numbers: zeros, ones, smallest, largest, infinities, no numbers");
    for pattern in REALS {
        cases.body(with_more(&[0x05, 0x5B], &pattern.to_le_bytes()));
    }
}
