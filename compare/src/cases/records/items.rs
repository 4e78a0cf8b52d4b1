//! Fillers, manufacturer's data, and readings in a row.

use super::{Cases, READING, with_more};
use crate::records::{FILLER, MAKER, MAKER_AND_MORE};
use crate::reply::MOST_BODY;

pub fn add(cases: &mut Cases) {
    add_fillers(cases);
    add_fillers_that_are_none(cases);
    add_makers_data(cases);
    add_firsts_with_data_field_f(cases);
    add_full_bodies(cases);
}

fn add_fillers(cases: &mut Cases) {
    cases.note("an empty body, then only fillers");
    for count in [0, 1, 2, 3, MOST_BODY - 1, MOST_BODY] {
        cases.body(vec![FILLER; count]);
    }
    cases.note("fillers before, between and after readings");
    for [before, between, after] in [
        [1, 0, 0],
        [0, 1, 0],
        [0, 0, 1],
        [3, 0, 0],
        [0, 3, 0],
        [0, 0, 3],
        [1, 1, 1],
        [2, 3, 4],
    ] {
        let fillers = |count| vec![FILLER; count];
        let first = [fillers(before), READING.to_vec(), fillers(between)].concat();
        let second = [READING.to_vec(), fillers(after)].concat();
        cases.body([first, second].concat());
    }
}

fn add_fillers_that_are_none(cases: &mut Cases) {
    cases.note("2F, 0F and 1F as DIFE, VIF, VIFE, data, text and its length");
    for special in [FILLER, MAKER, MAKER_AND_MORE] {
        cases.body([0x81, special, 0x13, 0x01]);
        cases.body([0x01, special, 0x01]);
        cases.body([0x01, 0x93, special, 0x01]);
        cases.body([0x01, 0x13, special]);
        cases.body([0x0D, 0x78, 0x02, special, special]);
        let text = vec![b'a'; usize::from(special)];
        cases.body(with_more(&[0x0D, 0x78, special], &text));
    }
}

fn add_makers_data(cases: &mut Cases) {
    for first in [MAKER, MAKER_AND_MORE] {
        cases.note("manufacturer's data: 0, 1 and several bytes, all kinds of bytes");
        for data in [
            &[][..],
            &[0x00],
            &[0xFF],
            &[0x0A, 0x0B],
            &[MAKER],
            &[MAKER_AND_MORE],
            &[FILLER, FILLER],
            &[MAKER_AND_MORE, MAKER, FILLER, 0x16, 0x68],
            &[0x08, 0x3F, 0x01, 0x6F],
            &READING,
        ] {
            cases.body(with_more(&[first], data));
        }
        cases.note("the same, up to the longest body");
        cases.body(with_more(&[first], &[0x5A; MOST_BODY - 2]));
        cases.body(with_more(&[first], &[0xA5; MOST_BODY - 1]));
        cases.note("after one and two readings, after fillers, after both");
        for before in [
            READING.to_vec(),
            READING.repeat(2),
            vec![FILLER],
            vec![FILLER; 3],
            with_more(&READING, &[FILLER]),
            with_more(&[FILLER], &READING),
        ] {
            cases.body(with_more(&before, &[first]));
            cases.body(with_more(&before, &[first, 0x0A, 0x0B]));
            cases.body(with_more(&before, &[first, FILLER]));
        }
    }
}

fn add_firsts_with_data_field_f(cases: &mut Cases) {
    cases.note("all bytes that end with F as the first, then after a reading and a filler");
    for high in 0x0..=0xF_u8 {
        let first = high << 4 | 0xF;
        cases.body([first, 0x01, 0x13, 0x2A]);
        cases.body([0x01, 0x13, 0x2A, FILLER, first]);
    }
}

fn add_full_bodies(cases: &mut Cases) {
    cases.note("as many readings as fit: with no data, one byte of data, two DIFEs");
    cases.body([0x00, 0x13].repeat(MOST_BODY / 2));
    cases.body(READING.repeat(MOST_BODY / READING.len()));
    cases.body([0xC0, 0x81, 0x10, 0x6C].repeat(MOST_BODY / 4));
    cases.note("a refusal at the end of the longest body: 11, 13, 14, 15, 16");
    let full = READING.repeat(MOST_BODY / READING.len());
    for last in [
        [0x00, 0x13, 0x48],
        [0x01, 0x6F, 0x00],
        [0x09, 0x13, 0x0A],
        [0x0D, 0x78, 0xC0],
        [0x02, 0x13, 0x00],
        [0x81, 0x80, 0x80],
    ] {
        cases.body(with_more(&full[..MOST_BODY - 3], &last));
    }
}
