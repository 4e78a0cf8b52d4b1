//! Texts.

use super::{Cases, READING, with_more};
use crate::records::LONGEST_TEXT;
use crate::reply::MOST_BODY;

const HEAD: [u8; 2] = [0x0D, 0x78];

pub fn add(cases: &mut Cases) {
    add_lengths(cases);
    add_refused_lengths(cases);
    add_cut_texts(cases);
    add_contents(cases);
}

/// A reading with this length byte and that many bytes of text.
fn text(length: u8, count: usize) -> Vec<u8> {
    let bytes: Vec<u8> = (0..count).map(|index| b'A' + (index % 26) as u8).collect();
    [&HEAD, &[length][..], &bytes].concat()
}

fn add_lengths(cases: &mut Cases) {
    cases.note("texts of 0, 1, 2, 127, 128, 190 and 191 bytes, then with a reading behind");
    for length in [0x00, 0x01, 0x02, 0x7F, 0x80, LONGEST_TEXT - 1, LONGEST_TEXT] {
        let text = text(length, usize::from(length));
        cases.body(&text);
        cases.body(with_more(&text, &READING));
    }
    cases.note("two texts of no byte, two of one");
    cases.body(text(0, 0).repeat(2));
    cases.body(text(1, 1).repeat(2));
}

fn add_refused_lengths(cases: &mut Cases) {
    cases.note("length bytes over BF: with no text, some text, as much as there can be");
    let most = MOST_BODY - HEAD.len() - 1;
    for length in [0xC0, 0xC1, 0xCF, 0xD0, 0xE0, 0xF0, 0xFE, 0xFF] {
        for count in [0, 1, most] {
            cases.body(text(length, count));
        }
    }
}

fn add_cut_texts(cases: &mut Cases) {
    cases.note("texts cut short: no length byte, no text, one byte too few");
    cases.body(HEAD);
    cases.body(with_more(&READING, &HEAD));
    cases.body(text(0x01, 0));
    for length in [0x02, 0x05, 0x80, LONGEST_TEXT] {
        cases.body(text(length, 0));
        cases.body(text(length, usize::from(length) - 1));
    }
    cases.note("a text with the longest length in the longest body, whole and one byte short");
    let most = MOST_BODY - HEAD.len() - 1;
    let exactly = most - usize::from(LONGEST_TEXT);
    for before in [exactly, exactly + 1] {
        let text = text(LONGEST_TEXT, most - before);
        cases.body(with_more(&vec![0x2F; before], &text));
    }
}

fn add_contents(cases: &mut Cases) {
    cases.note("texts of all sorts of bytes");
    for bytes in [
        &[0x00][..],
        &[0xFF],
        &[0x0A],
        &[0x0D, 0x0A, 0x20, 0x3D],
        &[0x0F, 0x1F, 0x2F, 0x3F],
        &[0x01, 0x13, 0x2A],
        &[0xC3, 0xA9, 0x80],
    ] {
        cases.body([&HEAD, &[bytes.len() as u8][..], bytes].concat());
    }
    cases.note("a text for a volume, with DIFEs and VIFEs");
    cases.body([0x0D, 0x13, 0x02, 0x31, 0x32]);
    cases.body([0xCD, 0xC1, 0x12, 0xFD, 0x91, 0x12, 0x02, 0x31, 0x32]);
}
