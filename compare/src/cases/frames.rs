//! Test cases for frames: "Frames" and "Requests" in docs/PROTOCOL.md.

use super::{Cases, with_byte, with_more};
use crate::frame::{
    ACKNOWLEDGEMENT, Frame, LONG_START, LongFrame, MOST_DATA, SHORT_START, STOP, close, long_header,
};

const FETCH: [u8; 5] = [0x10, 0x7B, 0xFD, 0x78, 0x16];
const REPLY_WITH_18_BYTES: [u8; 27] = [
    0x68, 0x15, 0x15, 0x68, 0x08, 0x05, 0x72, 0x78, 0x56, 0x34, 0x12, 0x2D, 0x2C, 0x01, 0x04, 0x07,
    0x00, 0x00, 0x00, 0x0C, 0x06, 0x27, 0x15, 0x00, 0x00, 0x46, 0x16,
];

pub fn add(cases: &mut Cases) {
    add_marked_values(cases);
    add_requests(cases);
    add_printed_digits(cases);
    add_cuts(cases);
    add_first_bytes(cases);
    add_extra_bytes(cases);
    add_lengths(cases);
    add_bad_headers(cases);
    add_several_header_faults(cases);
    add_wrong_stops(cases);
    add_wrong_checksums(cases);
    add_checksum_sums(cases);
}

fn long(control: u8, address: u8, information: u8, data: &[u8]) -> Vec<u8> {
    Frame::Long(LongFrame {
        control,
        address,
        information,
        data,
    })
    .to_bytes()
}

/// Data in which no two neighbours are alike.
fn counting_data(count: usize) -> Vec<u8> {
    (0..count).map(|offset| offset as u8).collect()
}

fn add_marked_values(cases: &mut Cases) {
    cases.note("the values worked out in the rules");
    cases.line("68 0B 0B 68 53 FD 52 FF FF FF FF FF FF FF FF 9A 16");
    cases.line("68 0B 0B 68 53 FD 52 FF FF 3F 12 FF FF FF FF ED 16");
    cases.line("10 7B FD 79 16");
}

fn add_requests(cases: &mut Cases) {
    cases.note("requests: both fetches, release, selections with both control bytes");
    cases.line("10 7B FD 78 16");
    cases.line("10 5B FD 58 16");
    cases.line("10 40 FD 3D 16");
    for control in [0x53, 0x73] {
        for pattern in [
            [0xFF; 8],
            [0xFF, 0xFF, 0xFF, 0x0F, 0xFF, 0xFF, 0xFF, 0xFF],
            [0xFF, 0xFF, 0x3F, 0x12, 0xFF, 0xFF, 0xFF, 0xFF],
            [0x78, 0x56, 0x34, 0x12, 0xFF, 0xFF, 0xFF, 0xFF],
            [0x78, 0x56, 0x34, 0x12, 0x2D, 0x2C, 0x01, 0x04],
        ] {
            cases.telegram(long(control, 0xFD, 0x52, &pattern));
        }
    }
}

fn add_printed_digits(cases: &mut Cases) {
    cases.note("short frames with every digit in each half of control and address");
    for digit in 0x0..=0xF_u8 {
        let control = digit << 4 | (0xF - digit);
        let address = (0xF - digit) << 4 | digit;
        cases.telegram(Frame::Short { control, address }.to_bytes());
    }
}

fn add_cuts(cases: &mut Cases) {
    cases.note("an acknowledgement, cut at every length, and with one more byte");
    add_every_cut(cases, &[ACKNOWLEDGEMENT]);
    cases.note("a short frame, likewise");
    add_every_cut(cases, &FETCH);
    cases.note("a long frame with no data, likewise");
    add_every_cut(cases, &long(0x08, 0x05, 0x72, &[]));
    cases.note("a long frame with one byte of data, likewise");
    add_every_cut(cases, &long(0x08, 0x05, 0x72, &[0xAA]));
    cases.note("a long frame with 18 bytes of data, likewise");
    add_every_cut(cases, &REPLY_WITH_18_BYTES);

    cases.note("a long frame with 252 bytes of data, cut near its edges");
    let longest = long(0x53, 0x05, 0x51, &counting_data(MOST_DATA));
    for count in [
        1, 3, 4, 5, 7, 8, 127, 128, 254, 255, 256, 257, 258, 259, 260, 261,
    ] {
        cases.telegram(&longest[..count]);
    }
    cases.note("the same, with 1, 2, 3, 4 and 42 more bytes");
    for more in [1, 2, 3, 4, 42] {
        cases.telegram(with_more(&longest, &vec![STOP; more]));
    }
}

fn add_every_cut(cases: &mut Cases, frame: &[u8]) {
    for count in 0..=frame.len() {
        cases.telegram(&frame[..count]);
    }
    cases.telegram(with_more(frame, &[0x00]));
}

fn add_first_bytes(cases: &mut Cases) {
    cases.note("every value as the only byte");
    for first in 0x00..=0xFF {
        cases.telegram([first]);
    }
    cases.note("good frames but for their first byte");
    for first in [0x00, 0x0F, 0x11, 0x16, 0x67, 0x69, 0xE4, 0xE6, 0xFF] {
        cases.telegram(with_byte(&FETCH, 0, first));
        cases.telegram(with_byte(&REPLY_WITH_18_BYTES, 0, first));
    }
    cases.note("the bytes of one frame after the start of another");
    for start in [SHORT_START, LONG_START, ACKNOWLEDGEMENT] {
        cases.telegram(with_byte(&FETCH, 0, start));
        cases.telegram(with_byte(&REPLY_WITH_18_BYTES, 0, start));
    }
}

fn add_extra_bytes(cases: &mut Cases) {
    cases.note("too many bytes: after an acknowledgement");
    for more in [&[0x00][..], &[STOP], &[ACKNOWLEDGEMENT], &FETCH] {
        cases.telegram(with_more(&[ACKNOWLEDGEMENT], more));
    }
    cases.note("too many bytes: after a short and a long frame");
    for frame in [&FETCH[..], &REPLY_WITH_18_BYTES] {
        for more in [&[STOP][..], &[0x00, STOP], &FETCH, &REPLY_WITH_18_BYTES] {
            cases.telegram(with_more(frame, more));
        }
    }
    cases.note("too many bytes, and the stop byte or the checksum or both wrong");
    for frame in [&FETCH[..], &REPLY_WITH_18_BYTES] {
        let stop = frame.len() - 1;
        let wrong_stop = with_byte(frame, stop, 0x17);
        let wrong_checksum = with_byte(frame, stop - 1, 0xEE);
        let wrong_both = with_byte(&wrong_stop, stop - 1, 0xEE);
        for wrong in [wrong_stop, wrong_checksum, wrong_both] {
            cases.telegram(with_more(&wrong, &[STOP]));
            cases.telegram(with_more(&wrong, &[0x00]));
        }
    }
}

fn add_lengths(cases: &mut Cases) {
    cases.note("nothing but a header, L from 0 to 16 and some more");
    for length in (0..=16).chain([0x7E, 0x7F, 0x80, 0x81, 0xFC, 0xFD, 0xFE, 0xFF]) {
        cases.telegram(long_header(length));
    }
    cases.note("L 0 to 5 with just as many bytes and a right checksum");
    for length in 0..=5 {
        let content = vec![0x08; usize::from(length)];
        cases.telegram(close(&long_header(length), &content));
    }
    cases.note("L 0 to 2 before the bytes of a frame with L 3");
    for length in 0..=2 {
        cases.telegram(close(&long_header(length), &[0x08, 0x05, 0x72]));
    }
    cases.note("both L one too low, one too high, lowest and highest");
    for length in [0x14, 0x16, 0x03, 0xFF] {
        let lower = with_byte(&REPLY_WITH_18_BYTES, 1, length);
        cases.telegram(with_byte(&lower, 2, length));
    }
}

fn add_bad_headers(cases: &mut Cases) {
    cases.note("the second L unequal to the first");
    for second in [0x00, 0x02, 0x14, 0x16, 0x95, 0xFF] {
        cases.telegram(with_byte(&REPLY_WITH_18_BYTES, 2, second));
    }
    cases.note("the first L unequal to the second");
    for first in [0x03, 0x14, 0x16, 0x95, 0xFF] {
        cases.telegram(with_byte(&REPLY_WITH_18_BYTES, 1, first));
    }
    cases.note("the fourth byte not 68");
    for fourth in [0x00, 0x10, 0x16, 0x67, 0x69, 0xE5, 0xE8, 0xFF] {
        cases.telegram(with_byte(&REPLY_WITH_18_BYTES, 3, fourth));
    }
    cases.note("L below 3 and too few bytes for a header");
    for length in 0..=2 {
        cases.telegram([LONG_START, length]);
        cases.telegram([LONG_START, length, length]);
    }
}

fn add_several_header_faults(cases: &mut Cases) {
    cases.note("several faults of the header, and the rest good, cut off or too long");
    for header in [
        [LONG_START, 0x02, 0x03, LONG_START],
        [LONG_START, 0x02, 0x02, 0x00],
        [LONG_START, 0x02, 0x03, 0x00],
        [LONG_START, 0x00, 0xFF, 0x00],
        [LONG_START, 0x03, 0x02, LONG_START],
        [LONG_START, 0x03, 0x04, LONG_START],
        [LONG_START, 0x03, 0x04, 0x00],
        [LONG_START, 0x04, 0x03, 0x00],
        [LONG_START, 0x03, 0x03, 0x00],
    ] {
        let whole = close(&header, &[0x08, 0x05, 0x72]);
        cases.telegram(&whole);
        cases.telegram(header);
        cases.telegram(with_more(&whole, &[0x00]));
    }
    cases.note("a bad header, a wrong stop byte and a wrong checksum");
    for header in [
        [LONG_START, 0x02, 0x02, LONG_START],
        [LONG_START, 0x03, 0x04, LONG_START],
        [LONG_START, 0x03, 0x03, 0x69],
    ] {
        cases.telegram(with_more(&header, &[0x08, 0x05, 0x72, 0x00, 0x00]));
    }
}

fn add_wrong_stops(cases: &mut Cases) {
    cases.note("a wrong stop byte, then also a wrong checksum");
    for frame in [
        FETCH.to_vec(),
        long(0x08, 0x05, 0x72, &[]),
        REPLY_WITH_18_BYTES.to_vec(),
    ] {
        let stop = frame.len() - 1;
        for wrong in [0x00, 0x15, 0x17, 0x61, 0x96, 0xE5, 0xFF] {
            cases.telegram(with_byte(&frame, stop, wrong));
        }
        let wrong_stop = with_byte(&frame, stop, 0x17);
        cases.telegram(with_byte(&wrong_stop, stop - 1, 0xEE));
    }
    cases.note("checksum and stop byte swapped");
    cases.line("10 7B FD 16 78");
    cases.note("a wrong stop byte and a wrong checksum in the longest frame, then the first alone");
    let longest = long(0x53, 0x05, 0x51, &counting_data(MOST_DATA));
    let stop = longest.len() - 1;
    let wrong_stop = with_byte(&longest, stop, 0x17);
    cases.telegram(with_byte(&wrong_stop, stop - 1, !longest[stop - 1]));
    cases.telegram(wrong_stop);
}

fn add_wrong_checksums(cases: &mut Cases) {
    cases.note("the checksum one too low, one too high, and with its highest bit changed");
    for frame in [
        FETCH.to_vec(),
        long(0x08, 0x05, 0x72, &[]),
        long(0x08, 0x05, 0x72, &[0xAA]),
        REPLY_WITH_18_BYTES.to_vec(),
        long(0x53, 0x05, 0x51, &counting_data(MOST_DATA)),
    ] {
        let place = frame.len() - 2;
        let right = frame[place];
        for wrong in [right.wrapping_sub(1), right.wrapping_add(1), right ^ 0x80] {
            cases.telegram(with_byte(&frame, place, wrong));
        }
    }
    cases.note("a checksum over the start or the header too");
    cases.telegram(with_byte(&FETCH, 3, 0x88));
    cases.line("68 03 03 68 08 05 72 55 16");
    cases.line("68 03 03 68 08 05 72 E7 16");
    cases.note("each byte from control to the last of the data changed in turn");
    for place in 4..REPLY_WITH_18_BYTES.len() - 2 {
        let mut changed = REPLY_WITH_18_BYTES;
        changed[place] += 1;
        cases.telegram(changed);
    }
    cases.note("two bytes swapped, which the checksum does not see");
    cases.line("10 FD 7B 78 16");
}

fn add_checksum_sums(cases: &mut Cases) {
    cases.note("sums around 256 and its multiples");
    for (control, address) in [
        (0x00, 0x00),
        (0x00, 0xFF),
        (0x01, 0xFF),
        (0x02, 0xFF),
        (0x80, 0x80),
        (0xFF, 0xFF),
    ] {
        cases.telegram(Frame::Short { control, address }.to_bytes());
    }
    cases.telegram(long(0xFF, 0xFF, 0xFF, &[]));
    cases.telegram(long(0xFF, 0xFF, 0x02, &[]));
    cases.telegram(long(0xFF, 0xFF, 0xFF, &[0x03]));
    cases.telegram(long(0xFF, 0xFF, 0xFF, &[0xFF; MOST_DATA]));
    cases.telegram(long(0x00, 0x00, 0x00, &[0x00; MOST_DATA]));
    cases.note("start and stop bytes inside a frame");
    cases.line("10 16 16 2C 16");
    cases.line("10 10 10 20 16");
    cases.line("68 06 06 68 68 16 10 E5 16 68 F1 16");
}
