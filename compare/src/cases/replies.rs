//! Test cases for "Reply telegrams" in docs/PROTOCOL.md.

use super::{Cases, with_byte};
use crate::frame::{Frame, LongFrame};
use crate::reply::{MOST_BODY, MeterAddress, REPLY_CONTROL, REPLY_HEAD, REPLY_INFORMATION, Reply};

/// The number's four bytes stand at the start of the data.
const NUMBER_BYTES: usize = 4;

pub fn add(cases: &mut Cases) {
    add_printed_values(cases);
    add_wrong_control_and_information(cases);
    add_lengths(cases);
    add_several_faults(cases);
    add_digits_above_nine(cases);
    add_digits_above_nine_elsewhere(cases);
    add_bodies(cases);
    add_frame_faults(cases);
}

fn frame(control: u8, information: u8, data: &[u8]) -> Vec<u8> {
    Frame::Long(LongFrame {
        control,
        address: 0x05,
        information,
        data,
    })
    .to_bytes()
}

fn reply(data: &[u8]) -> Vec<u8> {
    frame(REPLY_CONTROL, REPLY_INFORMATION, data)
}

/// The data of a good reply with no body.
fn good_head() -> Vec<u8> {
    data_with_body(&[])
}

pub fn reply_with_body(body: &[u8]) -> Vec<u8> {
    reply(&data_with_body(body))
}

fn data_with_body(body: &[u8]) -> Vec<u8> {
    Reply {
        meter: MeterAddress {
            number: 12_345_678,
            maker: 0x2C2D,
            version: 0x01,
            medium: 0x04,
        },
        access: 0x07,
        status: 0x80,
        signature: 0xABCD,
        body,
    }
    .to_data()
}

fn add_printed_values(cases: &mut Cases) {
    cases.note("numbers with zeros in front, behind and inside, and the highest");
    for number in [
        0, 1, 10, 99, 100, 900_000, 10_000_000, 90_000_009, 1_234_567, 98_765_432, 99_999_999,
    ] {
        let meter = MeterAddress {
            number,
            maker: 0x0001,
            version: 0x00,
            medium: 0x0F,
        };
        let reply_data = Reply {
            meter,
            access: 0x00,
            status: 0x00,
            signature: 0x0000,
            body: &[],
        }
        .to_data();
        cases.telegram(reply(&reply_data));
    }
    cases.note("each byte after the number 00, 0A, A0 and FF in turn");
    for place in NUMBER_BYTES..REPLY_HEAD {
        for value in [0x00, 0x0A, 0xA0, 0xFF] {
            cases.telegram(reply(&with_byte(&good_head(), place, value)));
        }
    }
}

fn add_wrong_control_and_information(cases: &mut Cases) {
    cases.note("a control byte other than 08");
    for control in [
        0x00, 0x07, 0x09, 0x18, 0x28, 0x38, 0x48, 0x53, 0x72, 0x80, 0x88, 0xFF,
    ] {
        cases.telegram(frame(control, REPLY_INFORMATION, &good_head()));
    }
    cases.note("an information byte other than 72");
    for information in [
        0x00, 0x08, 0x51, 0x52, 0x62, 0x70, 0x71, 0x73, 0x76, 0x78, 0xF2, 0xFF,
    ] {
        cases.telegram(frame(REPLY_CONTROL, information, &good_head()));
    }
    cases.note("both");
    cases.telegram(frame(0x18, 0x73, &good_head()));
    cases.telegram(frame(REPLY_INFORMATION, REPLY_CONTROL, &good_head()));
}

fn add_lengths(cases: &mut Cases) {
    cases.note("L from 3 to 15: all but the last too low for a reply");
    for count in 0..=REPLY_HEAD {
        cases.telegram(reply(&good_head()[..count]));
    }
}

fn add_several_faults(cases: &mut Cases) {
    let head = good_head();
    let shorter = &head[..REPLY_HEAD - 1];
    let bad_number = with_byte(&head, 0, 0xFF);
    cases.note("L 14 and a wrong control byte, a wrong information byte, both");
    cases.telegram(frame(0x09, REPLY_INFORMATION, shorter));
    cases.telegram(frame(REPLY_CONTROL, 0x73, shorter));
    cases.telegram(frame(0x09, 0x73, shorter));
    cases.note("a digit above 9 and a wrong control byte, a wrong information byte, both, L 14");
    cases.telegram(frame(0x09, REPLY_INFORMATION, &bad_number));
    cases.telegram(frame(REPLY_CONTROL, 0x73, &bad_number));
    cases.telegram(frame(0x09, 0x73, &bad_number));
    cases.telegram(reply(&bad_number[..REPLY_HEAD - 1]));
    cases.note("everything wrong");
    cases.telegram(frame(0x09, 0x73, &bad_number[..REPLY_HEAD - 1]));
}

fn add_digits_above_nine(cases: &mut Cases) {
    cases.note("a digit above 9 in each half of each byte of the number, then in both");
    for place in 0..NUMBER_BYTES {
        for value in [0xA0, 0xB5, 0xF9, 0x0A, 0x5C, 0x9F, 0xDE, 0xFF] {
            cases.telegram(reply(&with_byte(&good_head(), place, value)));
        }
    }
    cases.note("digits above 9 in two bytes of the number: the first byte decides");
    for first in 0..NUMBER_BYTES {
        for second in first + 1..NUMBER_BYTES {
            let one = with_byte(&good_head(), first, 0x1A);
            cases.telegram(reply(&with_byte(&one, second, 0xA1)));
        }
    }
    cases.note("digits above 9 in all bytes of the number");
    let mut head = good_head();
    head[..NUMBER_BYTES].fill(0xFF);
    cases.telegram(reply(&head));
    cases.note("the digit 9 in every half");
    head[..NUMBER_BYTES].fill(0x99);
    cases.telegram(reply(&head));
}

fn add_digits_above_nine_elsewhere(cases: &mut Cases) {
    cases.note("digits above 9 in all bytes but those of the number");
    let mut head = good_head();
    head[NUMBER_BYTES..].fill(0xFA);
    cases.telegram(reply(&head));
    cases.note("digits above 9 in maker, version and medium, and in the last byte of the number");
    cases.telegram(reply(&with_byte(&head, NUMBER_BYTES - 1, 0xFA)));
}

fn add_bodies(cases: &mut Cases) {
    cases.note("bodies of 0, 1, 2, 239 and 240 bytes");
    for count in [0, 1, 2, MOST_BODY - 1, MOST_BODY] {
        let body: Vec<u8> = (0..count).map(|offset| !(offset as u8)).collect();
        cases.body(&body);
    }
    cases.note("a reply inside the body of a reply");
    let inner = reply(&good_head());
    cases.body(&inner);
    cases.note("a body of 240 bytes and a digit above 9");
    let longest = data_with_body(&[0x2F; MOST_BODY]);
    cases.telegram(reply(&with_byte(&longest, 2, 0xAA)));
}

fn add_frame_faults(cases: &mut Cases) {
    cases.note("no reply, but a fault of the frame comes first: checksum, stop byte, size");
    let refused = frame(0x18, 0x73, &with_byte(&good_head(), 0, 0xFF));
    let end = refused.len();
    cases.telegram(with_byte(&refused, end - 2, !refused[end - 2]));
    cases.telegram(with_byte(&refused, end - 1, 0x00));
    cases.telegram(&refused[..end - 1]);
    cases.telegram([&refused[..], &[0x16]].concat());
}
