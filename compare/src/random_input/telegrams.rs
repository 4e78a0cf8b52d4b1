//! Random telegrams: good ones of every kind, nearly good ones, and noise.

use super::bodies;
use super::generator::Generator;
use crate::frame::{
    ACKNOWLEDGEMENT, Frame, LONG_START, LongFrame, MOST_DATA, SHORT_START, long_header,
};
use crate::reply::{MeterAddress, REPLY_CONTROL, REPLY_HEAD, REPLY_INFORMATION, Reply};

const NUMBERS: usize = 100_000_000;

#[derive(Clone, Copy)]
enum Kind {
    Acknowledgement,
    Short,
    Long,
    Selection,
    Reply,
    NearlyReply,
    Noise,
    NoiseAfterStart,
    NoiseAfterHeader,
}

/// Kinds that lead deeper into the decoder stand here more often.
const MIX: [(Kind, usize); 9] = [
    (Kind::Acknowledgement, 1),
    (Kind::Short, 2),
    (Kind::Long, 2),
    (Kind::Selection, 1),
    (Kind::Reply, 20),
    (Kind::NearlyReply, 2),
    (Kind::Noise, 1),
    (Kind::NoiseAfterStart, 1),
    (Kind::NoiseAfterHeader, 1),
];

pub fn telegram(generator: &mut Generator) -> Vec<u8> {
    match generator.pick_weighted(&MIX) {
        Kind::Acknowledgement => Frame::Acknowledgement.to_bytes(),
        Kind::Short => short(generator),
        Kind::Long => long(generator),
        Kind::Selection => selection(generator),
        Kind::Reply => {
            let body = bodies::body(generator);
            reply(generator, &body)
        }
        Kind::NearlyReply => nearly_reply(generator),
        Kind::Noise => noise(generator),
        Kind::NoiseAfterStart => {
            let start = generator.pick(&[ACKNOWLEDGEMENT, SHORT_START, LONG_START]);
            [vec![start], noise(generator)].concat()
        }
        Kind::NoiseAfterHeader => {
            let header = long_header(generator.byte());
            [header.to_vec(), noise(generator)].concat()
        }
    }
}

fn noise(generator: &mut Generator) -> Vec<u8> {
    let count = generator.count(300);
    generator.bytes(count)
}

fn short(generator: &mut Generator) -> Vec<u8> {
    Frame::Short {
        control: generator.pick(&[0x7B, 0x5B, 0x40, 0x00, 0xFF]),
        address: generator.byte(),
    }
    .to_bytes()
}

fn long(generator: &mut Generator) -> Vec<u8> {
    let count = generator.count(MOST_DATA);
    Frame::Long(LongFrame {
        control: generator.byte(),
        address: generator.byte(),
        information: generator.byte(),
        data: &generator.bytes(count),
    })
    .to_bytes()
}

fn selection(generator: &mut Generator) -> Vec<u8> {
    Frame::Long(LongFrame {
        control: generator.pick(&[0x53, 0x73]),
        address: 0xFD,
        information: 0x52,
        data: &generator.bytes(8),
    })
    .to_bytes()
}

pub fn reply(generator: &mut Generator, body: &[u8]) -> Vec<u8> {
    let data = reply_data(generator, body);
    reply_frame(generator, &data)
}

/// A reply in all but one or two of the things that make it one.
fn nearly_reply(generator: &mut Generator) -> Vec<u8> {
    let body = bodies::body(generator);
    let mut data = reply_data(generator, &body);
    for _ in 0..=generator.below(2) {
        data[generator.below(4)] = generator.byte();
    }
    if generator.one_in(3) {
        data.truncate(generator.below(REPLY_HEAD + 1));
    }
    if generator.one_in(3) {
        return reply_frame(generator, &data);
    }
    Frame::Long(LongFrame {
        control: generator.pick(&[REPLY_CONTROL, REPLY_CONTROL, 0x18, 0x28]),
        address: generator.byte(),
        information: generator.pick(&[REPLY_INFORMATION, REPLY_INFORMATION, 0x73, 0x70]),
        data: &data,
    })
    .to_bytes()
}

fn reply_frame(generator: &mut Generator, data: &[u8]) -> Vec<u8> {
    Frame::Long(LongFrame {
        control: REPLY_CONTROL,
        address: generator.byte(),
        information: REPLY_INFORMATION,
        data,
    })
    .to_bytes()
}

fn reply_data(generator: &mut Generator, body: &[u8]) -> Vec<u8> {
    Reply {
        meter: MeterAddress {
            number: generator.below(NUMBERS) as u32,
            maker: u16::from_le_bytes([generator.byte(), generator.byte()]),
            version: generator.byte(),
            medium: generator.byte(),
        },
        access: generator.byte(),
        status: generator.byte(),
        signature: generator.pick(&[0x0000, 0x00FF, 0x1234, 0xFFFF]),
        body,
    }
    .to_data()
}
