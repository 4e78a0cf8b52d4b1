//! Test houses as text, in all spellings.

use super::generator::Generator;
use crate::line::{Row, Span};
use crate::reply::MeterAddress;
use crate::scenario::{Call, MOST_PLACES, TestHouse};

/// One number in this many has leading zeros.
const ZEROS_ONE_IN: usize = 10;

/// One of those in this many has very many.
const MANY_ZEROS_ONE_IN: usize = 200;
const MANY_ZEROS: usize = 3000;

type Line = Vec<u8>;

/// Lines that read as this house.
pub fn lines(generator: &mut Generator, house: &TestHouse) -> Vec<Line> {
    let mut kinds = vec![
        area_lines(generator, &house.area),
        each(generator, &house.rows, meter_line),
        fault_lines(generator, &house.codes),
        each(generator, &house.limits, |generator, &limit| {
            let limit = decimal(generator, limit.into());
            words(generator, "retry", &[limit])
        }),
        each(generator, &house.calls, call_line),
    ];
    if house.places != MOST_PLACES || generator.one_in(4) {
        let places = decimal(generator, house.places);
        kinds.push(vec![words(generator, "places", &[places])]);
    }
    if generator.one_in(3) {
        mingled(generator, kinds)
    } else {
        kinds.concat()
    }
}

/// The lines of each kind stay in their order.
fn mingled(generator: &mut Generator, kinds: Vec<Vec<Line>>) -> Vec<Line> {
    let mut rests: Vec<_> = kinds.into_iter().map(Vec::into_iter).collect();
    let mut lines = Vec::new();
    while !rests.is_empty() {
        let index = generator.below(rests.len());
        match rests[index].next() {
            Some(line) => lines.push(line),
            None => drop(rests.swap_remove(index)),
        }
    }
    lines
}

fn each<T>(
    generator: &mut Generator,
    parts: &[T],
    line: impl Fn(&mut Generator, &T) -> Line,
) -> Vec<Line> {
    parts.iter().map(|part| line(generator, part)).collect()
}

fn area_lines(generator: &mut Generator, area: &[u8]) -> Vec<Line> {
    let size = line_size(generator, area.len());
    let spaced = generator.one_in(2);
    let lower_case = generator.one_in(3);
    let line = |generator: &mut Generator, bytes: &&[u8]| {
        let mut pairs: Vec<String> = bytes.iter().map(|byte| format!("{byte:02X}")).collect();
        if lower_case {
            pairs
                .iter_mut()
                .for_each(|pair| pair.make_ascii_lowercase());
        }
        if !spaced {
            pairs = vec![pairs.concat()];
        }
        words(generator, "area", &pairs)
    };
    each(generator, &area.chunks(size).collect::<Vec<_>>(), line)
}

fn fault_lines(generator: &mut Generator, codes: &[u8]) -> Vec<Line> {
    let size = line_size(generator, codes.len());
    let line = |generator: &mut Generator, codes: &&[u8]| {
        let codes: Vec<String> = codes
            .iter()
            .map(|&code| decimal(generator, code.into()))
            .collect();
        words(generator, "fault", &codes)
    };
    each(generator, &codes.chunks(size).collect::<Vec<_>>(), line)
}

/// All on one line, or few on each.
fn line_size(generator: &mut Generator, all: usize) -> usize {
    let few = 1 + generator.below(60);
    generator.pick(&[all.max(1), few])
}

fn meter_line(generator: &mut Generator, row: &Row) -> Line {
    let mut parts = address_words(row.address);
    parts.push(format!("{:02X}", row.primary));
    for &Span { start, length } in &row.bodies {
        let start = decimal(generator, start.into());
        let length = decimal(generator, length.into());
        parts.push(format!("{start}+{length}"));
    }
    words(generator, "meter", &parts)
}

fn call_line(generator: &mut Generator, call: &Call) -> Line {
    match call {
        Call::Search => words(generator, "s", &[]),
        Call::Pick(address) => words(generator, "p", &address_words(*address)),
        Call::Fetch => words(generator, "f", &[]),
        Call::Release => words(generator, "r", &[]),
    }
}

fn address_words(address: MeterAddress) -> Vec<String> {
    vec![
        format!("{:08}", address.number),
        format!("{:04X}", address.maker),
        format!("{:02X}", address.version),
        format!("{:02X}", address.medium),
    ]
}

fn decimal(generator: &mut Generator, number: usize) -> String {
    if !generator.one_in(ZEROS_ONE_IN) {
        return number.to_string();
    }
    let zeros = if generator.one_in(MANY_ZEROS_ONE_IN) {
        MANY_ZEROS
    } else {
        generator.below(12)
    };
    format!("{}{number}", "0".repeat(zeros))
}

/// A line of words, with one space between them or any number.
fn words(generator: &mut Generator, name: &str, rest: &[String]) -> Line {
    let odd = generator.one_in(6);
    let mut line = name.as_bytes().to_vec();
    for word in rest {
        let gap = if odd { 1 + generator.below(4) } else { 1 };
        line.extend(vec![b' '; gap]);
        line.extend(word.bytes());
    }
    if odd {
        line.extend(vec![b' '; generator.below(4)]);
    }
    if generator.one_in(8) {
        line.push(b'\r');
    }
    line
}
