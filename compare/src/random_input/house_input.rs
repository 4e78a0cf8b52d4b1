//! Random input for `scenario`: test houses, good and spoiled, with blank,
//! comment and unreadable lines among theirs.

use super::generator::Generator;
use super::{house_flaws, house_text, houses};

const SPOILED_ONE_IN: usize = 8;
const BAD_LINES_ONE_IN: usize = 14;
const SKIPPED_LINES_ONE_IN: usize = 3;

/// Characters that mean something in a line, right or wrong.
const CHARACTERS: &[u8] = b"0123456789afAFGspfr+-#    \r\t\x00\xFF";

pub fn house_input(generator: &mut Generator) -> Vec<u8> {
    let mut house = houses::good_house(generator);
    if generator.one_in(SPOILED_ONE_IN) {
        house_flaws::spoil(generator, &mut house);
    }
    let mut lines = house_text::lines(generator, &house);
    if generator.one_in(SKIPPED_LINES_ONE_IN) {
        insert_some(generator, &mut lines, skipped_line);
    }
    if generator.one_in(BAD_LINES_ONE_IN) {
        insert_some(generator, &mut lines, bad_line);
    }
    if generator.one_in(BAD_LINES_ONE_IN) {
        insert_some(generator, &mut lines, limited_line);
    }
    if generator.one_in(BAD_LINES_ONE_IN) {
        damage_one(generator, &mut lines);
    }
    let mut input = lines.join(&b'\n');
    if generator.one_in(2) && !input.is_empty() {
        input.push(b'\n');
    }
    input
}

fn insert_some(
    generator: &mut Generator,
    lines: &mut Vec<Vec<u8>>,
    line: fn(&mut Generator) -> Vec<u8>,
) {
    for _ in 0..=generator.below(4) {
        let place = generator.below(lines.len() + 1);
        lines.insert(place, line(generator));
    }
}

fn skipped_line(generator: &mut Generator) -> Vec<u8> {
    let spaces = generator.pick(&[0, 0, 1, 7, 3000]);
    let mut line = vec![b' '; spaces];
    if generator.one_in(2) {
        line.insert(0, b'#');
        let count = generator.below(20);
        line.extend((0..count).map(|_| generator.pick(CHARACTERS)));
    }
    if generator.one_in(4) {
        line.push(b'\r');
    }
    line
}

/// One character changed, put in or dropped; the line may still be readable.
fn damage_one(generator: &mut Generator, lines: &mut [Vec<u8>]) {
    if lines.is_empty() {
        return;
    }
    let index = generator.below(lines.len());
    let line = &mut lines[index];
    let place = generator.below(line.len() + 1);
    match generator.below(3) {
        0 if place < line.len() => line[place] = generator.pick(CHARACTERS),
        1 if place < line.len() => {
            line.remove(place);
        }
        _ => line.insert(place, generator.pick(CHARACTERS)),
    }
}

/// Unreadable only where there are enough like it before.
fn limited_line(generator: &mut Generator) -> Vec<u8> {
    let lines: &[&[u8]] = &[
        b"retry 1",
        b"retry 0",
        b"retry 8",
        b"places 3",
        b"places 250",
    ];
    generator.pick(lines).to_vec()
}

fn bad_line(generator: &mut Generator) -> Vec<u8> {
    generator.pick(BAD_LINES).to_vec()
}

const BAD_LINES: &[&[u8]] = &[
    b"x",
    b"\t",
    b"-",
    b" #",
    b" s",
    b"S",
    b"s s",
    b"s\r\r",
    b"s\r ",
    b"f 1",
    b"r\t",
    b"release",
    b"area",
    b"area ",
    b"area\r",
    b"area0A",
    b"Area 0A",
    b"area 0",
    b"area 0 A",
    b"area 0A 0",
    b"area 0A1 B2",
    b"area 0G",
    b"area 0x0A",
    b"area 0A,0B",
    b"area 0A\t0B",
    b"area -",
    b"area 0A #",
    b"meter",
    b"meter 12345678",
    b"meter 12345678 2C2D 01 04",
    b"meter 1234567 2C2D 01 04 05 0+0",
    b"meter 123456789 2C2D 01 04 05 0+0",
    b"meter 012345678 2C2D 01 04 05 0+0",
    b"meter 1234567F 2C2D 01 04 05 0+0",
    b"meter +1234567 2C2D 01 04 05 0+0",
    b"meter 12345678 2c2d 01 04 05 0+0",
    b"meter 12345678 2C2 01 04 05 0+0",
    b"meter 12345678 02C2D 01 04 05 0+0",
    b"meter 12345678 2C 2D 01 04 05 0+0",
    b"meter 12345678 2C2D 1 04 05 0+0",
    b"meter 12345678 2C2D 001 04 05 0+0",
    b"meter 12345678 2C2D 0a 04 05 0+0",
    b"meter 12345678 2C2D 01 4 05 0+0",
    b"meter 12345678 2C2D 01 04 5 0+0",
    b"meter 12345678 2C2D 01 04 005 0+0",
    b"meter 12345678 2C2D 01 04 0G 0+0",
    b"meter 12345678 2C2D 01 04 05 0",
    b"meter 12345678 2C2D 01 04 05 +",
    b"meter 12345678 2C2D 01 04 05 0+",
    b"meter 12345678 2C2D 01 04 05 +0",
    b"meter 12345678 2C2D 01 04 05 0 + 0",
    b"meter 12345678 2C2D 01 04 05 0+ 0",
    b"meter 12345678 2C2D 01 04 05 0++0",
    b"meter 12345678 2C2D 01 04 05 0+0+0",
    b"meter 12345678 2C2D 01 04 05 0-0",
    b"meter 12345678 2C2D 01 04 05 -1+0",
    b"meter 12345678 2C2D 01 04 05 65536+0",
    b"meter 12345678 2C2D 01 04 05 0+65536",
    b"meter 12345678 2C2D 01 04 05 0+0 131072+0",
    b"meter 12345678 2C2D 01 04 05 0+4294967296",
    b"meter 12345678 2C2D 01 04 05 18446744073709551616+0",
    b"meter 12345678 2C2D 01 04 05 0+A",
    b"fault",
    b"fault ",
    b"fault 256",
    b"fault 0 1 256",
    b"fault 300",
    b"fault 1000",
    b"fault -1",
    b"fault +1",
    b"fault 1 2 x",
    b"fault 1,2",
    b"fault 0x1",
    b"fault 65536",
    b"fault 4294967296",
    b"fault 18446744073709551616",
    b"faults 1",
    b"retry",
    b"retry 256",
    b"retry 1 1",
    b"retry -1",
    b"retry one",
    b"retry 4294967297",
    b"places",
    b"places 251",
    b"places 256",
    b"places 1 2",
    b"places all",
    b"p",
    b"p 12345678",
    b"p 12345678 2C2D 01",
    b"p 12345678 2C2D 01 04 05",
    b"p 1234567 2C2D 01 04",
    b"p FFFFFFFF 2C2D 01 04",
    b"p 12345678 2c2d 01 04",
    b"p 12345678 2C2D 01 4",
    b"p12345678 2C2D 01 04",
    b"p\t12345678 2C2D 01 04",
];

#[cfg(test)]
#[path = "house_input_tests.rs"]
mod tests;
