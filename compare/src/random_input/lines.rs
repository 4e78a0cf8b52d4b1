//! Random lines of text: telegrams in all their spellings, and odd lines.

use super::generator::Generator;
use super::telegrams;

/// Characters that mean something in a line, right or wrong.
const CHARACTERS: &[u8] = b"0123456789abcdefABCDEF      --#\r\tgGxX\x00\xE5";

/// Digits in the longest lines: more than buffers of usual sizes hold.
const MANY_DIGITS: usize = 150_000;

/// How a telegram is written.
#[derive(Clone, Copy)]
enum Spacing {
    One,
    None,
    Any,
}

/// A line that reads as this telegram.
pub fn telegram_line(generator: &mut Generator, telegram: &[u8]) -> Vec<u8> {
    let mut line = if telegram.is_empty() {
        b"-".to_vec()
    } else {
        pairs(generator, telegram)
    };
    if generator.one_in(8) {
        line.push(b'\r');
    }
    line
}

fn pairs(generator: &mut Generator, telegram: &[u8]) -> Vec<u8> {
    let spacing = generator.pick(&[Spacing::One, Spacing::One, Spacing::None, Spacing::Any]);
    let lower_case = generator.one_in(3);
    let mut line = Vec::new();
    for (place, byte) in telegram.iter().enumerate() {
        let spaces = match spacing {
            Spacing::One => usize::from(place > 0),
            Spacing::None => 0,
            Spacing::Any => generator.below(4),
        };
        line.extend(vec![b' '; spaces]);
        line.extend(format!("{byte:02X}").bytes());
    }
    if let Spacing::Any = spacing {
        line.extend(vec![b' '; generator.below(4)]);
    }
    if lower_case {
        line.make_ascii_lowercase();
    }
    line
}

/// A line that is mostly no telegram: skipped, unreadable or nearly readable.
pub fn odd_line(generator: &mut Generator) -> Vec<u8> {
    match generator.below(12) {
        0 => Vec::new(),
        1 => vec![b' '; generator.below(6)],
        2 => comment(generator),
        3 => dashes(generator),
        4 => generator
            .pick(&[&b"\r"[..], b" \r", b"\r\r", b"\r ", b" # E5"])
            .to_vec(),
        5 => text(generator),
        6 => {
            let count = generator.below(20);
            generator.bytes(count)
        }
        7 if generator.one_in(50) => long_line(generator),
        _ => damaged_line(generator),
    }
}

fn comment(generator: &mut Generator) -> Vec<u8> {
    [b"#", &text(generator)[..]].concat()
}

fn dashes(generator: &mut Generator) -> Vec<u8> {
    generator
        .pick(&[
            &b"-"[..],
            b"-\r",
            b"- ",
            b" -",
            b"--",
            b"-\r\r",
            b"- \r",
            b"-E5",
        ])
        .to_vec()
}

fn text(generator: &mut Generator) -> Vec<u8> {
    let count = generator.below(20);
    (0..count).map(|_| generator.pick(CHARACTERS)).collect()
}

fn long_line(generator: &mut Generator) -> Vec<u8> {
    let character = generator.pick(b"0F #-");
    let count = generator.below(MANY_DIGITS);
    let mut line = telegram_line(generator, &[0xE5]);
    line.extend(vec![character; count]);
    line
}

/// A telegram's line with one character changed, dropped or put in. It may
/// still be readable.
fn damaged_line(generator: &mut Generator) -> Vec<u8> {
    let telegram = telegrams::telegram(generator);
    let mut line = telegram_line(generator, &telegram);
    let place = generator.below(line.len());
    match generator.below(3) {
        0 => line[place] = generator.pick(CHARACTERS),
        1 => line.insert(place, generator.pick(CHARACTERS)),
        _ => {
            line.remove(place);
        }
    }
    line
}
