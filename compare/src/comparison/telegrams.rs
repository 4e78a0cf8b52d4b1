//! Compares the program `decode` with the decoder in here on random telegrams.

use std::fmt;
use std::io;
use std::path::Path;
use std::process::{ExitStatus, Output};

use super::program;
use crate::decoder::Decoder;
use crate::input_line;
use crate::random_input::{self, Generator};

/// Telegrams for one run of the program.
const BATCH: usize = 5000;

/// The first thing in which the program and the decoder in here differ.
#[derive(Debug, PartialEq, Eq)]
pub enum Difference {
    /// A line is another one, or missing.
    Line {
        input_line: usize,
        input: Vec<u8>,
        expected: Vec<u8>,
        found: Option<Vec<u8>>,
    },
    /// The program goes on after the last line.
    MoreOutput { found: Vec<u8> },
    /// The program prints the right lines, but ends with a status other than 0.
    Status(ExitStatus),
}

impl fmt::Display for Difference {
    fn fmt(&self, f: &mut fmt::Formatter) -> fmt::Result {
        match self {
            Difference::Line {
                input_line,
                input,
                expected,
                found,
            } => {
                writeln!(f, "input line {input_line}: {}", input.escape_ascii())?;
                writeln!(f, "compare: {}", expected.escape_ascii())?;
                match found {
                    Some(found) => write!(f, "program: {}", found.escape_ascii()),
                    None => write!(f, "program: no line"),
                }
            }
            Difference::MoreOutput { found } => {
                writeln!(f, "after the last input line")?;
                writeln!(f, "compare: no line")?;
                write!(f, "program: {}", found.escape_ascii())
            }
            Difference::Status(status) => write!(f, "the program ends with {status}"),
        }
    }
}

/// Compares on `count` random telegrams made from the seed.
pub fn compare(seed: u64, count: usize, program: &Path) -> io::Result<Option<Difference>> {
    let program = program::find(program)?;
    let mut generator = Generator::new(seed);
    let mut left = count;
    while left > 0 {
        let batch = left.min(BATCH);
        let input = random_input::input(&mut generator, batch);
        let output = program::run(&program, &input)?;
        if let Some(difference) = first_difference(&input, &output) {
            return Ok(Some(difference));
        }
        left -= batch;
    }
    Ok(None)
}

fn first_difference(input: &[u8], output: &Output) -> Option<Difference> {
    // With their 0A, so that a missing last one is a difference too.
    let mut found = output.stdout.split_inclusive(|&byte| byte == b'\n');
    let mut decoder = Decoder::default();
    for (index, text) in input_line::split(input).enumerate() {
        for line in decoder.decode_line(text) {
            let expected = format!("{line}\n").into_bytes();
            let found = found.next();
            if found != Some(&expected[..]) {
                return Some(Difference::Line {
                    input_line: index + 1,
                    input: text.to_vec(),
                    expected,
                    found: found.map(<[u8]>::to_vec),
                });
            }
        }
    }
    if let Some(more) = found.next() {
        let found = more.to_vec();
        return Some(Difference::MoreOutput { found });
    }
    (!output.status.success()).then_some(Difference::Status(output.status))
}

#[cfg(test)]
mod tests {
    use super::*;

    const INPUT: &[u8] = b"# two telegrams\nE5\n\n-";
    const RIGHT: &str = "kind=frame telegram=1 type=ack\n\
                         kind=fault layer=frame telegram=2 place=0 number=1\n";

    fn difference(stdout: &str) -> Option<Difference> {
        let output = Output {
            status: ExitStatus::default(),
            stdout: stdout.as_bytes().to_vec(),
            stderr: Vec::new(),
        };
        first_difference(INPUT, &output)
    }

    #[test]
    fn the_right_output_is_no_difference() {
        assert_eq!(difference(RIGHT), None);
    }

    #[test]
    fn a_changed_or_missing_line_is_found_with_its_input() {
        for wrong in [
            RIGHT.replace("place=0", "place=1"),
            RIGHT.trim_end().to_string(),
            String::from("kind=frame telegram=1 type=ack\n"),
        ] {
            let Some(Difference::Line {
                input_line, input, ..
            }) = difference(&wrong)
            else {
                panic!("no difference in {wrong:?}");
            };
            assert_eq!((input_line, &input[..]), (4, &b"-"[..]));
        }
    }

    #[test]
    fn more_output_is_found() {
        let found = b"more".to_vec();
        let more = format!("{RIGHT}more");
        assert_eq!(difference(&more), Some(Difference::MoreOutput { found }));
    }
}
