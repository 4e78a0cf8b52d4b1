//! Compares all that a program prints for one input with what it should print.

use std::fmt;
use std::path::PathBuf;
use std::process::{ExitStatus, Output};

/// The first thing in which the program and the model in here differ.
#[derive(Debug, PartialEq, Eq)]
pub enum Mismatch {
    /// A line is another one, missing, or one too many.
    Line {
        /// Counted from 1.
        number: usize,
        expected: Option<Vec<u8>>,
        found: Option<Vec<u8>>,
    },
    /// The program prints the right lines, but ends with a status other than 0.
    Status(ExitStatus),
}

/// A mismatch and the input that brought it about.
#[derive(Debug)]
pub struct Difference {
    pub mismatch: Mismatch,
    /// Which of the random inputs it was, counted from 1.
    pub input_number: usize,
    pub saved_input: PathBuf,
}

impl fmt::Display for Difference {
    fn fmt(&self, f: &mut fmt::Formatter) -> fmt::Result {
        let path = self.saved_input.display();
        writeln!(f, "input {} is saved in {path}", self.input_number)?;
        write!(f, "{}", self.mismatch)
    }
}

impl fmt::Display for Mismatch {
    fn fmt(&self, f: &mut fmt::Formatter) -> fmt::Result {
        match self {
            Mismatch::Line {
                number,
                expected,
                found,
            } => {
                writeln!(f, "output line {number}")?;
                writeln!(f, "compare: {}", LineOrNone(expected))?;
                write!(f, "program: {}", LineOrNone(found))
            }
            Mismatch::Status(status) => write!(f, "the program ends with {status}"),
        }
    }
}

struct LineOrNone<'a>(&'a Option<Vec<u8>>);

impl fmt::Display for LineOrNone<'_> {
    fn fmt(&self, f: &mut fmt::Formatter) -> fmt::Result {
        match self.0 {
            Some(line) => write!(f, "{}", line.escape_ascii()),
            None => write!(f, "no line"),
        }
    }
}

pub fn first_mismatch(expected: &[String], output: &Output) -> Option<Mismatch> {
    // With their 0A, so that a missing last one is a difference too.
    let mut found = output.stdout.split_inclusive(|&byte| byte == b'\n');
    let mut expected = expected.iter().map(|line| format!("{line}\n").into_bytes());
    for number in 1.. {
        let (expected, found) = (expected.next(), found.next());
        if expected.as_deref() != found {
            return Some(Mismatch::Line {
                number,
                expected,
                found: found.map(<[u8]>::to_vec),
            });
        }
        if found.is_none() {
            break;
        }
    }
    (!output.status.success()).then_some(Mismatch::Status(output.status))
}

#[cfg(test)]
mod tests {
    use super::*;

    /// The number of the first output line that differs from "a", "b".
    fn mismatch(stdout: &str) -> Option<usize> {
        let output = Output {
            status: ExitStatus::default(),
            stdout: stdout.as_bytes().to_vec(),
            stderr: Vec::new(),
        };
        let expected = [String::from("a"), String::from("b")];
        match first_mismatch(&expected, &output)? {
            Mismatch::Line { number, .. } => Some(number),
            Mismatch::Status(status) => panic!("{status}"),
        }
    }

    #[test]
    fn lines_are_compared_one_by_one() {
        assert_eq!(mismatch("a\nb\n"), None);
        assert_eq!(mismatch("a\nc\n"), Some(2));
        assert_eq!(mismatch("a\nb"), Some(2));
        assert_eq!(mismatch(""), Some(1));
        assert_eq!(mismatch("a\nb\n\n"), Some(3));
        assert_eq!(mismatch("a\r\nb\n"), Some(1));
    }
}
