//! Layers that send a request again until a good reply comes.

use super::meters::{Meters, State};
use super::{GARBLED, Line};
use crate::fault::Refusal;
use crate::frame::ACKNOWLEDGEMENT;
use crate::reply::Reply;

pub const MOST_RETRIES: u8 = 7;

struct Retry {
    below: Box<dyn Line>,
    tries: usize,
}

/// The line under layers with these limits, the first directly over it.
pub fn over_layers(line: Box<dyn Line>, limits: &[u8]) -> Result<Box<dyn Line>, Refusal> {
    let mut line = line;
    for &limit in limits {
        if limit > MOST_RETRIES {
            return Err(Refusal::LimitAboveSeven);
        }
        line = Box::new(Retry {
            below: line,
            tries: usize::from(limit) + 1,
        });
    }
    Ok(line)
}

impl Line for Retry {
    fn exchange(&mut self, request: &[u8]) -> Vec<u8> {
        let mut all_silent = true;
        for _ in 0..self.tries {
            let reply = self.below.exchange(request);
            if reply == [ACKNOWLEDGEMENT] || Reply::read_telegram(&reply).is_ok() {
                return reply;
            }
            all_silent &= reply.is_empty();
        }
        if all_silent {
            Vec::new()
        } else {
            vec![GARBLED]
        }
    }

    fn meters(&self) -> &Meters {
        self.below.meters()
    }

    fn state(&self) -> State {
        self.below.state()
    }

    fn run(&self) -> usize {
        self.below.run() / self.tries
    }

    fn streak(&self) -> usize {
        self.below.streak() / self.tries
    }
}

#[cfg(test)]
mod tests {
    use super::*;
    use crate::line::{Bench, Pattern, Request, Row, Span};
    use crate::reply::MeterAddress;

    fn layered(codes: &[u8], limits: &[u8]) -> Box<dyn Line> {
        let row = Row {
            address: MeterAddress {
                number: 12_345_678,
                maker: 0x2C2D,
                version: 1,
                medium: 4,
            },
            primary: 5,
            bodies: vec![
                Span {
                    start: 0,
                    length: 0
                };
                2
            ],
        };
        let bench = Bench::new(&[row], &[], codes).unwrap();
        over_layers(Box::new(bench), limits).unwrap()
    }

    fn replies(codes: &[u8], limits: &[u8], count: usize) -> Vec<Vec<u8>> {
        let mut line = layered(codes, limits);
        let selection = Request::Selection(Pattern::of_beginning(&[])).to_bytes();
        (0..count).map(|_| line.exchange(&selection)).collect()
    }

    #[test]
    fn limits_above_seven_are_refused() {
        let line = || layered(&[], &[]);
        assert!(over_layers(line(), &[7, 0, 7]).is_ok());
        let refused = over_layers(line(), &[7, 8]).err();
        assert_eq!(refused, Some(Refusal::LimitAboveSeven));
    }

    #[test]
    fn runs_are_divided_by_the_product_of_the_tries() {
        let run = |faults| layered(&vec![1; faults], &[1, 2]).run();
        assert_eq!((run(5), run(6), run(11), run(12)), (0, 1, 1, 2));
    }

    #[test]
    fn a_good_reply_ends_the_tries() {
        assert_eq!(replies(&[1, 0, 3], &[1], 2), [[0xE5], [0xE5]]);
        let expected: [&[u8]; 2] = [&[], &[0xE5]];
        assert_eq!(replies(&[1, 2], &[1], 2), expected);
    }

    #[test]
    fn one_garbled_try_makes_the_failure_garbled() {
        assert_eq!(replies(&[1, 3, 2], &[2], 1), [[0x00]]);
        assert_eq!(replies(&[1, 2, 2, 3], &[1, 1], 1), [[0x00]]);
        assert_eq!(replies(&[1, 2, 2, 3, 3], &[1, 1], 2), [[0x00], [0xE5]]);
    }
}
