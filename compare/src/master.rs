//! The master: search, pick, fetch and release: "The master" in
//! docs/PROTOCOL.md.

use crate::fault::Refusal;
use crate::line::{Line, Pattern, Request};
use crate::reply::{MeterAddress, Reply};

/// Digits of a number, after which there is nothing left to tell meters apart.
const NUMBER_DIGITS: usize = 8;

#[derive(Debug, Clone, Copy, PartialEq, Eq)]
pub enum Entry {
    Meter(MeterAddress),
    /// A number that several meters have, or seem to have.
    Shared(u32),
}

impl Entry {
    pub fn number(self) -> u32 {
        match self {
            Entry::Meter(address) => address.number,
            Entry::Shared(number) => number,
        }
    }
}

#[derive(Debug, PartialEq, Eq)]
pub struct Found {
    pub entries: Vec<Entry>,
    pub selections: usize,
    /// Whether the search ended for want of a place.
    pub no_place_left: bool,
}

/// A call that does not fit the master's standing; it did nothing.
#[derive(Debug, PartialEq, Eq)]
pub struct Misuse;

#[derive(Debug, Clone, Copy, PartialEq, Eq)]
enum Standing {
    Idle,
    Picked {
        answered: bool,
        /// The frame count bit of the next fetch.
        bit: bool,
    },
}

pub struct Master<L> {
    line: L,
    standing: Standing,
}

enum Probed {
    Nobody,
    One(MeterAddress),
    Several,
}

impl<L: Line> Master<L> {
    pub fn new(line: L) -> Self {
        Master {
            line,
            standing: Standing::Idle,
        }
    }

    pub fn line(&self) -> &L {
        &self.line
    }

    /// Lists the meters, at most as many entries as there are places.
    pub fn search(&mut self, places: usize) -> Result<Found, Misuse> {
        if self.standing != Standing::Idle {
            return Err(Misuse);
        }
        let mut found = Found {
            entries: Vec::new(),
            selections: 0,
            no_place_left: false,
        };
        self.search_under(&mut Vec::new(), places, &mut found);
        self.send(Request::Release);
        Ok(found)
    }

    /// Tells whether any reply came.
    pub fn pick(&mut self, address: MeterAddress) -> Result<bool, Misuse> {
        if self.standing != Standing::Idle {
            return Err(Misuse);
        }
        let reply = self.send(Request::Selection(Pattern::of_address(address)));
        let answered = !reply.is_empty();
        self.standing = Standing::Picked {
            answered,
            bit: true,
        };
        Ok(answered)
    }

    /// The bytes of a reply telegram, or why there is none.
    pub fn fetch(&mut self) -> Result<Result<Vec<u8>, Refusal>, Misuse> {
        let Standing::Picked { answered, bit } = self.standing else {
            return Err(Misuse);
        };
        if !answered {
            return Ok(Err(Refusal::PickUnanswered));
        }
        let reply = self.send(Request::Fetch { bit });
        if reply.is_empty() {
            return Ok(Err(Refusal::FetchUnanswered));
        }
        if Reply::read_telegram(&reply).is_err() {
            return Ok(Err(Refusal::NoReplyTelegram));
        }
        self.standing = Standing::Picked {
            answered,
            bit: !bit,
        };
        Ok(Ok(reply))
    }

    pub fn release(&mut self) {
        self.send(Request::Release);
        self.standing = Standing::Idle;
    }

    /// Probes a beginning and all that follows from it, unless no place is left.
    fn search_under(&mut self, beginning: &mut Vec<u8>, places: usize, found: &mut Found) {
        found.selections += 1;
        match self.probe(beginning) {
            Probed::Nobody => {}
            Probed::One(address) => found.add(Entry::Meter(address), places),
            Probed::Several if beginning.len() == NUMBER_DIGITS => {
                found.add(Entry::Shared(number(beginning)), places);
            }
            Probed::Several => {
                for digit in 0..=9 {
                    beginning.push(digit);
                    self.search_under(beginning, places, found);
                    beginning.pop();
                    if found.no_place_left {
                        return;
                    }
                }
            }
        }
    }

    fn probe(&mut self, beginning: &[u8]) -> Probed {
        let selection = Request::Selection(Pattern::of_beginning(beginning));
        if self.send(selection).is_empty() {
            return Probed::Nobody;
        }
        let reply = self.send(Request::Fetch { bit: true });
        match Reply::read_telegram(&reply) {
            Ok(reply) => Probed::One(reply.meter),
            Err(_) => Probed::Several,
        }
    }

    fn send(&mut self, request: Request) -> Vec<u8> {
        self.line.exchange(&request.to_bytes())
    }
}

impl Found {
    fn add(&mut self, entry: Entry, places: usize) {
        if self.entries.len() < places {
            self.entries.push(entry);
        } else {
            self.no_place_left = true;
        }
    }
}

fn number(digits: &[u8]) -> u32 {
    let append = |number, &digit: &u8| number * 10 + u32::from(digit);
    digits.iter().fold(0, append)
}

#[cfg(test)]
#[path = "master_tests.rs"]
mod tests;
