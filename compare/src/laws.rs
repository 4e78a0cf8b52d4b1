//! Checks on random houses that the model in here keeps the laws that
//! docs/PROTOCOL.md states: what a retry layer means, and "What follows" under
//! "The master".

mod searches;
mod watched;

use std::fmt;

use crate::line::{Line, Meter, Pattern, Request, Selected};
use crate::master::{Found, Master, Misuse};
use crate::random_input::{self, Generator};
use crate::reply::MeterAddress;
use crate::scenario::{Call, TestHouse};
use watched::Watched;

/// Exchanges before the master begins: it has to cope with any state.
const MOST_EARLIER: usize = 6;

/// A law that does not hold.
#[derive(Debug)]
pub struct Broken {
    law: String,
    /// Which of the random houses it was, counted from 1.
    house_number: usize,
}

impl fmt::Display for Broken {
    fn fmt(&self, f: &mut fmt::Formatter) -> fmt::Result {
        write!(f, "house {}: {}", self.house_number, self.law)
    }
}

/// Checks `count` houses made from the seed.
pub fn first_broken(seed: u64, count: usize) -> Option<Broken> {
    let mut generator = Generator::new(seed);
    (1..=count).find_map(|house_number| {
        let house = random_input::good_house(&mut generator);
        let law = check(&mut generator, &house).err()?;
        Some(Broken { law, house_number })
    })
}

fn check(generator: &mut Generator, house: &TestHouse) -> Result<(), String> {
    let line = house
        .line()
        .map_err(|report| format!("a good house is refused: {report}"))?;
    let mut line = Watched::new(line);
    for _ in 0..generator.below(MOST_EARLIER + 1) {
        line.exchange(&any_request(generator));
    }
    let (run, tries) = run_and_tries(house);
    if line.run() != run / tries {
        return Err(format!("a run of {} over {run} and {tries}", line.run()));
    }
    let mut checker = Checker {
        master: Master::new(line),
        places: house.places,
        under_limit: run < tries,
        pick: None,
    };
    for &call in &house.calls {
        checker.perform(call)?;
        if let Some(broken) = checker.master.line().broken() {
            return Err(broken.to_string());
        }
    }
    Ok(())
}

/// The longest stretch of faults, and the product of the layers' tries: not
/// asked of the line, whose word it is that is checked.
fn run_and_tries(house: &TestHouse) -> (usize, usize) {
    let stretches = house.codes.split(|&code| code == 0);
    let run = stretches.map(<[u8]>::len).max().unwrap_or(0);
    let tries = house.limits.iter().map(|&limit| usize::from(limit) + 1);
    (run, tries.product())
}

fn any_request(generator: &mut Generator) -> Vec<u8> {
    let count = generator.below(9);
    let digits: Vec<u8> = (0..count).map(|_| generator.below(10) as u8).collect();
    let request = generator.pick(&[
        Request::Selection(Pattern::of_beginning(&digits)),
        Request::Selection(Pattern([0xFF; 8])),
        Request::Fetch { bit: true },
        Request::Fetch { bit: false },
        Request::Release,
    ]);
    let mut bytes = request.to_bytes();
    if generator.one_in(8) {
        bytes.pop();
    }
    bytes
}

/// Makes calls and checks what comes of them.
struct Checker {
    master: Master<Watched>,
    places: usize,
    /// Whether the layers hide all faults of the bench.
    under_limit: bool,
    /// Of the calls, as far as they were no misuse.
    pick: Option<Pick>,
}

struct Pick {
    /// The meter that alone fits what is picked.
    only: Option<Meter>,
    accepted: usize,
}

impl Checker {
    fn perform(&mut self, call: Call) -> Result<(), String> {
        let picked = self.pick.is_some();
        let done = match call {
            Call::Search => self.search()?,
            Call::Pick(address) => self.pick(address)?,
            Call::Fetch => self.fetch()?,
            Call::Release => {
                self.master.release();
                self.pick = None;
                self.check_nobody_selected("release")?;
                Ok(())
            }
        };
        let misuse = match call {
            Call::Search | Call::Pick(_) => picked,
            Call::Fetch => !picked,
            Call::Release => false,
        };
        match done.is_err() == misuse {
            true => Ok(()),
            false => Err(format!("misuse is not what it should be at {call:?}")),
        }
    }

    fn search(&mut self) -> Result<Result<(), Misuse>, String> {
        let found: Found = match self.master.search(self.places) {
            Ok(found) => found,
            Err(misuse) => return Ok(Err(misuse)),
        };
        let meters = self.master.line().meters().all();
        searches::check_never_invents(meters, self.places, &found)?;
        if self.under_limit {
            searches::check_whole(meters, self.places, &found)?;
            self.check_nobody_selected("search")?;
        }
        Ok(Ok(()))
    }

    fn pick(&mut self, address: MeterAddress) -> Result<Result<(), Misuse>, String> {
        let answered = match self.master.pick(address) {
            Ok(answered) => answered,
            Err(misuse) => return Ok(Err(misuse)),
        };
        let meters = self.master.line().meters();
        let only = match meters.fitting(Pattern::of_address(address)) {
            Selected::One(meter) => Some(meter.clone()),
            _ => None,
        };
        if only.is_some() && self.under_limit && !answered {
            return Err(format!("nobody answers the pick of {address}"));
        }
        self.pick = Some(Pick { only, accepted: 0 });
        Ok(Ok(()))
    }

    fn fetch(&mut self) -> Result<Result<(), Misuse>, String> {
        let fetched = match self.master.fetch() {
            Ok(fetched) => fetched,
            Err(misuse) => return Ok(Err(misuse)),
        };
        let Some(Pick {
            only: Some(meter),
            accepted,
        }) = &mut self.pick
        else {
            return Ok(Ok(()));
        };
        match fetched {
            Ok(telegram) => {
                let index = *accepted % meter.telegrams.len();
                *accepted += 1;
                if telegram != meter.telegrams[index] {
                    return Err(format!("fetch {accepted} is not telegram {}", index + 1));
                }
            }
            Err(refusal) if self.under_limit => {
                return Err(format!("a fetch is refused with {}", refusal.number()));
            }
            Err(_) => {}
        }
        Ok(Ok(()))
    }

    fn check_nobody_selected(&self, call: &str) -> Result<(), String> {
        let line = self.master.line();
        match line.meters().selected(line.state()) {
            Selected::Nobody => Ok(()),
            _ if !self.under_limit => Ok(()),
            _ => Err(format!("a meter is selected after a {call}")),
        }
    }
}

#[cfg(test)]
mod tests {
    use super::*;

    #[test]
    fn no_law_is_broken() {
        let broken = first_broken(1, 300).map(|broken| broken.to_string());
        assert_eq!(broken, None);
    }
}
