//! Measures how fast two decoders fold the same telegrams.

use std::fmt;
use std::hint::black_box;
use std::time::{Duration, Instant};

use crate::cases::plain_text;
use crate::fold::fold;
use crate::random_input::telegrams_to_measure;

const SEED: u64 = 1;
const TELEGRAMS: usize = 10_000;

/// At least so many, however short the time: one says nothing.
const FEWEST_ROUNDS: usize = 4;

/// Decodes a telegram and folds what it found into the seed.
pub type Decode = fn(&[u8], u64) -> u64;

/// A telegram on which the two decoders do not agree.
#[derive(Debug)]
pub struct Disagreement {
    telegram: Vec<u8>,
    own: u64,
    linked: u64,
}

impl fmt::Display for Disagreement {
    fn fmt(&self, f: &mut fmt::Formatter) -> fmt::Result {
        writeln!(f, "the decoders do not agree on a telegram")?;
        writeln!(f, "telegram: {}", plain_text(&self.telegram))?;
        writeln!(f, "own:      {:016X}", self.own)?;
        write!(f, "linked:   {:016X}", self.linked)
    }
}

/// How long each took for all telegrams.
#[derive(Debug)]
pub struct Speeds {
    rounds: usize,
    own: Duration,
    linked: Duration,
}

impl fmt::Display for Speeds {
    fn fmt(&self, f: &mut fmt::Formatter) -> fmt::Result {
        let own = TELEGRAMS as f64 / self.own.as_secs_f64();
        let linked = TELEGRAMS as f64 / self.linked.as_secs_f64();
        writeln!(f, "{TELEGRAMS} telegrams, {} rounds", self.rounds)?;
        writeln!(f, "own:        {own:.0} telegrams per second")?;
        writeln!(f, "linked:     {linked:.0} telegrams per second")?;
        write!(f, "linked/own: {:.2}", linked / own)
    }
}

/// Measures both for about so long in all, unless they do not agree.
pub fn measure(time: Duration, linked: Decode) -> Result<Speeds, Disagreement> {
    let telegrams = telegrams_to_measure(SEED, TELEGRAMS);
    if let Some(disagreement) = first_disagreement(&telegrams, linked) {
        return Err(disagreement);
    }
    let start = Instant::now();
    let mut own_times = Vec::new();
    let mut linked_times = Vec::new();
    while own_times.len() < FEWEST_ROUNDS || start.elapsed() < time {
        // Each goes first as often as the other.
        if own_times.len().is_multiple_of(2) {
            own_times.push(time_of_one_pass(&telegrams, fold));
            linked_times.push(time_of_one_pass(&telegrams, linked));
        } else {
            linked_times.push(time_of_one_pass(&telegrams, linked));
            own_times.push(time_of_one_pass(&telegrams, fold));
        }
    }
    Ok(Speeds {
        rounds: own_times.len(),
        own: median(own_times),
        linked: median(linked_times),
    })
}

fn first_disagreement(telegrams: &[Vec<u8>], linked: Decode) -> Option<Disagreement> {
    telegrams.iter().zip(0..).find_map(|(telegram, seed)| {
        let own = fold(telegram, seed);
        let linked = linked(telegram, seed);
        (own != linked).then(|| Disagreement {
            telegram: telegram.clone(),
            own,
            linked,
        })
    })
}

/// Each telegram's seed is what the one before gave, so none can be left out.
fn time_of_one_pass(telegrams: &[Vec<u8>], decode: Decode) -> Duration {
    let decode = black_box(decode);
    let start = Instant::now();
    let seed = black_box(SEED);
    let folded = telegrams
        .iter()
        .fold(seed, |seed, telegram| decode(telegram, seed));
    black_box(folded);
    start.elapsed()
}

/// Other programs disturb some rounds, but hardly the middle one of many.
fn median(mut times: Vec<Duration>) -> Duration {
    times.sort_unstable();
    times[times.len() / 2]
}

#[cfg(test)]
mod tests {
    use super::*;

    #[test]
    fn a_decoder_agrees_with_itself() {
        let speeds = measure(Duration::ZERO, fold).unwrap();
        assert_eq!(speeds.rounds, FEWEST_ROUNDS);
    }

    #[test]
    fn a_disagreement_is_found() {
        let wrong: Decode = |telegram, seed| fold(telegram, seed) ^ (telegram.len() == 1) as u64;
        let disagreement = measure(Duration::ZERO, wrong).unwrap_err();
        assert_eq!(disagreement.telegram.len(), 1);
        assert_eq!(disagreement.own ^ 1, disagreement.linked);
    }
}
