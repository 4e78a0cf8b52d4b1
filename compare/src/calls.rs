//! What `readout` and `scenario` print for the calls of a master.

use crate::decoder::push_body_lines;
use crate::fault::{Refusal, Report};
use crate::master::{Entry, Found};
use crate::output_line::OutputLine;
use crate::reply::Reply;

pub fn push_entries(lines: &mut Vec<String>, found: &Found) {
    lines.extend(found.entries.iter().map(|entry| {
        match *entry {
            Entry::Meter(address) => OutputLine::Meter(address),
            Entry::Shared(number) => OutputLine::Shared { number },
        }
        .to_string()
    }));
}

pub fn push_search(lines: &mut Vec<String>, found: &Found) {
    let line = OutputLine::Search {
        entries: found.entries.len(),
        selections: found.selections,
    };
    lines.push(line.to_string());
}

/// Tells whether more telegrams follow: none do after any refusal.
pub fn push_fetched(lines: &mut Vec<String>, fetched: &Result<Vec<u8>, Refusal>) -> bool {
    let mut fetched_lines = Vec::new();
    let more = match fetched {
        Ok(telegram) => match Reply::read_telegram(telegram) {
            Ok(reply) => push_body_lines(&mut fetched_lines, None, &reply),
            Err(_) => unreachable!("a master accepts only reply telegrams"),
        },
        Err(refusal) => {
            fetched_lines.push(OutputLine::Fault(Report::from(*refusal)));
            false
        }
    };
    lines.extend(fetched_lines.iter().map(OutputLine::to_string));
    more
}
