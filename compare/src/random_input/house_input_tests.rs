//! Whether the random houses hold what they should.

use super::*;
use crate::scenario::{self, TestHouse};

#[test]
fn a_house_is_read_as_it_was_written() {
    let mut generator = Generator::new(5);
    for _ in 0..300 {
        let house = houses::good_house(&mut generator);
        let lines = house_text::lines(&mut generator, &house);
        assert_eq!(TestHouse::read(&lines.join(&b'\n')), Ok(house));
    }
}

#[test]
fn bad_lines_are_unreadable() {
    for line in BAD_LINES {
        let read = TestHouse::read(line);
        assert_eq!(read, Err(vec![1]), "{}", line.escape_ascii());
    }
}

#[test]
fn every_kind_of_line_is_met_often() {
    let mut generator = Generator::new(7);
    let mut lines = Vec::new();
    for _ in 0..400 {
        lines.extend(scenario::lines(&house_input(&mut generator)));
    }
    let starts = [
        "unreadable",
        "bench",
        "meter",
        "shared",
        "search",
        "picked answered=yes",
        "picked answered=no",
        "reading",
        "maker",
        "telegram",
        "released",
        "misuse",
        "fault layer=record",
    ];
    for start in starts.map(|start| format!("kind={start} ")) {
        let start = start.trim_end_matches(' ');
        let count = lines.iter().filter(|line| line.starts_with(start)).count();
        assert!(count >= 40, "{count} of {start}");
    }
    for number in 17..=23 {
        let end = format!(" number={number}");
        let count = lines.iter().filter(|line| line.ends_with(&end)).count();
        assert!(count >= 4, "{count} of{end}");
    }
}
