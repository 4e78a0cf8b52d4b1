//! Whether the random captures hold what they should.

use super::*;
use crate::readout;

#[test]
fn every_kind_of_line_is_met_often() {
    let mut generator = Generator::new(7);
    let mut lines = Vec::new();
    for _ in 0..1000 {
        lines.extend(readout::lines(&capture(&mut generator)));
    }
    for start in [
        "capture",
        "meter",
        "shared",
        "search",
        "picked answered=yes",
        "reading",
        "maker",
        "telegram",
        "released",
        "fault layer=frame telegram=",
        "fault layer=reply telegram=",
        "fault layer=record telegram=- ",
        "fault layer=making telegram=- ",
        "fault layer=making telegram=17 ",
        "fault layer=making telegram=2",
    ] {
        let start = format!("kind={start}");
        let count = lines.iter().filter(|line| line.starts_with(&start)).count();
        assert!(count >= 2, "{count} of {start}");
    }
    for number in (2..=7).chain(9..=16) {
        let end = format!(" number={number}");
        let count = lines.iter().filter(|line| line.ends_with(&end)).count();
        assert!(count >= 2, "{count} of{end}");
    }
}

#[test]
fn some_captures_are_as_large_as_can_be() {
    let mut generator = Generator::new(9);
    let sizes: Vec<usize> = (0..1000).map(|_| capture(&mut generator).len()).collect();
    for size in [0, 59_999, 60_000, 60_001] {
        assert!(sizes.contains(&size), "{size}");
    }
}
