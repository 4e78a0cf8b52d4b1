//! A test house: meters, faults, layers, and the calls of a master.

use super::reading::{HouseLine, read_line};
use crate::input_line;
use crate::line::Row;
use crate::reply::MeterAddress;

pub const MOST_LAYERS: usize = 3;
pub const MOST_PLACES: usize = 250;

#[derive(Debug, Clone, Copy, PartialEq, Eq)]
pub enum Call {
    Search,
    Pick(MeterAddress),
    Fetch,
    Release,
}

#[derive(Debug, Clone, PartialEq, Eq)]
pub struct TestHouse {
    pub rows: Vec<Row>,
    pub area: Vec<u8>,
    pub codes: Vec<u8>,
    /// Of the layers, the lowest first.
    pub limits: Vec<u8>,
    pub places: usize,
    pub calls: Vec<Call>,
}

impl Default for TestHouse {
    fn default() -> Self {
        TestHouse {
            rows: Vec::new(),
            area: Vec::new(),
            codes: Vec::new(),
            limits: Vec::new(),
            places: MOST_PLACES,
            calls: Vec::new(),
        }
    }
}

impl TestHouse {
    /// Or the numbers of the unreadable lines, if there are any.
    pub fn read(input: &[u8]) -> Result<Self, Vec<usize>> {
        let mut house = TestHouse::default();
        let mut places = None;
        let mut unreadable = Vec::new();
        for (index, text) in input_line::split(input).enumerate() {
            let readable = match read_line(text) {
                None => false,
                // The only two kinds of line that may not come again and again.
                Some(HouseLine::Retry(_)) if house.limits.len() == MOST_LAYERS => false,
                Some(HouseLine::Places(_)) if places.is_some() => false,
                Some(HouseLine::Places(count)) => {
                    places = Some(count);
                    true
                }
                Some(line) => {
                    house.add(line);
                    true
                }
            };
            if !readable {
                unreadable.push(index + 1);
            }
        }
        house.places = places.unwrap_or(MOST_PLACES);
        if unreadable.is_empty() {
            Ok(house)
        } else {
            Err(unreadable)
        }
    }

    fn add(&mut self, line: HouseLine) {
        match line {
            HouseLine::Skipped => {}
            HouseLine::Area(bytes) => self.area.extend(bytes),
            HouseLine::Meter(row) => self.rows.push(row),
            HouseLine::Fault(codes) => self.codes.extend(codes),
            HouseLine::Retry(limit) => self.limits.push(limit),
            HouseLine::Places(count) => self.places = count,
            HouseLine::Call(call) => self.calls.push(call),
        }
    }
}

#[cfg(test)]
mod tests {
    use super::*;

    fn unreadable(input: &str) -> Vec<usize> {
        TestHouse::read(input.as_bytes()).err().unwrap_or_default()
    }

    #[test]
    fn parts_may_come_in_any_order() {
        let input = b"s\nfault 1\nretry 2\narea 0a\nfault 2 3\n\n#\nretry 0\nplaces 7\narea 0B\nr";
        let house = TestHouse::read(input).unwrap();
        assert_eq!(house.area, [0x0A, 0x0B]);
        assert_eq!(house.codes, [1, 2, 3]);
        assert_eq!(house.limits, [2, 0]);
        assert_eq!(house.places, 7);
        assert_eq!(house.calls, [Call::Search, Call::Release]);
    }

    #[test]
    fn a_fourth_layer_and_a_second_count_of_places_are_unreadable() {
        assert_eq!(
            unreadable("retry 8\nretry 255\nretry 0\nretry 0\nretry 0"),
            [4, 5]
        );
        assert_eq!(unreadable("places 3\nplaces 3\nplaces 4"), [2, 3]);
        // A line that is unreadable anyway is not counted.
        assert_eq!(unreadable("retry 256\nretry 1\nretry 1\nretry 1"), [1]);
        assert_eq!(unreadable("places 251\nplaces 250"), [1]);
    }
}
