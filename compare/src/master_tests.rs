//! What docs/PROTOCOL.md says a master does, on small houses.

use super::*;
use crate::line::{Bench, Row, Span, over_layers};

fn address(number: u32, medium: u8) -> MeterAddress {
    MeterAddress {
        number,
        maker: 0x2C2D,
        version: 1,
        medium,
    }
}

/// Each meter has this many telegrams, with bodies of 1, 2, 3... bytes.
fn master(
    addresses: &[MeterAddress],
    telegrams: u16,
    codes: &[u8],
    limits: &[u8],
) -> Master<Box<dyn Line>> {
    let bodies = (1..=telegrams).map(|length| Span { start: 0, length });
    let row = |&address: &MeterAddress| Row {
        address,
        primary: 5,
        bodies: bodies.clone().collect(),
    };
    let rows: Vec<Row> = addresses.iter().map(row).collect();
    let bench = Bench::new(&rows, &[0x2F; 16], codes).unwrap_or_else(|report| panic!("{report}"));
    Master::new(over_layers(Box::new(bench), limits).unwrap())
}

fn found(entries: &[Entry], selections: usize) -> Result<Found, Misuse> {
    Ok(Found {
        entries: entries.to_vec(),
        selections,
        no_place_left: false,
    })
}

#[test]
fn two_numbers_with_a_common_beginning_take_31_selections() {
    let (first, second) = (address(12_345_678, 4), address(12_900_003, 4));
    let mut master = master(&[second, first], 1, &[], &[]);
    let expected = [Entry::Meter(first), Entry::Meter(second)];
    assert_eq!(master.search(250), found(&expected, 31));
}

#[test]
fn two_meters_of_one_number_take_81_selections_and_are_shared() {
    let pair = [address(12_345_678, 4), address(12_345_678, 7)];
    let mut master = master(&pair, 1, &[], &[]);
    assert_eq!(master.search(250), found(&[Entry::Shared(12_345_678)], 81));
}

#[test]
fn nobody_and_one_meter_take_one_selection() {
    assert_eq!(master(&[], 1, &[], &[]).search(250), found(&[], 1));
    let only = address(99_999_999, 4);
    let mut master = master(&[only], 1, &[], &[]);
    assert_eq!(master.search(1), found(&[Entry::Meter(only)], 1));
}

#[test]
fn a_run_of_5_under_2_and_3_tries_still_gives_a_whole_list() {
    let (first, second) = (address(12_345_678, 4), address(12_900_003, 4));
    let expected = [Entry::Meter(first), Entry::Meter(second)];
    for code in 1..=3 {
        let codes = [[code; 5].as_slice(), &[0]].concat().repeat(600);
        let mut master = master(&[first, second], 1, &codes, &[1, 2]);
        assert_eq!(master.search(2), found(&expected, 31));
    }
    // One fault more and the first selection is lost.
    let mut master = master(&[first, second], 1, &[1; 6], &[1, 2]);
    assert_eq!(master.search(2), found(&[], 1));
    assert_eq!(master.search(2), found(&expected, 31));
}

#[test]
fn the_search_ends_where_no_place_is_left() {
    let numbers = [10_000_000, 20_000_000, 30_000_000].map(|number| address(number, 4));
    let mut master = master(&numbers, 1, &[], &[]);
    let mut short = |places| {
        let found = master.search(places).unwrap();
        assert!(found.no_place_left);
        (found.entries, found.selections)
    };
    // The beginnings: none, 0, 1; then 2; then 3.
    assert_eq!(short(0), (vec![], 3));
    assert_eq!(short(1), (vec![Entry::Meter(numbers[0])], 4));
    assert_eq!(short(2).1, 5);
    assert!(!master.search(3).unwrap().no_place_left);
}

#[test]
fn telegrams_come_in_turn_whatever_is_lost() {
    let only = address(12_345_678, 4);
    // The pick is clean; of the fetches each second one is lost on its way back.
    let codes = [0, 2, 0, 2, 0, 2, 0];
    let mut master = master(&[only], 2, &codes, &[]);
    assert_eq!(master.pick(only), Ok(true));
    let body = |telegram: Vec<u8>| telegram.len() - 21;
    for expected in [1, 2, 1] {
        assert_eq!(master.fetch(), Ok(Err(Refusal::FetchUnanswered)));
        let fetched = master.fetch().unwrap().map(body);
        assert_eq!(fetched, Ok(expected));
    }
}

#[test]
fn refused_fetches() {
    let pair = [address(12_345_678, 4); 2];
    let mut master = master(&pair, 1, &[0, 3, 0, 0, 3, 1], &[]);
    assert_eq!(master.pick(address(12_345_678, 5)), Ok(false));
    assert_eq!(master.fetch(), Ok(Err(Refusal::PickUnanswered)));
    master.release();
    assert_eq!(master.pick(pair[0]), Ok(true));
    assert_eq!(master.fetch(), Ok(Err(Refusal::NoReplyTelegram)));
    assert_eq!(master.fetch(), Ok(Err(Refusal::NoReplyTelegram)));
    assert_eq!(master.fetch(), Ok(Err(Refusal::FetchUnanswered)));
}

#[test]
fn a_damaged_acknowledgement_is_a_reply_too() {
    let only = address(12_345_678, 4);
    let mut master = master(&[only], 1, &[3, 0], &[]);
    assert_eq!(master.pick(only), Ok(true));
    assert!(master.fetch().unwrap().is_ok());
}

#[test]
fn misuse_sends_nothing() {
    let only = address(12_345_678, 4);
    // Were anything sent at misuse, the fault would befall that instead.
    let mut master = master(&[only], 1, &[0, 1], &[]);
    assert_eq!(master.fetch(), Err(Misuse));
    assert_eq!(master.pick(only), Ok(true));
    assert_eq!(master.pick(only), Err(Misuse));
    assert_eq!(master.search(250), Err(Misuse));
    assert_eq!(master.fetch(), Ok(Err(Refusal::FetchUnanswered)));
    master.release();
    assert_eq!(master.fetch(), Err(Misuse));
    master.release();
    assert_eq!(master.search(250), found(&[Entry::Meter(only)], 1));
}
