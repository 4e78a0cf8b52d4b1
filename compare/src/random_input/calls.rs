//! Random calls of a master.

use super::addresses::{any_address, with_any_rest};
use super::generator::Generator;
use crate::reply::MeterAddress;
use crate::scenario::Call;

/// Fetches in a row: enough for every telegram of a meter to come twice.
const MOST_FETCHES: usize = 36;

/// One list of calls in this many is very long.
const LONG_ONE_IN: usize = 100;
const LONG: usize = 2000;

/// Few or many calls, of which at most `searches` are searches.
pub fn calls(generator: &mut Generator, addresses: &[MeterAddress], searches: usize) -> Vec<Call> {
    let count = match generator.one_in(LONG_ONE_IN) {
        true => LONG,
        false => 1 + generator.count(60),
    };
    let mut searches = searches;
    let mut picked = false;
    let mut calls = Vec::new();
    while calls.len() < count {
        let call = next(generator, addresses, picked);
        match call {
            Call::Search if searches == 0 => continue,
            Call::Search => searches -= 1,
            Call::Pick(_) => picked = true,
            Call::Release => picked = false,
            Call::Fetch => {}
        }
        calls.push(call);
        if picked && call == Call::Fetch {
            let most = generator.pick(&[2, 6, MOST_FETCHES]);
            let more = generator.below(most);
            calls.extend(vec![Call::Fetch; more]);
        }
    }
    calls
}

/// Mostly a call that fits the master's standing, sometimes misuse.
fn next(generator: &mut Generator, addresses: &[MeterAddress], picked: bool) -> Call {
    let pick = Call::Pick(target(generator, addresses));
    let weights = if picked {
        [
            (Call::Search, 1),
            (pick, 1),
            (Call::Fetch, 5),
            (Call::Release, 4),
        ]
    } else {
        [
            (Call::Search, 4),
            (pick, 6),
            (Call::Fetch, 1),
            (Call::Release, 1),
        ]
    };
    generator.pick_weighted(&weights)
}

/// An address that one, several or no meters may have.
fn target(generator: &mut Generator, addresses: &[MeterAddress]) -> MeterAddress {
    if addresses.is_empty() || generator.one_in(12) {
        return any_address(generator);
    }
    let address = generator.pick(addresses);
    match generator.below(10) {
        0 => with_any_rest(generator, address.number),
        // All open but the number.
        1 => MeterAddress {
            maker: 0xFFFF,
            version: 0xFF,
            medium: 0xFF,
            ..address
        },
        2 => MeterAddress {
            maker: address.maker | generator.pick(&[0xFF00, 0x00FF]),
            ..address
        },
        3 => MeterAddress {
            number: address.number ^ 1,
            ..address
        },
        _ => address,
    }
}
