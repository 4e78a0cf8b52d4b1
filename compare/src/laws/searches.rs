//! What the list of a search may hold.

use std::collections::BTreeMap;

use crate::beginnings;
use crate::line::Meter;
use crate::master::{Entry, Found};

/// Where the layers hide all faults and there are places enough: each number
/// present is listed once, and the selections are those that this takes.
pub fn check_whole(meters: &[Meter], places: usize, found: &Found) -> Result<(), String> {
    let expected = whole_list(meters);
    if expected.len() > places {
        return Ok(());
    }
    if found.no_place_left {
        return Err(format!("17 with {places} places"));
    }
    if found.entries != expected {
        return Err(format!("{:?} instead of {expected:?}", found.entries));
    }
    let numbers: Vec<u32> = meters.iter().map(|meter| meter.address.number).collect();
    let selections = 1 + 10 * beginnings::common(&numbers);
    if found.selections != selections || selections > 11 + 70 * (meters.len() / 2) {
        return Err(format!("{} selections", found.selections));
    }
    Ok(())
}

/// Whatever is lost or damaged.
pub fn check_never_invents(meters: &[Meter], places: usize, found: &Found) -> Result<(), String> {
    let whole: BTreeMap<u32, Entry> = whole_list(meters)
        .into_iter()
        .map(|entry| (entry.number(), entry))
        .collect();
    if !found.entries.is_sorted_by(|a, b| a.number() < b.number()) {
        return Err(format!("{:?} do not rise", found.entries));
    }
    for entry in &found.entries {
        let right = match (entry, whole.get(&entry.number())) {
            (_, None) => false,
            // It may seem that several meters have a number that one has.
            (Entry::Shared(_), Some(_)) => true,
            (Entry::Meter(_), Some(carried)) => carried == entry,
        };
        if !right {
            return Err(format!("{entry:?} is invented"));
        }
    }
    match found.no_place_left && found.entries.len() != places {
        true => Err(format!(
            "17 with {} of {places} places",
            found.entries.len()
        )),
        false => Ok(()),
    }
}

/// The right entry for each number present.
fn whole_list(meters: &[Meter]) -> Vec<Entry> {
    let mut entries = BTreeMap::new();
    for meter in meters {
        let number = meter.address.number;
        entries
            .entry(number)
            .and_modify(|entry| *entry = Entry::Shared(number))
            .or_insert(Entry::Meter(meter.address));
    }
    entries.into_values().collect()
}
