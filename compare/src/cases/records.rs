//! Test cases for "Records in a body" in docs/PROTOCOL.md.

mod chains;
mod codes;
mod decimals;
mod examples;
mod fields;
mod items;
mod order;
mod texts;

use super::{Cases, with_byte, with_more};

pub fn add(cases: &mut Cases) {
    examples::add(cases);
    items::add(cases);
    chains::add(cases);
    codes::add(cases);
    fields::add(cases);
    decimals::add(cases);
    texts::add(cases);
    order::add(cases);
}

/// A reading of one byte, before and behind which others are put.
const READING: [u8; 3] = [0x01, 0x13, 0x2A];

/// The body, cut at every length from none of it to all of it.
fn add_every_cut(cases: &mut Cases, body: &[u8]) {
    for count in 0..=body.len() {
        cases.body(&body[..count]);
    }
}
