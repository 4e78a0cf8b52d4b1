//! DIFs with DIFEs, VIFs with VIFEs, and what they say.

use super::{Cases, READING, add_every_cut, with_byte, with_more};
use crate::records::{MOST_EXTENSIONS, write_chain};

/// With bit 7, so that an extension byte has to follow.
const DIF: u8 = 0x81;
const VIF: u8 = 0x93;

pub fn add(cases: &mut Cases) {
    add_functions_and_storage_bits(cases);
    add_full_difes(cases);
    add_single_bits(cases);
    add_vife_counts(cases);
    add_vife_values(cases);
    add_eleventh_difes(cases);
    add_eleventh_vifes(cases);
    add_both_chains(cases);
    add_cut_readings(cases);
}

fn add_functions_and_storage_bits(cases: &mut Cases) {
    cases.note("function 0 to 3, each with storage number 0 and 1, then with a DIFE of 0");
    for high in 0x0..=0x7_u8 {
        cases.body([high << 4 | 0x1, 0x13, 0x2A]);
    }
    for high in 0x8..=0xF_u8 {
        cases.body([high << 4 | 0x1, 0x00, 0x13, 0x2A]);
    }
}

fn add_full_difes(cases: &mut Cases) {
    cases.note("0 to 10 DIFEs with all bits set, in the DIF too");
    for count in 0..=MOST_EXTENSIONS {
        let chain = write_chain(0x71, &vec![0xFF; count]);
        cases.body(with_more(&chain, &[0x13, 0x2A]));
    }
    cases.note("0 to 10 DIFEs with no bit set");
    for count in 0..=MOST_EXTENSIONS {
        let chain = write_chain(0x01, &vec![0x00; count]);
        cases.body(with_more(&chain, &[0x13, 0x2A]));
    }
    cases.note("ten DIFEs with all bits of storage number, tariff or sub-unit set");
    for dife in [0x0F, 0x30, 0x40] {
        let chain = write_chain(0x01, &[dife; MOST_EXTENSIONS]);
        cases.body(with_more(&chain, &[0x13, 0x2A]));
    }
}

fn add_single_bits(cases: &mut Cases) {
    cases.note("one bit set in one of ten DIFEs, each bit of each DIFE in turn");
    for place in 0..MOST_EXTENSIONS {
        for bit in 0..7 {
            let difes = with_byte(&[0x00; MOST_EXTENSIONS], place, 1 << bit);
            let chain = write_chain(0x01, &difes);
            cases.body(with_more(&chain, &[0x13, 0x2A]));
        }
    }
    cases.note("ten DIFEs, no two of them alike");
    let chain = write_chain(
        0x41,
        &[0x11, 0x22, 0x33, 0x44, 0x55, 0x66, 0x77, 0x08, 0x19, 0x2A],
    );
    cases.body(with_more(&chain, &[0x13, 0x2A]));
}

fn add_vife_counts(cases: &mut Cases) {
    cases.note("0 to 10 VIFEs with all bits set, then with no bit set, then counting");
    for count in 0..=MOST_EXTENSIONS {
        let counting: Vec<u8> = (1..=count).map(|number| number as u8).collect();
        for vifes in [vec![0xFF; count], vec![0x00; count], counting] {
            let chain = write_chain(0x13, &vifes);
            cases.body([&[0x01], &chain[..], &[0x2A]].concat());
        }
    }
}

fn add_vife_values(cases: &mut Cases) {
    cases.note("VIFEs that as VIFs would have no meaning or another, after several VIFs");
    for vif in [0x13, 0x6E, 0x7B, 0x7D, 0x7F] {
        for vife in [0x00, 0x0F, 0x1F, 0x2F, 0x6F, 0x7B, 0x7C, 0x7D, 0x7E, 0x7F] {
            cases.body([0x01, vif | 0x80, vife, 0x2A]);
        }
    }
}

fn add_eleventh_difes(cases: &mut Cases) {
    let ten = with_more(&[DIF], &[0x80; MOST_EXTENSIONS]);
    cases.note("an eleventh DIFE: the last of the body, with bit 7, with a reading behind it");
    for eleventh in [0x00, 0x7F, 0x80, 0xFF] {
        cases.body(with_more(&ten, &[eleventh]));
        cases.body(with_more(&ten, &[eleventh, 0x13, 0x2A]));
    }
    cases.body(with_more(&ten, &[0x80; 5]));
    cases.note("ten DIFEs ask for an eleventh, but the body ends");
    cases.body(&ten);
    cases.body(with_more(&READING, &ten));
    cases.note("the body ends after 0 to 9 DIFEs that ask for one more");
    for count in 1..=MOST_EXTENSIONS {
        cases.body(&ten[..count]);
    }
    cases.note("the body ends after ten DIFEs, before the VIF");
    cases.body(write_chain(0x01, &[0x00; MOST_EXTENSIONS]));
}

fn add_eleventh_vifes(cases: &mut Cases) {
    let ten = with_more(&[0x01, VIF], &[0x80; MOST_EXTENSIONS]);
    cases.note("an eleventh VIFE: the last of the body, with bit 7, with data behind it");
    for eleventh in [0x00, 0x7F, 0x80, 0xFF] {
        cases.body(with_more(&ten, &[eleventh]));
        cases.body(with_more(&ten, &[eleventh, 0x2A, 0x2A]));
    }
    cases.body(with_more(&ten, &[0x80; 5]));
    cases.note("ten VIFEs ask for an eleventh, but the body ends");
    cases.body(&ten);
    cases.body(with_more(&READING, &ten));
    cases.note("the body ends after 0 to 9 VIFEs that ask for one more");
    for count in 2..=MOST_EXTENSIONS + 1 {
        cases.body(&ten[..count]);
    }
    cases.note("the body ends after ten VIFEs, before the data, then with no data to come");
    for dif in [0x01, 0x00] {
        let chain = write_chain(VIF, &[0x00; MOST_EXTENSIONS]);
        cases.body(with_more(&[dif], &chain));
    }
}

fn add_both_chains(cases: &mut Cases) {
    cases.note("ten DIFEs and ten VIFEs in one reading, then with an eleventh of either");
    for (difes, vifes) in [(10, 10), (11, 10), (10, 11), (11, 11)] {
        let dif_chain = write_chain(0x41, &vec![0x7F; difes]);
        let vif_chain = write_chain(0x13, &vec![0x7F; vifes]);
        cases.body([&dif_chain[..], &vif_chain, &[0x2A], &READING].concat());
    }
}

fn add_cut_readings(cases: &mut Cases) {
    cases.note("a reading with DIFEs, VIF, VIFEs and a whole number, cut at every length");
    let whole = [0x84, 0x91, 0x02, 0x93, 0x81, 0x05, 0x11, 0x22, 0x33, 0x44];
    add_every_cut(cases, &whole);
    cases.note("the same after another reading");
    for count in 1..whole.len() {
        cases.body(with_more(&READING, &whole[..count]));
    }
    cases.note("the same with a decimal number, a real number, a text, and with no data");
    add_every_cut(cases, &[0x8E, 0x10, 0x93, 0x05, 1, 2, 3, 4, 5, 6]);
    add_every_cut(cases, &[0x85, 0x10, 0x93, 0x05, 1, 2, 3, 4]);
    add_every_cut(cases, &[0x8D, 0x10, 0xF8, 0x05, 3, 0x41, 0x42, 0x43]);
    add_every_cut(cases, &[0x80, 0x10, 0xEE, 0x05]);
}
