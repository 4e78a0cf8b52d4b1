//! Bodies whose figures are known.

use super::Cases;

pub fn add(cases: &mut Cases) {
    cases.note("published telegrams");
    cases.line(
        "68 1F 1F 68 08 02 72 78 56 34 12 24 40 01 07 55 00 00 00 03 13 15 31 00 DA 02 3B 13 01 \
         8B 60 04 37 18 02 18 16",
    );
    cases.line("68 15 15 68 08 05 72 78 56 34 12 2D 2C 01 04 07 00 00 00 0C 06 27 15 00 00 46 16");
    cases.note("bodies: -1 with power 3, -234 with power -1, the lowest of 24 bits, a digit B");
    cases.body([0x04, 0x06, 0xFF, 0xFF, 0xFF, 0xFF]);
    cases.body([0x0A, 0x5A, 0x34, 0xF2]);
    cases.body([0x03, 0x13, 0x00, 0x00, 0x80]);
    cases.body([0x0A, 0x5A, 0x3B, 0x12]);
}
