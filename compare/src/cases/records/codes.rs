//! Every VIF.

use super::Cases;

pub fn add(cases: &mut Cases) {
    cases.note("every VIF without bit 7");
    for vif in 0x00..=0x7F {
        cases.body([0x01, vif, vif]);
    }
    cases.note("every VIF with bit 7 and one VIFE");
    for vif in 0x80..=0xFF {
        cases.body([0x01, vif, 0x7F - (vif & 0x7F), vif]);
    }
}
