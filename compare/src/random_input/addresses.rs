//! Random addresses of the meters in one house.

use super::generator::Generator;
use crate::reply::MeterAddress;

const NUMBERS: usize = 100_000_000;
const DIGITS: u32 = 8;

/// How the numbers in one house are related. With the first two, hardly any
/// number comes twice, so that lists can be as long as there are meters.
#[derive(Clone, Copy)]
enum Kinship {
    Strangers,
    Successors,
    /// Any number of first digits is the same, all eight at times.
    CommonBeginnings,
    /// Mostly the same number.
    EqualNumbers,
}

const MIX: [(Kinship, usize); 4] = [
    (Kinship::Strangers, 2),
    (Kinship::Successors, 1),
    (Kinship::CommonBeginnings, 5),
    (Kinship::EqualNumbers, 2),
];

pub fn addresses(generator: &mut Generator, count: usize) -> Vec<MeterAddress> {
    let kinship = generator.pick_weighted(&MIX);
    let mut addresses: Vec<MeterAddress> = Vec::new();
    for _ in 0..count {
        let next = match addresses.last() {
            None => any_address(generator),
            Some(&last) => relative(generator, kinship, last, &addresses),
        };
        addresses.push(next);
    }
    addresses
}

pub fn any_address(generator: &mut Generator) -> MeterAddress {
    let any = generator.below(NUMBERS) as u32;
    let number = match generator.below(8) {
        0 => generator.pick(&[0, 1, 9_999_999, 10_000_000, 12_345_678, 99_999_999]),
        _ => any,
    };
    with_any_rest(generator, number)
}

/// The same number with another maker, version and medium. Bytes FF come often:
/// they fit every byte when the address is picked.
pub fn with_any_rest(generator: &mut Generator, number: u32) -> MeterAddress {
    let any = u16::from_le_bytes([generator.byte(), generator.byte()]);
    let [version, medium] = [generator.byte(), generator.byte()];
    MeterAddress {
        number,
        maker: generator.pick(&[0x2C2D, 0x2C2D, 0x2CFF, 0xFF2D, 0xFFFF, any]),
        version: generator.pick(&[0x01, 0x01, 0x02, 0xFF, version]),
        medium: generator.pick(&[0x04, 0x04, 0x07, 0xFF, medium]),
    }
}

fn relative(
    generator: &mut Generator,
    kinship: Kinship,
    last: MeterAddress,
    others: &[MeterAddress],
) -> MeterAddress {
    let model = generator.pick(others);
    let number = match kinship {
        Kinship::Strangers => generator.below(NUMBERS) as u32,
        Kinship::Successors => (last.number + 1) % NUMBERS as u32,
        _ if generator.one_in(10) => return any_address(generator),
        Kinship::CommonBeginnings => {
            let kept = generator.below(DIGITS as usize + 1) as u32;
            with_new_end(generator, model.number, DIGITS - kept)
        }
        Kinship::EqualNumbers if generator.one_in(3) => {
            let changed = generator.below(3) as u32;
            with_new_end(generator, model.number, changed)
        }
        Kinship::EqualNumbers => model.number,
    };
    match generator.below(4) {
        0 => MeterAddress { number, ..model },
        _ => with_any_rest(generator, number),
    }
}

/// A number whose last digits are other ones.
fn with_new_end(generator: &mut Generator, number: u32, digits: u32) -> u32 {
    let end = 10_u32.pow(digits);
    number / end * end + generator.below(end as usize) as u32
}
