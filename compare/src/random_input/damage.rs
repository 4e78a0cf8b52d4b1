//! Random damage to a telegram or to a body.

use super::generator::Generator;
use crate::frame::{LONG_HEADER, LONG_START, SHORT_HEADER, SHORT_START, STOP, TRAILER, checksum};

#[derive(Clone, Copy)]
enum Damage {
    ChangeByte,
    FlipBit,
    DropByte,
    InsertByte,
    Cut,
    Lengthen,
    SwapBytes,
    ChangeOneLength,
    ChangeBothLengths,
    ChangeSize,
}

const MIX: [Damage; 10] = [
    Damage::ChangeByte,
    Damage::FlipBit,
    Damage::DropByte,
    Damage::InsertByte,
    Damage::Cut,
    Damage::Lengthen,
    Damage::SwapBytes,
    Damage::ChangeOneLength,
    Damage::ChangeBothLengths,
    Damage::ChangeSize,
];

/// What can befall the body of a reply as well.
const BODY_MIX: [Damage; 8] = [
    Damage::ChangeByte,
    Damage::ChangeByte,
    Damage::FlipBit,
    Damage::FlipBit,
    Damage::DropByte,
    Damage::InsertByte,
    Damage::Cut,
    Damage::SwapBytes,
];

/// Damages a body once. It may become longer than a body can be.
pub fn damage_body(generator: &mut Generator, body: &mut Vec<u8>) {
    let damage = generator.pick(&BODY_MIX);
    apply(generator, damage, body);
}

/// Damages a telegram once. Sometimes the checksum, or both L and the
/// checksum, are made right again, so that later checks see the damage.
pub fn damage(generator: &mut Generator, telegram: &mut Vec<u8>) {
    let damage = generator.pick(&MIX);
    apply(generator, damage, telegram);
    match generator.below(4) {
        0 => mend_checksum(telegram),
        1 => {
            mend_lengths(telegram);
            mend_checksum(telegram);
        }
        _ => {}
    }
}

fn apply(generator: &mut Generator, damage: Damage, telegram: &mut Vec<u8>) {
    match damage {
        Damage::InsertByte => {
            let place = generator.below(telegram.len() + 1);
            telegram.insert(place, likely_byte(generator));
        }
        Damage::Cut => telegram.truncate(generator.below(telegram.len() + 1)),
        Damage::Lengthen => {
            let count = 1 + generator.below(4);
            telegram.extend(generator.bytes(count));
        }
        // All others need a byte to change.
        _ if telegram.is_empty() => {}
        Damage::ChangeByte => *any_byte(generator, telegram) = likely_byte(generator),
        Damage::FlipBit => *any_byte(generator, telegram) ^= 1 << generator.below(8),
        Damage::DropByte => {
            telegram.remove(generator.below(telegram.len()));
        }
        Damage::SwapBytes => {
            let count = telegram.len();
            telegram.swap(generator.below(count), generator.below(count));
        }
        Damage::ChangeOneLength => {
            let place = 1 + generator.below(2);
            set_lengths(telegram, &[place], new_length(generator));
        }
        Damage::ChangeBothLengths => set_lengths(telegram, &[1, 2], new_length(generator)),
        Damage::ChangeSize => change_size(generator, telegram),
    }
}

fn any_byte<'a>(generator: &mut Generator, telegram: &'a mut [u8]) -> &'a mut u8 {
    let count = telegram.len();
    &mut telegram[generator.below(count)]
}

/// Often a byte that means something somewhere in a telegram.
fn likely_byte(generator: &mut Generator) -> u8 {
    let any = generator.byte();
    generator.pick(&[
        any, any, any, any, 0x00, 0x08, 0x0D, 0x0F, 0x10, 0x16, 0x1F, 0x2F, 0x68, 0x6F, 0x72, 0x7F,
        0x80, 0xBF, 0xC0, 0xE5, 0xF0, 0xFF,
    ])
}

fn new_length(generator: &mut Generator) -> u8 {
    let any = generator.byte();
    generator.pick(&[any, any, 0, 1, 2, 3, 4, 14, 15, 16, 255])
}

fn set_lengths(telegram: &mut [u8], places: &[usize], length: u8) {
    for &place in places {
        if let Some(byte) = telegram.get_mut(place) {
            *byte = length;
        }
    }
}

/// Gives a long frame another L and as many bytes as this L asks for, with
/// checksum and stop byte right.
fn change_size(generator: &mut Generator, telegram: &mut Vec<u8>) {
    if telegram.len() < LONG_HEADER || telegram[0] != LONG_START {
        return;
    }
    let length = new_length(generator);
    set_lengths(telegram, &[1, 2], length);
    telegram.resize(LONG_HEADER + usize::from(length), 0x00);
    telegram.extend([0x00, STOP]);
    mend_checksum(telegram);
}

/// Makes both L agree with the number of bytes, if L can be so high.
fn mend_lengths(telegram: &mut [u8]) {
    let fitting = telegram.len().checked_sub(LONG_HEADER + TRAILER);
    let length = fitting.and_then(|count| u8::try_from(count).ok());
    if let (Some(&LONG_START), Some(length)) = (telegram.first(), length) {
        set_lengths(telegram, &[1, 2], length);
    }
}

/// Makes the last byte but one the checksum of those before it.
pub fn mend_checksum(telegram: &mut [u8]) {
    let header = match telegram.first() {
        Some(&SHORT_START) => SHORT_HEADER,
        Some(&LONG_START) => LONG_HEADER,
        _ => return,
    };
    if telegram.len() >= header + TRAILER {
        let place = telegram.len() - TRAILER;
        telegram[place] = checksum(&telegram[header..place]);
    }
}
