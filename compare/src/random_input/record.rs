//! Random readings.

use super::generator::Generator;
use crate::records::{LONGEST_TEXT, MOST_EXTENSIONS, write_chain};

const TEXT: u8 = 0xD;
const REFUSED_FIELDS: [u8; 2] = [0x8, 0xF];
const GOOD_FIELDS: [u8; 14] = [
    0x0, 0x1, 0x2, 0x3, 0x4, 0x5, 0x6, 0x7, 0x9, 0xA, 0xB, 0xC, TEXT, 0xE,
];
const DECIMAL_FIELDS: [u8; 5] = [0x9, 0xA, 0xB, 0xC, 0xE];

const REFUSED_CODES: [u8; 3] = [0x6F, 0x7C, 0x7E];

/// Codes that are good only with a VIFE.
const EXTENDED_CODES: [u8; 2] = [0x7B, 0x7D];

/// The parts of a reading. Bit 7 of the bytes of a chain is set when they are
/// written.
pub struct Record {
    dif: u8,
    difes: Vec<u8>,
    vif: u8,
    vifes: Vec<u8>,
    data: Vec<u8>,
}

/// What can be wrong with a reading.
#[derive(Clone, Copy)]
enum Flaw {
    DataField,
    ManyDifes,
    Code,
    MissingVife,
    ManyVifes,
    Digits,
    LongText,
    MissingData,
}

const FLAWS: [Flaw; 8] = [
    Flaw::DataField,
    Flaw::ManyDifes,
    Flaw::Code,
    Flaw::MissingVife,
    Flaw::ManyVifes,
    Flaw::Digits,
    Flaw::LongText,
    Flaw::MissingData,
];

impl Record {
    /// A good reading.
    pub fn random(generator: &mut Generator) -> Self {
        let field = generator.pick(&GOOD_FIELDS);
        let vif = good_code(generator);
        let mut vifes = extensions(generator);
        if vifes.is_empty() && EXTENDED_CODES.contains(&vif) {
            vifes.push(generator.byte());
        }
        Record {
            dif: generator.byte() & 0xF0 | field,
            difes: extensions(generator),
            vif,
            vifes,
            data: good_data(generator, field),
        }
    }

    /// Puts in one fault, which may bring others with it.
    pub fn spoil(&mut self, generator: &mut Generator) {
        match generator.pick(&FLAWS) {
            Flaw::DataField => self.set_field(generator.pick(&REFUSED_FIELDS)),
            Flaw::ManyDifes => self.difes = too_many(generator),
            Flaw::Code => self.vif = generator.pick(&REFUSED_CODES),
            Flaw::MissingVife => {
                self.vif = generator.pick(&EXTENDED_CODES);
                self.vifes.clear();
            }
            Flaw::ManyVifes => self.vifes = too_many(generator),
            Flaw::Digits => self.spoil_digits(generator),
            Flaw::LongText => {
                self.set_field(TEXT);
                self.data = vec![LONGEST_TEXT + 1 + generator.below(0x40) as u8];
            }
            Flaw::MissingData => {
                self.data.pop();
            }
        }
    }

    pub fn to_bytes(&self) -> Vec<u8> {
        let dif_chain = write_chain(self.dif, &self.difes);
        let vif_chain = write_chain(self.vif, &self.vifes);
        [dif_chain, vif_chain, self.data.clone()].concat()
    }

    fn set_field(&mut self, field: u8) {
        self.dif = self.dif & 0xF0 | field;
    }

    /// A decimal number with one or more digits above 9, or none with luck.
    fn spoil_digits(&mut self, generator: &mut Generator) {
        let field = generator.pick(&DECIMAL_FIELDS);
        self.set_field(field);
        self.data = good_data(generator, field);
        for _ in 0..=generator.below(3) {
            let place = generator.below(self.data.len());
            let digit = 0xA + generator.below(6) as u8;
            self.data[place] |= generator.pick(&[digit, digit << 4]);
        }
    }
}

fn too_many(generator: &mut Generator) -> Vec<u8> {
    let count = MOST_EXTENSIONS + 1 + generator.below(3);
    generator.bytes(count)
}

/// Mostly none or few, sometimes as many as there may be.
fn extensions(generator: &mut Generator) -> Vec<u8> {
    let count = match generator.below(16) {
        0 => MOST_EXTENSIONS,
        1 => generator.below(MOST_EXTENSIONS + 1),
        2 | 3 => 2,
        4..8 => 1,
        _ => 0,
    };
    let all = generator.pick(&[0x00, 0x7F]);
    if generator.one_in(4) {
        return vec![all; count];
    }
    generator.bytes(count)
}

fn good_code(generator: &mut Generator) -> u8 {
    loop {
        let code = generator.byte() & 0x7F;
        if !REFUSED_CODES.contains(&code) {
            return code;
        }
    }
}

fn good_data(generator: &mut Generator, field: u8) -> Vec<u8> {
    match field {
        0x1..=0x4 => binary(generator, usize::from(field)),
        0x5 => binary(generator, 4),
        0x6 => binary(generator, 6),
        0x7 => binary(generator, 8),
        0x9..=0xC => decimal(generator, usize::from(field) - 8),
        0xE => decimal(generator, 6),
        TEXT => text(generator),
        _ => Vec::new(),
    }
}

/// Bytes of a whole or real number, which is often one at the edges.
fn binary(generator: &mut Generator, count: usize) -> Vec<u8> {
    let fill = generator.pick(&[0x00, 0xFF]);
    let mut bytes = match generator.below(3) {
        0 => vec![fill; count],
        _ => generator.bytes(count),
    };
    if generator.one_in(3) {
        bytes[count - 1] = generator.pick(&[0x00, 0x7F, 0x80, 0xFF]);
    }
    bytes
}

fn decimal(generator: &mut Generator, count: usize) -> Vec<u8> {
    let mut pairs: Vec<u8> = (0..count)
        .map(|_| (generator.below(10) << 4 | generator.below(10)) as u8)
        .collect();
    match generator.below(8) {
        0 => pairs.fill(0x00),
        1 => pairs.fill(0x99),
        _ => {}
    }
    if generator.one_in(3) {
        pairs[count - 1] |= 0xF0;
    }
    pairs
}

fn text(generator: &mut Generator) -> Vec<u8> {
    let length = match generator.below(16) {
        0 => usize::from(LONGEST_TEXT),
        1 => generator.below(usize::from(LONGEST_TEXT) + 1),
        _ => generator.below(12),
    };
    let mut text = vec![length as u8];
    text.extend(generator.bytes(length));
    text
}
