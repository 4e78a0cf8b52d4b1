//! Which meters a selection is for: "Addresses and patterns" in
//! docs/PROTOCOL.md.

use crate::reply::{ADDRESS_BYTES, MeterAddress};

/// Digits of an address's number.
pub const NUMBER_DIGITS: usize = 8;

/// Bytes that hold the number; they are fitted digit by digit, the others
/// whole.
const NUMBER_BYTES: usize = NUMBER_DIGITS / 2;

const ANY_DIGIT: u8 = 0xF;
const ANY_BYTE: u8 = 0xFF;

/// Any eight bytes, laid out as an address.
#[derive(Debug, Clone, Copy, PartialEq, Eq)]
pub struct Pattern(pub [u8; ADDRESS_BYTES]);

impl Pattern {
    /// For the numbers that begin with these digits, at most eight of them,
    /// the highest first.
    pub fn of_beginning(beginning: &[u8]) -> Self {
        let mut digits = [ANY_DIGIT; NUMBER_DIGITS];
        digits[..beginning.len()].copy_from_slice(beginning);
        let mut bytes = [ANY_BYTE; ADDRESS_BYTES];
        // The highest pair of digits travels last.
        for (byte, pair) in bytes[..NUMBER_BYTES]
            .iter_mut()
            .rev()
            .zip(digits.chunks_exact(2))
        {
            *byte = pair[0] << 4 | pair[1];
        }
        Pattern(bytes)
    }

    /// An address as a pattern. Its bytes FF fit every byte.
    pub fn of_address(address: MeterAddress) -> Self {
        Pattern(address.to_bytes())
    }

    /// Looks at all addresses of a line faster than one by one.
    pub fn filter(self) -> Filter {
        let mut care = [0x00; ADDRESS_BYTES];
        for (place, (care, byte)) in care.iter_mut().zip(self.0).enumerate() {
            *care = if place < NUMBER_BYTES {
                cared_digit(byte >> 4) << 4 | cared_digit(byte & 0xF)
            } else if byte == ANY_BYTE {
                0x00
            } else {
                0xFF
            };
        }
        Filter {
            care: u64::from_le_bytes(care),
            wanted: u64::from_le_bytes(self.0),
        }
    }
}

/// A pattern as the bits that matter and what they have to be.
pub struct Filter {
    care: u64,
    wanted: u64,
}

impl Filter {
    pub fn lets_through(&self, packed_address: u64) -> bool {
        (packed_address ^ self.wanted) & self.care == 0
    }
}

/// An address as a filter takes it.
pub fn packed(address: MeterAddress) -> u64 {
    u64::from_le_bytes(address.to_bytes())
}

/// The bits of a digit that matter.
fn cared_digit(digit: u8) -> u8 {
    if digit == ANY_DIGIT { 0x0 } else { 0xF }
}

#[cfg(test)]
mod tests {
    use super::*;

    const BYTES: [u8; 8] = [0x78, 0x56, 0x34, 0x12, 0x2D, 0x2C, 0x01, 0x04];
    const ADDRESS: MeterAddress = MeterAddress {
        number: 12_345_678,
        maker: 0x2C2D,
        version: 0x01,
        medium: 0x04,
    };

    impl Pattern {
        fn fits(self, address: MeterAddress) -> bool {
            self.filter().lets_through(packed(address))
        }
    }

    #[test]
    fn beginnings_have_the_patterns_in_the_document() {
        let of = |digits: &[u8]| Pattern::of_beginning(digits).0;
        assert_eq!(of(&[]), [0xFF; 8]);
        let expected = [0xFF, 0xFF, 0x3F, 0x12, 0xFF, 0xFF, 0xFF, 0xFF];
        assert_eq!(of(&[1, 2, 3]), expected);
        let expected = [0x78, 0x56, 0x34, 0x12, 0xFF, 0xFF, 0xFF, 0xFF];
        assert_eq!(of(&[1, 2, 3, 4, 5, 6, 7, 8]), expected);
    }

    #[test]
    fn a_digit_f_and_a_byte_ff_fit_everything() {
        assert!(Pattern([0xFF; 8]).fits(ADDRESS));
        assert!(Pattern(BYTES).fits(ADDRESS));
        for place in 0..8 {
            let mut bytes = BYTES;
            bytes[place] = 0xFF;
            assert!(Pattern(bytes).fits(ADDRESS));
            bytes[place] = BYTES[place] ^ 0x10;
            assert!(!Pattern(bytes).fits(ADDRESS));
        }
    }

    #[test]
    fn half_a_byte_is_open_only_in_the_number() {
        assert!(Pattern([0xF8, 0x5F, 0x34, 0x12, 0x2D, 0x2C, 0x01, 0x04]).fits(ADDRESS));
        assert!(!Pattern([0x78, 0x56, 0x34, 0x12, 0x2F, 0x2C, 0x01, 0x04]).fits(ADDRESS));
        assert!(!Pattern([0xAA; 8]).fits(ADDRESS));
        // An address's byte FF is a byte like others, until it is a pattern's.
        let open = MeterAddress {
            medium: 0xFF,
            ..ADDRESS
        };
        assert!(!Pattern::of_address(ADDRESS).fits(open));
        assert!(Pattern::of_address(open).fits(ADDRESS));
    }
}
