//! Chains: a DIF with its DIFEs, a VIF with its VIFEs.

use super::cursor::Cursor;
use crate::fault::{Fault, Refusal};

/// Says, in each byte of a chain, that an extension byte follows.
pub const MORE: u8 = 0x80;

/// Extension bytes after the first byte of a chain.
pub const MOST_EXTENSIONS: usize = 10;

/// The extension bytes that follow the first byte of a chain.
#[inline]
pub fn read_extensions<'a>(first: u8, cursor: &mut Cursor<'a>) -> Result<&'a [u8], Fault> {
    if first & MORE == 0 {
        return Ok(&[]);
    }
    let bytes = cursor.rest().iter();
    match bytes
        .take(MOST_EXTENSIONS)
        .position(|byte| byte & MORE == 0)
    {
        Some(last) => cursor.slice(last + 1),
        None if cursor.rest().len() > MOST_EXTENSIONS => {
            Err(Refusal::EleventhExtension.at(cursor.place() + MOST_EXTENSIONS))
        }
        None => Err(cursor.ends_early()),
    }
}

/// The bytes of a chain: bit 7 is set in all but the last. How many extension
/// bytes there may be is the caller's business: test cases need too many.
pub fn write_chain(first: u8, extensions: &[u8]) -> Vec<u8> {
    let mut chain = vec![first];
    chain.extend(extensions);
    let last = chain.len() - 1;
    for byte in &mut chain[..last] {
        *byte |= MORE;
    }
    chain[last] &= !MORE;
    chain
}

/// Which of a meter's values a reading is about.
#[derive(Debug, Clone, Copy, PartialEq, Eq)]
pub struct Register {
    /// At most 41 bits.
    pub storage: u64,
    /// At most 20 bits.
    pub tariff: u32,
    /// At most 10 bits.
    pub sub_unit: u16,
}

impl Register {
    #[inline]
    pub fn new(dif: u8, difes: &[u8]) -> Self {
        let mut register = Register {
            storage: u64::from(dif >> 6 & 0x1),
            tariff: 0,
            sub_unit: 0,
        };
        for (index, dife) in difes.iter().enumerate() {
            register.storage |= u64::from(dife & 0xF) << (4 * index + 1);
            register.tariff |= u32::from(dife >> 4 & 0x3) << (2 * index);
            register.sub_unit |= u16::from(dife >> 6 & 0x1) << index;
        }
        register
    }
}

#[cfg(test)]
mod tests {
    use super::*;

    fn extensions(first: u8, rest: &[u8]) -> Result<&[u8], Fault> {
        read_extensions(first, &mut Cursor::new(rest, 20))
    }

    #[test]
    fn a_chain_ends_at_the_first_byte_without_bit_7() {
        assert_eq!(extensions(0x04, &[0x80, 0x01]), Ok(&[][..]));
        assert_eq!(extensions(0x84, &[0x00, 0x80]), Ok(&[0x00][..]));
        let ten = [0xFF, 0x80, 0x81, 0x82, 0x83, 0x84, 0x85, 0x86, 0x87, 0x08];
        assert_eq!(extensions(0x84, &ten), Ok(&ten[..]));
    }

    #[test]
    fn an_eleventh_extension_is_refused_and_a_missing_one_too() {
        let many = [0x80; 12];
        let early = |end| Err(Refusal::BodyEndsEarly.at(end));
        assert_eq!(extensions(0x84, &[]), early(20));
        assert_eq!(extensions(0x84, &many[..9]), early(29));
        assert_eq!(extensions(0x84, &many[..10]), early(30));
        let eleventh = Err(Refusal::EleventhExtension.at(30));
        assert_eq!(extensions(0x84, &many[..11]), eleventh);
        assert_eq!(extensions(0x84, &many), eleventh);
    }

    #[test]
    fn extensions_count_in_storage_tariff_and_sub_unit() {
        let register = |storage, tariff, sub_unit| Register {
            storage,
            tariff,
            sub_unit,
        };
        assert_eq!(Register::new(0xBF, &[]), register(0, 0, 0));
        assert_eq!(Register::new(0x40, &[]), register(1, 0, 0));
        // The first DIFE's units: 2 in the storage number, 1 in the others.
        assert_eq!(Register::new(0xDA, &[0x02]), register(5, 0, 0));
        assert_eq!(Register::new(0x8B, &[0x60]), register(0, 2, 1));
        // The second's: 32, 4 and 2.
        assert_eq!(Register::new(0x80, &[0x80, 0x73]), register(96, 12, 2));
        let full = register((1 << 41) - 1, (1 << 20) - 1, (1 << 10) - 1);
        assert_eq!(Register::new(0xFF, &[0xFF; 10]), full);
    }

    #[test]
    fn written_chains_are_read() {
        assert_eq!(write_chain(0x84, &[]), [0x04]);
        assert_eq!(write_chain(0x04, &[0x80, 0x81]), [0x84, 0x80, 0x01]);
    }
}
