//! Data fields: what a DIF says about a reading's data, and the data.

use super::cursor::Cursor;
use crate::digits::Digits;
use crate::fault::{Fault, Refusal};

/// The highest length byte of a text.
pub const LONGEST_TEXT: u8 = 0xBF;

/// The numbers in the names count bytes.
#[derive(Debug, Clone, Copy, PartialEq, Eq)]
pub enum DataField {
    Nothing,
    Whole1,
    Whole2,
    Whole3,
    Whole4,
    Whole6,
    Whole8,
    Real4,
    Decimal1,
    Decimal2,
    Decimal3,
    Decimal4,
    Decimal6,
    Text,
}

#[derive(Debug, Clone, Copy, PartialEq, Eq)]
pub enum Value<'a> {
    None,
    /// A whole or decimal number.
    Whole(i64),
    /// The bit pattern of a real number.
    Real(u32),
    Text(Text<'a>),
}

#[derive(Debug, Clone, Copy, PartialEq, Eq)]
pub struct Text<'a> {
    /// The place of the first byte of the text, or where it would stand.
    pub place: usize,
    pub bytes: &'a [u8],
}

impl DataField {
    /// The data field of a DIF, unless it is one of those that are refused.
    #[inline]
    pub fn of(dif: u8) -> Option<Self> {
        match dif & 0x0F {
            0x0 => Some(DataField::Nothing),
            0x1 => Some(DataField::Whole1),
            0x2 => Some(DataField::Whole2),
            0x3 => Some(DataField::Whole3),
            0x4 => Some(DataField::Whole4),
            0x5 => Some(DataField::Real4),
            0x6 => Some(DataField::Whole6),
            0x7 => Some(DataField::Whole8),
            0x9 => Some(DataField::Decimal1),
            0xA => Some(DataField::Decimal2),
            0xB => Some(DataField::Decimal3),
            0xC => Some(DataField::Decimal4),
            0xD => Some(DataField::Text),
            0xE => Some(DataField::Decimal6),
            _ => None,
        }
    }

    #[inline(always)]
    pub fn read<'a>(self, cursor: &mut Cursor<'a>) -> Result<Value<'a>, Fault> {
        let number = match self {
            DataField::Nothing => return Ok(Value::None),
            DataField::Real4 => return Ok(Value::Real(u32::from_le_bytes(cursor.array()?))),
            DataField::Text => return Ok(Value::Text(text(cursor)?)),
            DataField::Whole1 => whole::<1>(cursor),
            DataField::Whole2 => whole::<2>(cursor),
            DataField::Whole3 => whole::<3>(cursor),
            DataField::Whole4 => whole::<4>(cursor),
            DataField::Whole6 => whole::<6>(cursor),
            DataField::Whole8 => whole::<8>(cursor),
            DataField::Decimal1 => decimal::<1>(cursor),
            DataField::Decimal2 => decimal::<2>(cursor),
            DataField::Decimal3 => decimal::<3>(cursor),
            DataField::Decimal4 => decimal::<4>(cursor),
            DataField::Decimal6 => decimal::<6>(cursor),
        };
        number.map(Value::Whole)
    }
}

/// Two's complement of any width.
#[inline]
fn whole<const N: usize>(cursor: &mut Cursor) -> Result<i64, Fault> {
    let bytes: [u8; N] = cursor.array()?;
    let mut highest = [0; 8];
    highest[8 - N..].copy_from_slice(&bytes);
    // Shifting down from the top repeats the sign bit.
    Ok(i64::from_le_bytes(highest) >> (64 - 8 * N))
}

/// Digits, of which the topmost may be the sign.
#[inline]
fn decimal<const N: usize>(cursor: &mut Cursor) -> Result<i64, Fault> {
    let place = cursor.place();
    let mut pairs: [u8; N] = cursor.array()?;
    let negative = pairs[N - 1] >> 4 == 0xF;
    if negative {
        pairs[N - 1] &= 0x0F;
    }
    let digits = Digits::new(pairs);
    if let Some(offset) = digits.first_bad_byte() {
        return Err(Refusal::DecimalDigitAboveNine.at(place + offset));
    }
    let size = digits.value() as i64;
    Ok(if negative { -size } else { size })
}

fn text<'a>(cursor: &mut Cursor<'a>) -> Result<Text<'a>, Fault> {
    let length_place = cursor.place();
    let length = cursor.byte()?;
    if length > LONGEST_TEXT {
        return Err(Refusal::TextTooLong.at(length_place));
    }
    Ok(Text {
        place: cursor.place(),
        bytes: cursor.slice(usize::from(length))?,
    })
}

#[cfg(test)]
mod tests {
    use super::*;

    fn read(field: u8, data: &[u8]) -> Result<Value<'_>, Fault> {
        let field = DataField::of(field).unwrap();
        field.read(&mut Cursor::new(data, 30))
    }

    fn whole(figure: i64) -> Result<Value<'static>, Fault> {
        Ok(Value::Whole(figure))
    }

    #[test]
    fn whole_numbers_of_all_widths_are_signed() {
        assert_eq!(read(0x1, &[0x80]), whole(-128));
        assert_eq!(read(0x2, &[0xFF, 0x7F]), whole(32_767));
        assert_eq!(read(0x2, &[0x80, 0x00]), whole(128));
        assert_eq!(read(0x3, &[0x00, 0x00, 0x80]), whole(-8_388_608));
        assert_eq!(read(0x4, &[0xFF; 4]), whole(-1));
        assert_eq!(read(0x6, &[1, 0, 0, 0, 0, 0]), whole(1));
        assert_eq!(
            read(0x6, &[0, 0, 0, 0, 0, 0x80]),
            whole(-140_737_488_355_328)
        );
        assert_eq!(read(0x7, &[0, 0, 0, 0, 0, 0, 0, 0x80]), whole(i64::MIN));
    }

    #[test]
    fn the_topmost_digit_of_a_decimal_may_be_the_sign() {
        assert_eq!(read(0x9, &[0x99]), whole(99));
        assert_eq!(read(0x9, &[0xF9]), whole(-9));
        assert_eq!(read(0x9, &[0xF0]), whole(0));
        assert_eq!(read(0xA, &[0x34, 0xF2]), whole(-234));
        assert_eq!(read(0xB, &[0x13, 0x01, 0x00]), whole(113));
        assert_eq!(read(0xC, &[0x27, 0x15, 0x00, 0x00]), whole(1527));
        assert_eq!(
            read(0xE, &[0x99, 0x99, 0x99, 0x99, 0x99, 0xF9]),
            whole(-99_999_999_999)
        );
    }

    #[test]
    fn other_digits_above_nine_are_refused_if_all_bytes_are_there() {
        let bad = |place| Err(Refusal::DecimalDigitAboveNine.at(place));
        assert_eq!(read(0xA, &[0x3B, 0x12]), bad(30));
        assert_eq!(read(0xA, &[0x34, 0xE2]), bad(31));
        assert_eq!(read(0xA, &[0x34, 0xFF]), bad(31));
        assert_eq!(read(0xA, &[0xF4, 0xFA]), bad(30));
        assert_eq!(read(0xA, &[0xAA]), Err(Refusal::BodyEndsEarly.at(31)));
    }

    #[test]
    fn reals_keep_their_pattern() {
        let read = read(0x5, &[0x01, 0x00, 0x80, 0x7F]);
        assert_eq!(read, Ok(Value::Real(0x7F80_0001)));
    }

    #[test]
    fn texts_have_a_length_up_to_bf() {
        let text = |place, bytes| Ok(Value::Text(Text { place, bytes }));
        assert_eq!(read(0xD, &[0]), text(31, &[]));
        assert_eq!(read(0xD, &[2, 0x41, 0x42, 0x43]), text(31, &[0x41, 0x42]));
        let early = |end| Err(Refusal::BodyEndsEarly.at(end));
        assert_eq!(read(0xD, &[]), early(30));
        assert_eq!(read(0xD, &[2, 0x41]), early(32));
        assert_eq!(read(0xD, &[0xBF]), early(31));
        assert_eq!(read(0xD, &[0xC0]), Err(Refusal::TextTooLong.at(30)));
    }
}
