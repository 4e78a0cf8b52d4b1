//! Decimal digits as they travel: two to a byte, the lowest pair first, the
//! higher digit of a pair in the higher half of its byte.

/// Up to sixteen digits, the lowest in the lowest four bits. All of them are
/// worked on at once, since telegrams are full of such numbers.
#[derive(Debug, Clone, Copy)]
pub struct Digits(u64);

impl Digits {
    /// At most eight bytes.
    #[inline]
    pub fn new<const N: usize>(pairs: [u8; N]) -> Self {
        let mut bytes = [0; 8];
        bytes[..N].copy_from_slice(&pairs);
        Digits(u64::from_le_bytes(bytes))
    }

    /// The offset of the first byte with a digit above 9.
    #[inline]
    pub fn first_bad_byte(self) -> Option<usize> {
        // A digit is above 9 if its highest bit is set and one of the middle two.
        let Digits(digits) = self;
        let bad = digits & (digits << 1 | digits << 2) & 0x8888_8888_8888_8888;
        (bad != 0).then(|| bad.trailing_zeros() as usize / 8)
    }

    /// The number that digits of at most 9 make.
    #[inline]
    pub fn value(self) -> u64 {
        // Neighbours are put together: digits to pairs, pairs to fours, ...
        let Digits(digits) = self;
        let pairs = digits - 6 * (digits >> 4 & 0x0F0F_0F0F_0F0F_0F0F);
        let fours = (pairs & 0x00FF_00FF_00FF_00FF) + 100 * (pairs >> 8 & 0x00FF_00FF_00FF_00FF);
        let eights = (fours & 0xFFFF_0000_FFFF) + 10_000 * (fours >> 16 & 0xFFFF_0000_FFFF);
        (eights & 0xFFFF_FFFF) + 100_000_000 * (eights >> 32)
    }
}

#[cfg(test)]
mod tests {
    use super::*;

    #[test]
    fn the_lowest_pair_comes_first() {
        assert_eq!(Digits::new([0x27, 0x15, 0x00, 0x00]).value(), 1527);
        assert_eq!(
            Digits::new([0x12, 0x90, 0x78, 0x56, 0x34, 0x12]).value(),
            123_456_789_012
        );
        assert_eq!(Digits::new([0x99; 8]).value(), 9_999_999_999_999_999);
    }

    #[test]
    fn a_digit_above_nine_is_found_wherever_it_stands() {
        for place in 0..6 {
            for pair in 0x00..=0xFF {
                let bad = pair >> 4 > 9 || pair & 0x0F > 9;
                let mut pairs = [0x99; 6];
                pairs[place] = pair;
                assert_eq!(
                    Digits::new(pairs).first_bad_byte(),
                    bad.then_some(place),
                    "{pairs:02X?}"
                );
            }
        }
        assert_eq!(Digits::new([0x00, 0x0A, 0xA0]).first_bad_byte(), Some(1));
    }

    #[test]
    fn each_pair_counts_a_hundred_times_the_one_before() {
        for place in 0..6 {
            for number in 0..100 {
                let mut pairs = [0x00; 6];
                pairs[place] = number / 10 * 16 + number % 10;
                let expected = u64::from(number) * 100_u64.pow(place as u32);
                assert_eq!(Digits::new(pairs).value(), expected);
            }
        }
    }
}
