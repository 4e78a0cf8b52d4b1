//! Random telegrams for measuring.

use super::generator::Generator;
use super::record::Record;
use super::{bodies, damaged_or_whole, telegrams};

/// One telegram in this many is any one of the random input, damaged or not.
const ANY_ONE_IN: usize = 5;

/// Mostly good replies with several readings, the same for the same seed.
pub fn telegrams_to_measure(seed: u64, count: usize) -> Vec<Vec<u8>> {
    let mut generator = Generator::new(seed);
    (0..count).map(|_| telegram(&mut generator)).collect()
}

fn telegram(generator: &mut Generator) -> Vec<u8> {
    if generator.one_in(ANY_ONE_IN) {
        return damaged_or_whole(generator);
    }
    let count = 3 + generator.below(12);
    let body = bodies::row(generator, count, Record::random);
    telegrams::reply(generator, &body)
}

#[cfg(test)]
mod tests {
    use super::*;
    use crate::frame::Frame;
    use crate::records::Item;
    use crate::reply::Reply;

    /// How many readings a good reply holds.
    fn readings(telegram: &[u8]) -> Option<usize> {
        let Ok(Frame::Long(long)) = Frame::read(telegram) else {
            return None;
        };
        let items: Result<Vec<Item>, _> = Reply::read(&long).ok()?.items().collect();
        let is_reading = |item: &&Item| matches!(item, Item::Reading(_));
        Some(items.ok()?.iter().filter(is_reading).count())
    }

    #[test]
    fn most_are_good_replies_with_several_readings() {
        let telegrams = telegrams_to_measure(1, 1000);
        let several = telegrams
            .iter()
            .filter_map(|telegram| readings(telegram))
            .filter(|&count| count >= 3)
            .count();
        assert!((750..950).contains(&several), "{several}");
    }
}
