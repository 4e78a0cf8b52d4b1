//! Random test input for `decode`, `scenario` and `readout`.

mod addresses;
mod area;
mod bodies;
mod calls;
mod captures;
mod damage;
mod fault_codes;
mod generator;
mod house_flaws;
mod house_input;
mod house_text;
mod houses;
mod lines;
#[cfg(any(feature = "linked", test))]
mod measured;
mod record;
mod telegrams;

pub use captures::capture;
pub use generator::Generator;
pub use house_input::house_input;
pub use houses::good_house;
#[cfg(any(feature = "linked", test))]
pub use measured::telegrams_to_measure;

/// One telegram in this many is damaged. Bodies have damage of their own.
const DAMAGED_ONE_IN: usize = 3;

/// One telegram in this many has an odd line before it.
const ODD_LINE_ONE_IN: usize = 8;

/// An input for `decode` of `count` telegrams, and odd lines between them.
pub fn input(generator: &mut Generator, count: usize) -> Vec<u8> {
    let mut input = Vec::new();
    for _ in 0..count {
        if generator.one_in(ODD_LINE_ONE_IN) {
            input.extend(lines::odd_line(generator));
            input.push(b'\n');
        }
        let telegram = damaged_or_whole(generator);
        input.extend(lines::telegram_line(generator, &telegram));
        input.push(b'\n');
    }
    if generator.one_in(2) {
        input.pop();
    }
    input
}

fn damaged_or_whole(generator: &mut Generator) -> Vec<u8> {
    let mut telegram = telegrams::telegram(generator);
    if generator.one_in(DAMAGED_ONE_IN) {
        damage::damage(generator, &mut telegram);
        // Faults that come together show the order of the checks.
        while generator.one_in(4) {
            damage::damage(generator, &mut telegram);
        }
    }
    telegram
}

#[cfg(test)]
mod tests {
    use super::*;
    use crate::decoder::Decoder;
    use crate::input_line;

    #[test]
    fn the_same_seed_makes_the_same_input() {
        let made = |seed| input(&mut Generator::new(seed), 100);
        assert_eq!(made(1), made(1));
        assert_ne!(made(1), made(2));
    }

    #[test]
    fn every_refusal_and_every_kind_of_line_is_met_often() {
        let input = input(&mut Generator::new(7), 5000);
        let mut decoder = Decoder::default();
        let lines: Vec<String> = input_line::split(&input)
            .flat_map(|line| decoder.decode_line(line))
            .collect();
        for number in (1..=7).chain(9..=16) {
            let end = format!(" number={number}");
            let count = lines.iter().filter(|line| line.ends_with(&end)).count();
            assert!(count >= 20, "{count} of{end}");
        }
        for kind in [
            "unreadable",
            "frame",
            "reply",
            "reading",
            "maker",
            "telegram",
            "fault",
        ] {
            let start = format!("kind={kind} ");
            let count = lines.iter().filter(|line| line.starts_with(&start)).count();
            assert!(count >= 100, "{count} of {start}");
        }
    }
}
