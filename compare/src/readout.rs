//! What the program `readout` prints: "The program `readout`" in
//! docs/PROTOCOL.md.

use crate::calls;
use crate::line::{Capture, Line};
use crate::master::{Entry, Master, Misuse};
use crate::output_line::OutputLine;
use crate::reply::MeterAddress;

const PLACES: usize = 250;

/// The most telegrams that are fetched from one meter.
const MOST_FETCHES: usize = 16;

/// The lines that are printed for the bytes of a capture.
pub fn lines(bytes: &[u8]) -> Vec<String> {
    let capture = match Capture::read(bytes) {
        Ok(capture) => capture,
        Err(report) => return vec![OutputLine::Fault(report).to_string()],
    };
    let sizes = OutputLine::Capture {
        meters: capture.meters().all().len(),
        telegrams: capture.telegrams(),
    };
    let mut lines = vec![sizes.to_string()];
    if let Err(Misuse) = read_all(&mut Master::new(capture), &mut lines) {
        unreachable!("every call here fits the master's standing");
    }
    lines
}

fn read_all(master: &mut Master<Capture>, lines: &mut Vec<String>) -> Result<(), Misuse> {
    let found = master.search(PLACES)?;
    calls::push_entries(lines, &found);
    calls::push_search(lines, &found);
    for entry in found.entries {
        if let Entry::Meter(address) = entry {
            read_meter(master, address, lines)?;
        }
    }
    Ok(())
}

fn read_meter(
    master: &mut Master<Capture>,
    address: MeterAddress,
    lines: &mut Vec<String>,
) -> Result<(), Misuse> {
    let answered = master.pick(address)?;
    lines.push(OutputLine::Picked { answered }.to_string());
    for _ in 0..MOST_FETCHES {
        if !calls::push_fetched(lines, &master.fetch()?) {
            break;
        }
    }
    master.release();
    lines.push(OutputLine::Released.to_string());
    Ok(())
}

#[cfg(test)]
mod tests {
    use super::*;
    use crate::reply::Reply;

    const PICKED: &str = "kind=picked answered=yes";
    const RELEASED: &str = "kind=released";
    const MORE: [&str; 2] = [
        "kind=maker place=19 bytes=-",
        "kind=telegram readings=0 more=yes",
    ];
    const LAST: &str = "kind=telegram readings=0 more=no";

    fn telegram(number: u32, body: &[u8]) -> Vec<u8> {
        Reply {
            meter: MeterAddress {
                number,
                maker: 0x2C2D,
                version: 1,
                medium: 4,
            },
            access: 7,
            status: 8,
            signature: 9,
            body,
        }
        .to_telegram(5)
    }

    fn printed(telegrams: &[(u32, &[u8])]) -> Vec<String> {
        let telegrams = telegrams
            .iter()
            .map(|&(number, body)| telegram(number, body));
        lines(&telegrams.collect::<Vec<_>>().concat())
    }

    /// All lines after the capture's, of a capture with one meter.
    fn after_search(telegrams: &[(u32, &[u8])]) -> Vec<String> {
        printed(telegrams).split_off(3)
    }

    #[test]
    fn the_empty_capture() {
        let expected = [
            "kind=capture meters=0 telegrams=0",
            "kind=search entries=0 selections=1",
        ];
        assert_eq!(lines(&[]), expected);
    }

    #[test]
    fn refused_captures() {
        let good = telegram(12_345_678, &[]);
        let mut bad = good.clone();
        bad[4] = 0x09;
        bad[19] = bad[19].wrapping_add(1);
        let expected = "kind=fault layer=reply telegram=2 place=4 number=9";
        assert_eq!(lines(&[good, bad].concat()), [expected]);
        let expected = "kind=fault layer=making telegram=- place=- number=21";
        assert_eq!(lines(&[0; 60_001]), [expected]);
    }

    #[test]
    fn shared_numbers_are_listed_and_not_picked() {
        let expected = [
            "kind=capture meters=3 telegrams=4",
            "kind=shared no=12345678",
            "kind=meter no=12900003 maker=2C2D version=01 medium=04",
            "kind=search entries=2 selections=81",
            PICKED,
            LAST,
            RELEASED,
        ];
        let (one, two) = ((12_345_678, &[][..]), (12_900_003, &[][..]));
        assert_eq!(printed(&[one, one, two, one]), expected);
    }

    #[test]
    fn fetches_go_on_while_more_telegrams_follow() {
        let more = (12_345_678, &[0x1F][..]);
        let last = (12_345_678, &[][..]);
        let expected = [PICKED, MORE[0], MORE[1], LAST, RELEASED];
        assert_eq!(after_search(&[more, last, last]), expected);
        assert_eq!(after_search(&[last, more]), [PICKED, LAST, RELEASED]);
        // A meter that always promises more is asked sixteen times.
        let expected = [&[PICKED], MORE.repeat(16).as_slice(), &[RELEASED]].concat();
        assert_eq!(after_search(&[more]), expected);
    }

    #[test]
    fn a_record_fault_ends_the_fetches() {
        let more = (12_345_678, &[0x1F][..]);
        let bad = (12_345_678, &[0x08, 0x1F][..]);
        let expected = [
            PICKED,
            MORE[0],
            MORE[1],
            "kind=fault layer=record telegram=- place=19 number=11",
            RELEASED,
        ];
        assert_eq!(after_search(&[more, bad, more]), expected);
    }
}
