//! What the program `scenario` prints: "The program `scenario`" in
//! docs/PROTOCOL.md.

mod house;
mod reading;

pub use house::{Call, MOST_LAYERS, MOST_PLACES, TestHouse};

use crate::calls;
use crate::fault::{Refusal, Report};
use crate::line::{Bench, Line, over_layers};
use crate::master::{Master, Misuse};
use crate::output_line::{BenchSizes, OutputLine};

/// The lines that are printed for an input.
pub fn lines(input: &[u8]) -> Vec<String> {
    match TestHouse::read(input) {
        Ok(house) => house_lines(&house),
        Err(unreadable) => unreadable
            .into_iter()
            .map(|line| OutputLine::Unreadable { line }.to_string())
            .collect(),
    }
}

fn house_lines(house: &TestHouse) -> Vec<String> {
    let line = match house.line() {
        Ok(line) => line,
        Err(report) => return vec![OutputLine::Fault(report).to_string()],
    };
    let sizes = BenchSizes {
        meters: house.rows.len(),
        codes: house.codes.len(),
        layers: house.limits.len(),
    };
    let mut lines = vec![OutputLine::Bench(sizes).to_string()];
    let mut master = Master::new(line);
    for (index, &call) in house.calls.iter().enumerate() {
        if let Err(Misuse) = perform(&mut master, house.places, call, &mut lines) {
            lines.push(OutputLine::Misuse { call: index + 1 }.to_string());
        }
    }
    lines
}

fn perform(
    master: &mut Master<Box<dyn Line>>,
    places: usize,
    call: Call,
    lines: &mut Vec<String>,
) -> Result<(), Misuse> {
    match call {
        Call::Search => {
            let found = master.search(places)?;
            calls::push_entries(lines, &found);
            if found.no_place_left {
                let report = Report::from(Refusal::NoPlaceLeft);
                lines.push(OutputLine::Fault(report).to_string());
            }
            calls::push_search(lines, &found);
        }
        Call::Pick(address) => {
            let answered = master.pick(address)?;
            lines.push(OutputLine::Picked { answered }.to_string());
        }
        Call::Fetch => {
            calls::push_fetched(lines, &master.fetch()?);
        }
        Call::Release => {
            master.release();
            lines.push(OutputLine::Released.to_string());
        }
    }
    Ok(())
}

impl TestHouse {
    /// The line that the calls are made on: the bench under all layers.
    pub fn line(&self) -> Result<Box<dyn Line>, Report> {
        let bench = Bench::new(&self.rows, &self.area, &self.codes)?;
        over_layers(Box::new(bench), &self.limits).map_err(Report::from)
    }
}

#[cfg(test)]
mod tests {
    use super::*;

    const HOUSE: &str = "\
# two meters, one telegram of a reading and one that says that more follow
area 01 13 05 1F
meter 12345678 2C2D 01 04 05 0+3 3+1
meter 12900003 2C2D 01 04 06 0+0
";

    fn printed(input: &str) -> Vec<String> {
        lines(input.as_bytes())
    }

    fn after_house(input: &str) -> Vec<String> {
        printed(&[HOUSE, input].concat())
    }

    #[test]
    fn the_empty_house() {
        assert_eq!(printed(""), ["kind=bench meters=0 codes=0 layers=0"]);
        let expected = [
            "kind=bench meters=0 codes=0 layers=0",
            "kind=search entries=0 selections=1",
        ];
        assert_eq!(printed("s"), expected);
    }

    #[test]
    fn every_call() {
        let expected = [
            "kind=bench meters=2 codes=1 layers=1",
            "kind=meter no=12345678 maker=2C2D version=01 medium=04",
            "kind=meter no=12900003 maker=2C2D version=01 medium=04",
            "kind=search entries=2 selections=31",
            "kind=misuse call=2",
            "kind=picked answered=yes",
            "kind=misuse call=4",
            "kind=reading place=19 storage=0 tariff=0 sub=0 function=0 quantity=3 form=whole \
             figure=5 power=-3 unit=m3 vifes=-",
            "kind=telegram readings=1 more=no",
            "kind=maker place=19 bytes=-",
            "kind=telegram readings=0 more=yes",
            "kind=released",
            "kind=picked answered=no",
            "kind=fault layer=master telegram=- place=- number=18",
            "kind=misuse call=10",
        ];
        let calls = "retry 1\nfault 3\ns\nf\np 12345678 2C2D 01 04\ns\nf\nf\nr\n\
                     p 12345678 2C2D 01 05\nf\np 12345678 2C2D 01 04\n";
        assert_eq!(after_house(calls), expected);
    }

    #[test]
    fn a_search_without_places() {
        let expected = [
            "kind=bench meters=2 codes=0 layers=0",
            "kind=meter no=12345678 maker=2C2D version=01 medium=04",
            "kind=fault layer=master telegram=- place=- number=17",
            // None, 0, 1, ten under 1 up to 12, under 12 up to 129.
            "kind=search entries=1 selections=16",
        ];
        assert_eq!(after_house("places 1\ns\n"), expected);
    }

    #[test]
    fn refusals_are_told_alone_and_the_bench_comes_first() {
        let fault = |place: &str, number| {
            [format!(
                "kind=fault layer=making telegram=- place={place} number={number}"
            )]
        };
        assert_eq!(after_house("retry 8\ns\n"), fault("-", 23));
        assert_eq!(after_house("retry 8\nfault 0 4\ns\n"), fault("1", 22));
        let bad_row = "meter 00000000 0000 00 00 00\nfault 4\n";
        assert_eq!(after_house(bad_row), fault("2", 22));
        let codes = format!("{bad_row}fault{}\n", " 0".repeat(4096));
        assert_eq!(after_house(&codes), fault("-", 21));
    }

    #[test]
    fn unreadable_lines_are_all_told() {
        let expected = ["kind=unreadable line=5", "kind=unreadable line=7"];
        assert_eq!(after_house("x\ns\n s\nf\n"), expected);
    }
}
