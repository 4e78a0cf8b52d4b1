//! Compares the program `scenario` with the model in here on random houses.

use std::path::Path;
use std::{env, fs, io, process};

use super::outputs::{Difference, first_mismatch};
use super::program;
use crate::random_input::{self, Generator};
use crate::scenario;

pub fn compare(seed: u64, count: usize, program: &Path) -> io::Result<Option<Difference>> {
    let program = program::find(program)?;
    let mut generator = Generator::new(seed);
    for input_number in 1..=count {
        let input = random_input::house_input(&mut generator);
        let output = program::run(&program, &input)?;
        if let Some(mismatch) = first_mismatch(&scenario::lines(&input), &output) {
            // With the process in its name: two runs do not overwrite each other.
            let name = format!("compare-scenario-{}-{seed}-{input_number}", process::id());
            let saved_input = env::temp_dir().join(name);
            fs::write(&saved_input, &input)?;
            return Ok(Some(Difference {
                mismatch,
                input_number,
                saved_input,
            }));
        }
    }
    Ok(None)
}
