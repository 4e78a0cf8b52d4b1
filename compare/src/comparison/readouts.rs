//! Compares the program `readout` with the model in here on random captures.

use std::io::ErrorKind;
use std::path::Path;
use std::{env, fs, io, process};

use super::outputs::{Difference, first_mismatch};
use super::program;
use crate::random_input::{self, Generator};
use crate::readout;

/// The file that `readout` reads.
const CAPTURE: &str = "capture.bin";

pub fn compare(seed: u64, count: usize, program: &Path) -> io::Result<Option<Difference>> {
    let program = program::find(program)?;
    let folder = env::temp_dir().join(format!("compare-readout-{}-{seed}", process::id()));
    fs::create_dir_all(&folder)?;
    let difference = compare_in(&folder, seed, count, &program)?;
    // The input of a difference stays where it is.
    if difference.is_none() {
        fs::remove_dir_all(&folder)?;
    }
    Ok(difference)
}

fn compare_in(
    folder: &Path,
    seed: u64,
    count: usize,
    program: &Path,
) -> io::Result<Option<Difference>> {
    let mut generator = Generator::new(seed);
    let path = folder.join(CAPTURE);
    for input_number in 1..=count {
        let capture = random_input::capture(&mut generator);
        // A missing file counts as an empty one.
        if capture.is_empty() && generator.one_in(2) {
            remove(&path)?;
        } else {
            fs::write(&path, &capture)?;
        }
        let output = program::run_in(program, folder)?;
        if let Some(mismatch) = first_mismatch(&readout::lines(&capture), &output) {
            return Ok(Some(Difference {
                mismatch,
                input_number,
                saved_input: path,
            }));
        }
    }
    Ok(None)
}

fn remove(path: &Path) -> io::Result<()> {
    match fs::remove_file(path) {
        Err(error) if error.kind() == ErrorKind::NotFound => Ok(()),
        result => result,
    }
}
