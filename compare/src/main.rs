//! A second decoder of M-Bus telegrams and a second model of lines and masters,
//! written from docs/PROTOCOL.md alone, against which the proved programs are
//! tested.

mod beginnings;
mod calls;
mod cases;
mod comparison;
mod decoder;
mod digits;
mod fault;
#[cfg(any(feature = "linked", test))]
mod fold;
mod frame;
mod input_line;
mod laws;
mod line;
#[cfg(feature = "linked")]
mod linked;
mod master;
mod output_line;
mod random_input;
mod readout;
mod records;
mod reply;
mod scenario;
#[cfg(any(feature = "linked", test))]
mod speed;
mod task;

use std::env;
use std::ffi::OsString;
use std::fmt::Display;
use std::fs;
use std::io::{self, BufWriter, ErrorKind, Read, Write};
use std::path::Path;
use std::process::ExitCode;
#[cfg(feature = "linked")]
use std::time::Duration;

use decoder::Decoder;
use task::{Program, Task};

/// Neither a difference nor none: the work could not be done.
const FAILURE: u8 = 2;

fn main() -> ExitCode {
    let arguments: Vec<OsString> = env::args_os().skip(1).collect();
    let Some(task) = Task::parse(&arguments) else {
        eprintln!("{}", task::USAGE);
        #[cfg(feature = "linked")]
        eprintln!("{}", task::SPEED_USAGE);
        return ExitCode::from(FAILURE);
    };
    perform(task).unwrap_or_else(|error| {
        eprintln!("compare: {error}");
        ExitCode::from(FAILURE)
    })
}

fn perform(task: Task) -> io::Result<ExitCode> {
    match task {
        Task::Decode => {
            let input = standard_input()?;
            let mut decoder = Decoder::default();
            print_all(input_line::split(&input).flat_map(|text| decoder.decode_line(text)))
        }
        Task::Scenario => print_all(scenario::lines(&standard_input()?)),
        Task::Readout { capture } => print_all(readout::lines(&bytes_of_capture(&capture)?)),
        Task::Cases => {
            io::stdout().write_all(&cases::all())?;
            Ok(ExitCode::SUCCESS)
        }
        Task::Compare {
            with,
            seed,
            count,
            path,
        } => compare(with, seed, count, &path),
        Task::Laws { seed, count } => {
            let broken = laws::first_broken(seed, count);
            Ok(report(broken, &format!("{count} houses, no law broken")))
        }
        #[cfg(feature = "linked")]
        Task::Speed { time } => Ok(measure_speed(time)),
    }
}

fn standard_input() -> io::Result<Vec<u8>> {
    let mut input = Vec::new();
    io::stdin().read_to_end(&mut input)?;
    Ok(input)
}

/// A missing file counts as empty.
fn bytes_of_capture(path: &Path) -> io::Result<Vec<u8>> {
    match fs::read(path) {
        Err(error) if error.kind() == ErrorKind::NotFound => Ok(Vec::new()),
        result => result,
    }
}

fn print_all(lines: impl IntoIterator<Item = String>) -> io::Result<ExitCode> {
    let mut output = BufWriter::new(io::stdout().lock());
    for line in lines {
        writeln!(output, "{line}")?;
    }
    output.flush()?;
    Ok(ExitCode::SUCCESS)
}

fn compare(with: Program, seed: u64, count: usize, path: &Path) -> io::Result<ExitCode> {
    Ok(match with {
        Program::Decode => report(
            comparison::compare_decode(seed, count, path)?,
            &format!("{count} telegrams, no difference"),
        ),
        Program::Scenario => report(
            comparison::compare_scenario(seed, count, path)?,
            &format!("{count} houses, no difference"),
        ),
        Program::Readout => report(
            comparison::compare_readout(seed, count, path)?,
            &format!("{count} captures, no difference"),
        ),
    })
}

fn report(failure: Option<impl Display>, success: &str) -> ExitCode {
    match failure {
        Some(failure) => {
            println!("{failure}");
            ExitCode::FAILURE
        }
        None => {
            println!("{success}");
            ExitCode::SUCCESS
        }
    }
}

#[cfg(feature = "linked")]
fn measure_speed(time: Duration) -> ExitCode {
    match speed::measure(time, linked::decode) {
        Ok(speeds) => {
            println!("{speeds}");
            ExitCode::SUCCESS
        }
        Err(disagreement) => {
            println!("{disagreement}");
            ExitCode::FAILURE
        }
    }
}
