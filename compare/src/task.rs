//! What the program is asked to do.

use std::ffi::{OsStr, OsString};
use std::path::PathBuf;
#[cfg(feature = "linked")]
use std::time::Duration;

pub const USAGE: &str = "\
usage: compare decode                        decode the telegrams on standard input
       compare scenario                      print what scenario prints for standard input
       compare readout FILE                  print what readout prints for the capture FILE
       compare cases                         write test input for decode
       compare random SEED COUNT PROGRAM     compare with decode on random telegrams
       compare scenarios SEED COUNT PROGRAM  compare with scenario on random test houses
       compare readouts SEED COUNT PROGRAM   compare with readout on random captures
       compare laws SEED COUNT               check the laws of the master on random test houses";

#[cfg(feature = "linked")]
pub const SPEED_USAGE: &str =
    "       compare speed SECONDS                 measure this decoder and the linked one";

pub enum Task {
    Decode,
    Scenario,
    Readout {
        capture: PathBuf,
    },
    Cases,
    Compare {
        with: Program,
        seed: u64,
        count: usize,
        path: PathBuf,
    },
    Laws {
        seed: u64,
        count: usize,
    },
    #[cfg(feature = "linked")]
    Speed {
        time: Duration,
    },
}

/// The programs that can be compared with.
#[derive(Clone, Copy)]
pub enum Program {
    Decode,
    Scenario,
    Readout,
}

impl Task {
    /// None if the arguments ask for nothing that can be done.
    pub fn parse(arguments: &[OsString]) -> Option<Self> {
        let (name, rest) = arguments.split_first()?;
        match (name.to_str()?, rest) {
            ("decode", []) => Some(Task::Decode),
            ("scenario", []) => Some(Task::Scenario),
            ("readout", [capture]) => Some(Task::Readout {
                capture: PathBuf::from(capture),
            }),
            ("cases", []) => Some(Task::Cases),
            ("random", [seed, count, path]) => comparison(Program::Decode, seed, count, path),
            ("scenarios", [seed, count, path]) => comparison(Program::Scenario, seed, count, path),
            ("readouts", [seed, count, path]) => comparison(Program::Readout, seed, count, path),
            ("laws", [seed, count]) => Some(Task::Laws {
                seed: seed.to_str()?.parse().ok()?,
                count: count.to_str()?.parse().ok()?,
            }),
            #[cfg(feature = "linked")]
            ("speed", [seconds]) => Some(Task::Speed {
                time: Duration::try_from_secs_f64(seconds.to_str()?.parse().ok()?).ok()?,
            }),
            _ => None,
        }
    }
}

fn comparison(with: Program, seed: &OsStr, count: &OsStr, path: &OsStr) -> Option<Task> {
    Some(Task::Compare {
        with,
        seed: seed.to_str()?.parse().ok()?,
        count: count.to_str()?.parse().ok()?,
        path: PathBuf::from(path),
    })
}
