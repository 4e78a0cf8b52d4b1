//! Runs a program on an input.

use std::fs;
use std::io::{self, ErrorKind, Write};
use std::path::{Path, PathBuf};
use std::process::{ChildStdin, Command, Output, Stdio};
use std::thread;

/// A program by its absolute path: a name without a folder is a file here, not
/// one found in PATH, and it stays the same file when started elsewhere.
pub fn find(path: &Path) -> io::Result<PathBuf> {
    fs::canonicalize(path).map_err(|error| {
        let message = format!("{}: {error}", path.display());
        io::Error::new(error.kind(), message)
    })
}

/// Runs a program that reads standard input. The thread that writes keeps both
/// pipes moving: the program may print before it has read everything.
pub fn run(program: &Path, input: &[u8]) -> io::Result<Output> {
    let mut child = Command::new(program)
        .stdin(Stdio::piped())
        .stdout(Stdio::piped())
        .spawn()?;
    let stdin = child.stdin.take().expect("stdin was asked for as a pipe");
    thread::scope(|scope| {
        let writer = scope.spawn(|| feed(stdin, input));
        let output = child.wait_with_output()?;
        writer.join().expect("writing does not panic")?;
        Ok(output)
    })
}

/// Runs a program that reads files in the folder that it is started in.
pub fn run_in(program: &Path, folder: &Path) -> io::Result<Output> {
    Command::new(program)
        .current_dir(folder)
        .stdin(Stdio::null())
        .stderr(Stdio::inherit())
        .output()
}

fn feed(mut stdin: ChildStdin, input: &[u8]) -> io::Result<()> {
    match stdin.write_all(input) {
        // The program ended early; its output will show what it left out.
        Err(error) if error.kind() == ErrorKind::BrokenPipe => Ok(()),
        result => result,
    }
}
