//! What both commands share: input from a file or from standard input, and how they end.

use std::ffi::OsStr;
use std::fs;
use std::io::{self, ErrorKind, Read, Write};
use std::process::ExitCode;

/// Why a command ends without its work done.
#[derive(Clone, PartialEq, Eq, Debug)]
pub enum Stop {
    /// The command line is wrong: status 2.
    Usage(String),
    /// The input is wrong, or can't be read, or the output can't be written: status 1.
    Failure(String),
}

/// All bytes of the file; of standard input if there is no file, or if it is `-`.
pub fn read_input(file: Option<&OsStr>) -> Result<Vec<u8>, Stop> {
    let (name, read) = match file.filter(|path| *path != "-") {
        Some(path) => (path.to_string_lossy(), fs::read(path)),
        None => ("standard input".into(), read_standard_input()),
    };
    read.map_err(|error| Stop::Failure(format!("{name}: {error}")))
}

fn read_standard_input() -> io::Result<Vec<u8>> {
    let mut bytes = Vec::new();
    io::stdin().lock().read_to_end(&mut bytes)?;
    Ok(bytes)
}

/// Writes all bytes to standard output. A reader that has gone away is no failure.
pub fn write_output(bytes: &[u8]) -> Result<(), Stop> {
    let mut out = io::stdout().lock();
    match out.write_all(bytes).and_then(|()| out.flush()) {
        Err(error) if error.kind() != ErrorKind::BrokenPipe => {
            Err(Stop::Failure(format!("standard output: {error}")))
        }
        _ => Ok(()),
    }
}

/// Says why the command stopped, if it did, and gives its exit status.
pub fn end(name: &str, usage: &str, result: Result<(), Stop>) -> ExitCode {
    match result {
        Ok(()) => ExitCode::SUCCESS,
        Err(Stop::Failure(message)) => {
            eprintln!("{name}: {message}");
            ExitCode::from(1)
        }
        Err(Stop::Usage(message)) => {
            eprintln!("{name}: {message}\n{usage}");
            ExitCode::from(2)
        }
    }
}
