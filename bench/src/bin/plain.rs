//! Reads a sheet on standard input and prints its listing, by the plain implementation.

#![forbid(unsafe_code)]

use std::io::{self, Read, Write};
use std::process::ExitCode;

use bench::plain::list_sheet;
use bench::plain::sheet::MOST_BYTES;

fn main() -> ExitCode {
    match run() {
        Ok(()) => ExitCode::SUCCESS,
        Err(error) => {
            eprintln!("plain: {error}");
            ExitCode::FAILURE
        }
    }
}

fn run() -> io::Result<()> {
    let mut sheet = Vec::with_capacity(MOST_BYTES + 1);
    // One byte more than a sheet may have tells that it is too long; the rest of the input does not matter.
    io::stdin().lock().take(MOST_BYTES as u64 + 1).read_to_end(&mut sheet)?;
    let mut output = io::stdout().lock();
    output.write_all(&list_sheet(&sheet))?;
    output.flush()
}
