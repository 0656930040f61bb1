//! The line program over the original's own types: standard input to standard output.

use std::io::{self, BufReader, BufWriter};
use std::process::ExitCode;

/// How much is read or written at once.
const BYTES: usize = 1 << 16;

fn main() -> ExitCode {
    let input = BufReader::with_capacity(BYTES, io::stdin().lock());
    let output = BufWriter::with_capacity(BYTES, io::stdout().lock());
    match oracle::answer_lines(input, output) {
        Ok(()) => ExitCode::SUCCESS,
        Err(error) => {
            eprintln!("lines: {error}");
            ExitCode::FAILURE
        }
    }
}
