//! Reads a run file from standard input and prints its listing.

use std::io::{self, Read, Write};
use std::process::ExitCode;

use second::BYTES;

/// One byte past the longest file shows that the input is too long, so no
/// more than that is read.
const MOST_INPUT: u64 = BYTES as u64 + 1;

fn replay_input() -> io::Result<()> {
    let mut input = Vec::new();
    io::stdin().lock().take(MOST_INPUT).read_to_end(&mut input)?;
    let mut output = io::stdout().lock();
    output.write_all(second::replay(&input).as_bytes())?;
    output.flush()
}

fn main() -> ExitCode {
    match replay_input() {
        Ok(()) => ExitCode::SUCCESS,
        Err(reason) => {
            eprintln!("second: {reason}");
            ExitCode::FAILURE
        }
    }
}
