//! The player: standard input is one line with the fields of the console's `start`
//! behind the word, then the bytes of a trace. A refusal goes to standard error.

use std::io::{self, Read, Write};
use std::process::ExitCode;

use reference::player;

fn main() -> io::Result<ExitCode> {
    let mut input = Vec::new();
    io::stdin().lock().read_to_end(&mut input)?;
    match player::run(&input) {
        Ok(lines) => {
            io::stdout().write_all(lines.as_bytes())?;
            Ok(ExitCode::SUCCESS)
        }
        Err(refusal) => {
            io::stderr().write_all(refusal.as_bytes())?;
            Ok(ExitCode::FAILURE)
        }
    }
}
