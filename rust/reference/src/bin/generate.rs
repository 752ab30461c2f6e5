//! `generate SEED LINES`: writes a console script to standard output. `generate SEED LINES
//! plays`: its lives as traces to be played, for the fuzzer (`tests/fuzz.sh`).

use std::io::{self, BufWriter, Write};
use std::process::ExitCode;

use reference::script::script;
use reference::script::traces::play_lines;

fn main() -> io::Result<ExitCode> {
    let mut arguments: Vec<String> = std::env::args().skip(1).collect();
    let is_of_plays = arguments.pop_if(|last| last == "plays").is_some();
    let numbers: Option<Vec<u64>> = arguments.iter().map(|text| text.parse().ok()).collect();
    let Some(&[seed, lines]) = numbers.as_deref() else {
        eprintln!("usage: generate SEED LINES [plays]");
        return Ok(ExitCode::from(2));
    };
    let mut output = BufWriter::new(io::stdout().lock());
    let make = if is_of_plays { play_lines } else { script };
    for line in make(seed, lines as usize) {
        output.write_all(&line)?;
        output.write_all(b"\n")?;
    }
    output.flush()?;
    Ok(ExitCode::SUCCESS)
}
