//! The console: reads calls from standard input, a line each, and writes each
//! answer at once.

use std::io::{self, BufRead, Write};

use reference::console::Console;

fn main() -> io::Result<()> {
    let mut input = io::stdin().lock();
    let mut output = io::stdout().lock();
    let mut console = Console::default();
    let mut line = Vec::new();
    loop {
        line.clear();
        input.read_until(b'\n', &mut line)?;
        // "a last piece without LF is no line"
        if line.pop() != Some(b'\n') {
            return Ok(());
        }
        if let Some(mut answer) = console.answer(&line) {
            answer.push('\n');
            output.write_all(answer.as_bytes())?;
            output.flush()?;
        }
    }
}
