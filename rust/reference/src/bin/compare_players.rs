//! `compare_players PLAYER_A PLAYER_B SEED LINES`: runs both players on the lives of
//! a generated script, each as a trace, and compares what they print.

use std::io::{self, Write};
use std::process::{Command, ExitCode, Stdio};
use std::thread;

use reference::console::hex;
use reference::script::traces::plays;
use reference::tally::Tally;

/// What a player wrote to standard output and standard error.
fn run(path: &str, input: &[u8]) -> io::Result<[String; 2]> {
    let mut child = Command::new(path)
        .stdin(Stdio::piped())
        .stdout(Stdio::piped())
        .stderr(Stdio::piped())
        .spawn()?;
    let mut stdin = child.stdin.take().expect("a piped stdin");
    let input = input.to_vec();
    // a player that ends early shows by what it printed
    let writer = thread::spawn(move || drop(stdin.write_all(&input)));
    let output = child.wait_with_output()?;
    writer.join().expect("a writer that ends");
    let text = |bytes: Vec<u8>| String::from_utf8_lossy(&bytes).into_owned();
    Ok([text(output.stdout), text(output.stderr)])
}

fn compare(path_a: &str, path_b: &str, seed: u64, count: usize) -> io::Result<ExitCode> {
    let mut tally = Tally::default();
    let inputs = plays(seed, count);
    for (index, input) in inputs.iter().enumerate() {
        let [a, b] = [run(path_a, input)?, run(path_b, input)?];
        if a != b {
            println!("difference at script line {index}: play");
            println!("input: {}", hex(input));
            for (name, [output, errors]) in [("A", a), ("B", b)] {
                println!("{name}: {output}{name} errors: {errors}");
            }
            return Ok(ExitCode::FAILURE);
        }
        tally.count_play(&a[0], &a[1]);
    }
    print!("{tally}");
    println!(
        "{} answers compared, all equal (seed {seed}, of players)",
        inputs.len()
    );
    Ok(ExitCode::SUCCESS)
}

fn main() -> io::Result<ExitCode> {
    let arguments: Vec<String> = std::env::args().skip(1).collect();
    if let [player_a, player_b, seed, lines] = arguments.as_slice() {
        if let (Ok(seed), Ok(lines)) = (seed.parse(), lines.parse()) {
            return compare(player_a, player_b, seed, lines);
        }
    }
    eprintln!("usage: compare_players PLAYER_A PLAYER_B SEED LINES");
    Ok(ExitCode::from(2))
}
