//! `compare PROGRAM_A PROGRAM_B SEED LINES`: runs both consoles on a generated
//! script and compares their answers line by line.

use std::io::{self, BufRead, BufReader, BufWriter, Write};
use std::process::{Child, Command, ExitCode, Stdio};
use std::sync::mpsc::{sync_channel, Receiver};
use std::sync::Arc;
use std::thread;
use std::time::Duration;

use reference::script::script;
use reference::tally::Tally;

/// A program that is silent for so long has no answer.
const PATIENCE: Duration = Duration::from_secs(20);

/// A running console.
struct Program {
    child: Child,
    answers: Receiver<String>,
}

impl Program {
    /// Starts a program; the script is fed and the answers are fetched by
    /// threads of their own, so that full pipes can't block them.
    fn run(path: &str, input: &Arc<Vec<u8>>) -> io::Result<Program> {
        let mut child = Command::new(path)
            .stdin(Stdio::piped())
            .stdout(Stdio::piped())
            .spawn()?;
        let stdin = child.stdin.take().expect("a piped stdin");
        let mut stdout = BufReader::new(child.stdout.take().expect("a piped stdout"));
        let input = Arc::clone(input);
        thread::spawn(move || {
            // a program that ends early shows as a missing answer
            let mut writer = BufWriter::new(stdin);
            let _ = writer.write_all(&input).and_then(|()| writer.flush());
        });
        let (sender, answers) = sync_channel(1000);
        thread::spawn(move || loop {
            let mut answer = Vec::new();
            let read = stdout.read_until(b'\n', &mut answer);
            if read.is_err() || answer.pop() != Some(b'\n') {
                return;
            }
            let answer = String::from_utf8_lossy(&answer).into_owned();
            if sender.send(answer).is_err() {
                return;
            }
        });
        Ok(Program { child, answers })
    }

    /// The next answer, or nothing if none comes.
    fn next_answer(&self) -> Option<String> {
        self.answers.recv_timeout(PATIENCE).ok()
    }
}

fn show(answer: &Option<String>) -> &str {
    answer.as_deref().unwrap_or("(no answer)")
}

/// Reports a difference; both programs are ended.
fn differ(
    line: &str,
    number: usize,
    answers: [Option<String>; 2],
    programs: [&mut Program; 2],
) -> io::Result<ExitCode> {
    println!("difference at script line {number}: {line}");
    println!("A: {}", show(&answers[0]));
    println!("B: {}", show(&answers[1]));
    for program in programs {
        program.child.kill()?;
        program.child.wait()?;
    }
    Ok(ExitCode::FAILURE)
}

fn compare(path_a: &str, path_b: &str, seed: u64, count: usize) -> io::Result<ExitCode> {
    let lines = script(seed, count);
    let mut input = lines.join(&b'\n');
    // "a last piece without LF is no line"
    input.extend(b"\nclaims");
    let input = Arc::new(input);
    let mut a = Program::run(path_a, &input)?;
    let mut b = Program::run(path_b, &input)?;

    let mut tally = Tally::default();
    let mut compared = 0;
    for (index, line) in lines.iter().enumerate() {
        if line.is_empty() || line[0] == b'#' {
            continue;
        }
        let answers = [a.next_answer(), b.next_answer()];
        if answers[0] != answers[1] || answers[0].is_none() {
            let line = String::from_utf8_lossy(line);
            return differ(&line, index + 1, answers, [&mut a, &mut b]);
        }
        tally.count(line, show(&answers[0]));
        compared += 1;
    }
    let answers = [a.next_answer(), b.next_answer()];
    if answers != [None, None] {
        let line = "(after the last line)";
        return differ(line, lines.len(), answers, [&mut a, &mut b]);
    }
    let ended_well = a.child.wait()?.success() & b.child.wait()?.success();
    print!("{tally}");
    println!("{compared} answers compared, all equal (seed {seed})");
    if !ended_well {
        println!("but a program did not end with status 0");
        return Ok(ExitCode::FAILURE);
    }
    Ok(ExitCode::SUCCESS)
}

fn main() -> io::Result<ExitCode> {
    let arguments: Vec<String> = std::env::args().skip(1).collect();
    if let [program_a, program_b, seed, lines] = arguments.as_slice() {
        if let (Ok(seed), Ok(lines)) = (seed.parse(), lines.parse()) {
            return compare(program_a, program_b, seed, lines);
        }
    }
    eprintln!("usage: compare PROGRAM_A PROGRAM_B SEED LINES");
    Ok(ExitCode::from(2))
}
