//! Times the proved library beside ordinary Rust and the peers, on the same packets in one run, and prints tables in Markdown: nanoseconds a packet or a call.

mod cache_tables;
mod reader_tables;
mod responder_tables;

use bench::{machine, peers, timing};

const USAGE: &str = "bench [--svg FILE] [reading|growth|cache|responder]..
  all parts where none is named; --svg draws the growth, time against message size, into a file";

/// What to time, and where to draw.
struct Arguments {
    svg: Option<String>,
    parts: Vec<String>,
}

impl Arguments {
    fn read() -> Option<Arguments> {
        let (mut svg, mut parts) = (None, Vec::new());
        let mut words = std::env::args().skip(1);
        while let Some(word) = words.next() {
            match word.as_str() {
                "--svg" => svg = Some(words.next()?),
                "reading" | "growth" | "cache" | "responder" => parts.push(word),
                _ => return None,
            }
        }
        Some(Arguments { svg, parts })
    }

    fn has(&self, part: &str) -> bool {
        self.parts.is_empty() || self.parts.iter().any(|named| named == part)
    }
}

fn main() {
    let Some(arguments) = Arguments::read() else {
        eprintln!("{USAGE}");
        std::process::exit(2);
    };
    println!(
        "{}; the least of {} rounds",
        machine::line(),
        timing::ROUNDS
    );
    let (peers, missing) = peers::installed();
    for name in missing {
        println!("skipped: {name} is not installed, or rust/peers/build.sh has not run");
    }
    if arguments.has("reading") {
        reader_tables::readers(&peers);
        reader_tables::verdicts(&peers);
        reader_tables::apart(&peers);
    }
    if arguments.has("growth") || arguments.svg.is_some() {
        let curves = reader_tables::growth(&peers);
        if let Some(file) = &arguments.svg {
            let plot = reader_tables::drawn(&curves, &peers);
            std::fs::write(file, plot).expect("the plot is written");
            println!("\n{file} is drawn");
        }
    }
    if arguments.has("cache") {
        cache_tables::takes();
        cache_tables::lookups();
    }
    if arguments.has("responder") {
        responder_tables::responders();
    }
}
