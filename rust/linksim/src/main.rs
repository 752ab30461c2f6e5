//! Random hostile lists of the calls of several responders on one link, played through the proved console, and held against demand 3.
//! Ends with status 0 if no list violates it, 1 if one does, which is then printed, and 2 if the lists could not be played.

mod console;
mod counts;
mod describe;
mod entry;
mod hostile;
mod judge;
mod link;
mod options;
mod premises;
mod queue;
mod random;
mod refused;
mod setups;
mod shrink;
mod simulation;
mod style;
mod trace;

use std::io;
use std::process::ExitCode;
use std::time::{Duration, Instant};

use console::Console;
use counts::Counts;
use entry::Entry;
use link::{Kind, Link};
use options::{Options, USAGE};
use simulation::Simulation;

/// Most responders that run at once.
const CONSOLES: usize = 6;

fn main() -> ExitCode {
    let options = match Options::read(std::env::args().skip(1)) {
        Ok(options) => options,
        Err(trouble) => {
            eprintln!("{trouble}\n{USAGE}");
            return ExitCode::from(2);
        }
    };
    match run(&options) {
        Ok(false) => ExitCode::SUCCESS,
        Ok(true) => ExitCode::from(1),
        Err(trouble) => {
            eprintln!("{trouble}");
            ExitCode::from(2)
        }
    }
}

/// Plays lists until one has a violation, or enough are played; tells whether one was found.
fn run(options: &Options) -> io::Result<bool> {
    let mut consoles = Vec::new();
    for _ in 0..CONSOLES {
        consoles.push(Console::open(&options.console)?);
    }
    let begin = Instant::now();
    let over = |counts: &Counts| match options.seconds {
        Some(seconds) => begin.elapsed() >= Duration::from_secs(seconds),
        None => counts.lists >= options.lists,
    };
    let mut total = Counts::default();
    while !over(&total) {
        let seed = options.seed.wrapping_add(total.lists);
        let kind = match Simulation::joins(seed, options.joined) {
            true => Kind::Joined,
            false => Kind::Whole,
        };
        let link = Link::new(&mut consoles, options.limits, kind, options.asked);
        let alone = Simulation::is_left_alone(seed, options.alone);
        let link = Simulation::play(link, options.limits, (seed, alone), kind, CONSOLES)?;
        total.add(&link.counts);
        if let Some(premise) = link.broken_premise() {
            println!("list of seed {seed}: the simulation broke a premise: {premise}");
            return Ok(true);
        }
        if link.violation.is_some() {
            let entries = link.played.into_iter().map(|(entry, _)| entry).collect();
            println!("{total}");
            report(&mut consoles, options, seed, entries)?;
            return Ok(true);
        }
    }
    println!("{total}");
    println!(
        "0 violations in {:.0} s, delays up to {} ms, {} ms by unicast, steps up to {} ms late",
        begin.elapsed().as_secs_f64(),
        options.limits.delay,
        options.limits.unicast,
        options.limits.late
    );
    Ok(false)
}

/// Prints the violation of a list, the list made short, and how to play the whole one again.
fn report(
    consoles: &mut [Console],
    options: &Options,
    seed: u64,
    entries: Vec<Entry>,
) -> io::Result<()> {
    let Some(violation) =
        shrink::replay(consoles, options.limits, options.asked, &entries)?.violation
    else {
        println!("list of seed {seed}: a violation that does not come again");
        return Ok(());
    };
    let most = entries.len();
    let fewer = shrink::shrink(consoles, options.limits, options.asked, entries, &violation)?;
    let link = shrink::replay(consoles, options.limits, options.asked, &fewer)?;
    println!("{} of the {most} entries of the list:", fewer.len());
    for line in trace::lines(&link.played, CONSOLES) {
        println!("{line}");
    }
    if let Some(violation) = &link.violation {
        println!("violation: {violation}");
    }
    println!(
        "the whole list: --seed {seed} --lists 1 --delay {} --unicast {} --late {} --joined {} --alone {}",
        options.limits.delay, options.limits.unicast, options.limits.late, options.joined, options.alone
    );
    Ok(())
}
