//! The player: "is handed the setup, start time and start draw apart, runs the
//! trace, on past refused calls, and checks each kind 4 against the responder".

use std::fmt::Write;

use crate::console::trace::refused_at;
use crate::console::{state_word, Console, MOST_LINE};
use crate::refusal::Refusal;
use crate::responder::{Arrival, Change, Claim, Outs, Responder, LEAST_OUT};
use crate::trace::{self, Event, Received};

/// What goes to standard output, or else to standard error.
pub fn run(input: &[u8]) -> Result<String, String> {
    // "a last piece without LF is no line"
    let end = input.iter().position(|byte| *byte == b'\n');
    let end = end.filter(|end| *end <= MOST_LINE);
    let end = end.ok_or("bad line\n")?;
    let (line, trace) = (&input[..end], &input[end + 1..]);
    let mut console = Console::default();
    let started = console.start_with(line);
    if started != "started" {
        return Err(started + "\n");
    }
    // "A trace is checked as a whole before anything is printed."
    let events = trace::read(trace).map_err(|broken| refused_at(broken) + "\n")?;
    Ok(play(&mut console.responder, &events))
}

/// Runs the events and gives the lines of those that record a claim's state.
pub fn play(responder: &mut Responder, events: &[Event]) -> String {
    let mut lines = String::new();
    for event in events {
        if let Event::Claim { last, claim, state } = *event {
            let line = verdict(responder, last, claim, state);
            writeln!(lines, "{line}").expect("writing to a string");
        } else {
            // "on past refused calls"
            let _ = call(responder, event);
        }
    }
    lines
}

/// `LAST CLAIM STATE` as recorded, and "bad" in place of "ok" where state or time
/// differs.
fn verdict(responder: &Responder, last: u64, claim: u64, state: u64) -> String {
    let (name, now) = match claim {
        0 => ("instance", responder.instance),
        _ => ("host", responder.host),
    };
    let recorded = match state {
        0 => "waiting",
        1 => "probing",
        2 => "deferred",
        3 => "held",
        _ => "lost",
    };
    let same = last == responder.last && recorded == state_word(now);
    let word = if same { "ok" } else { "bad" };
    format!("{last} {name} {recorded} {word}")
}

/// "Every call is made with buffers of 1,452 bytes."
fn call(responder: &mut Responder, event: &Event) -> Result<(), Refusal> {
    let mut out = [0; LEAST_OUT];
    match event {
        Event::Tick(now) => responder.tick(*now, &mut out).map(|_| ()),
        Event::Received(received) => {
            let Received {
                now,
                from,
                port,
                draw,
                hold_draw,
                ..
            } = *received;
            let arrival = Arrival {
                now,
                from,
                port,
                draw,
                hold_draw,
                packet: &received.packet,
            };
            let outs = Outs {
                multicast: &mut out,
                unicast: &mut [0; LEAST_OUT],
            };
            responder.receive(arrival, outs).map(|_| ())
        }
        Event::Stop(now) => responder.stop(*now, &mut out).map(|_| ()),
        Event::Port { now, port } => {
            // (a trace has no greater ones)
            let change = Change::Port(*port as u16);
            responder.update(*now, change, &mut out).map(|_| ())
        }
        Event::Txt { now, txt } => {
            let change = Change::Txt(txt.clone());
            responder.update(*now, change, &mut out).map(|_| ())
        }
        Event::Claim { .. } => Ok(()),
    }
}

/// The number of a claim's state in a trace.
pub fn state_number(claim: Claim) -> u64 {
    match claim {
        Claim::Waiting { .. } => 0,
        Claim::Probing { .. } => 1,
        Claim::Deferred { .. } => 2,
        Claim::Held { .. } => 3,
        Claim::Lost => 4,
    }
}

#[cfg(test)]
mod tests {
    use super::*;

    const FIELDS: &str =
        "0 0 626f6f7468 5f766f696365 5f746370 646f636b 6c6f63616c 4000 00 0a000007 -";

    /// The trace of events in words.
    fn trace_of(words: &[&str]) -> Vec<u8> {
        let events: Vec<Event> = words
            .iter()
            .map(|words| crate::console::trace::event_of(words.as_bytes()).expect("an event"))
            .collect();
        trace::write(&events, u64::MAX).expect("a trace")
    }

    fn run_with(fields: &str, trace: &[u8]) -> Result<String, String> {
        run(&[fields.as_bytes(), b"\n", trace].concat())
    }

    #[test]
    fn a_trace_of_a_short_life() {
        let mut words = vec!["claim 0 0 0", "claim 0 1 0"];
        words.extend([
            "tick 0",
            "tick 0",
            "claim 0 1 1",
            "tick 250",
            "tick 250",
            "tick 500",
            "tick 500",
        ]);
        // a refused call is passed, and leaves the last time
        words.extend([
            "tick 499",
            "claim 500 0 1",
            "claim 499 0 1",
            "claim 500 0 3",
        ]);
        words.extend([
            "tick 750",
            "tick 750",
            "tick 5000",
            "claim 5000 1 3",
            "claim 5001 1 3",
        ]);
        words.extend([
            "port 5000 80",
            "stop 5000",
            "claim 5000 1 4",
            "txt 5000 0161",
        ]);
        let expected = [
            "0 instance waiting ok",
            "0 host waiting ok",
            "0 host probing ok",
            "500 instance probing ok",
            "499 instance probing bad",
            "500 instance held bad",
            "5000 host held ok",
            "5001 host held bad",
            "5000 host lost ok",
        ];
        let lines = run_with(FIELDS, &trace_of(&words)).unwrap();
        assert_eq!(lines.lines().collect::<Vec<_>>(), expected);
        assert_eq!(run_with(FIELDS, b""), Ok(String::new()));
    }

    #[test]
    fn refusals() {
        let broken = [&trace_of(&["claim 0 0 0"])[..], b"\x09"].concat();
        let late = FIELDS.replacen('0', "4611686018427387905", 1);
        let refused = |text: &str| Err(format!("{text}\n"));
        assert_eq!(run_with(FIELDS, &broken), refused("refused 12 11"));
        assert_eq!(run_with(&late, &broken), refused("refused 1"));
        let drawn = FIELDS.replacen(" 0", " 251", 1);
        assert_eq!(run_with(&drawn, &broken), refused("refused 2"));
        assert_eq!(run_with("", b""), refused("bad line"));
        assert_eq!(run_with(&format!("{FIELDS} "), b""), refused("bad line"));
        assert_eq!(run(FIELDS.as_bytes()), refused("bad line"));
        let long = FIELDS.replacen("0 ", &format!("{} ", "0".repeat(39_926)), 1);
        assert_eq!(long.len(), 40_000);
        assert_eq!(run_with(&long, b""), Ok(String::new()));
        assert_eq!(run_with(&format!("0{long}"), b""), refused("bad line"));
    }
}
