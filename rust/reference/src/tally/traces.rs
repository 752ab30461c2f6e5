//! The kinds of answers to `trace` and `record`, and of what a player prints.

use std::collections::BTreeSet;

use super::bytes_of;
use crate::trace::read;

/// The lengths of the records, kind byte included, by kind.
const LENGTHS: [usize; 9] = [0, 9, 14, 17, 11, 19, 9, 11, 11];
const EVENTS: [&str; 6] = ["tick", "recv", "claim", "stop", "port", "txt"];

pub fn kinds(line: &str, answer: &str) -> Vec<String> {
    let (call, rest) = line.split_once(' ').unwrap_or((line, ""));
    let words: Vec<&str> = answer.split(' ').collect();
    match (call, words.as_slice()) {
        ("trace", ["events"]) => vec!["trace of no event".to_string()],
        ("trace", ["events", shown @ ..]) => {
            let shown: BTreeSet<_> = shown
                .iter()
                .filter(|word| EVENTS.contains(word))
                .map(|word| format!("trace with {word}"))
                .collect();
            shown.into_iter().collect()
        }
        ("trace", ["refused", "12", offset]) => {
            let offset = offset.parse().unwrap_or_default();
            let trace = bytes_of(rest).unwrap_or_default();
            vec![format!("trace refused 12 for {}", reason(&trace, offset))]
        }
        ("record", ["trace", "-"]) => vec!["record of no event".to_string()],
        ("record", ["trace", ..]) => {
            let words = rest.split(' ').filter(|word| EVENTS.contains(word));
            let words: BTreeSet<_> = words.map(|word| format!("record with {word}")).collect();
            words.into_iter().collect()
        }
        ("record", ["refused", "12", _]) => {
            vec![format!("record refused 12 for {}", culprit(rest))]
        }
        ("record", ["refused", number]) => vec![format!("record refused {number}")],
        _ => vec![],
    }
}

/// Why a trace is refused at this offset.
fn reason(trace: &[u8], offset: usize) -> String {
    let before = &trace[..offset.min(trace.len())];
    let owed = read(before).is_err();
    let behind_source = before.len() >= 19 && before[before.len() - 19] == 5 && owed;
    let Some(kind) = trace.get(offset).copied() else {
        let what = if behind_source { "kind 2" } else { "kind 3" };
        return format!("the end where a {what} is owed");
    };
    let Some(length) = LENGTHS.get(usize::from(kind)).filter(|_| kind > 0) else {
        return "an unknown kind".to_string();
    };
    let Some(record) = trace.get(offset..offset + length) else {
        return format!("a kind {kind} cut short");
    };
    match kind {
        4 if record[9] > 1 => "a claim byte".to_string(),
        4 if record[10] > 4 => "a state byte".to_string(),
        5 if !owed => "a kind 5 that is left out".to_string(),
        3 if !owed => "a kind 3 that is not owed".to_string(),
        3 if !behind_source => "padding".to_string(),
        _ if behind_source => format!("a kind {kind} behind a kind 5"),
        _ => format!("a kind {kind} where a kind 3 is owed"),
    }
}

/// The first value that its field can't hold.
fn culprit(fields: &str) -> &'static str {
    let mut words = fields.split(' ').skip(1);
    let mut next = || words.next().unwrap_or_default();
    let over = |word: &str, most: u64| word.parse().map_or(true, |number: u64| number > most);
    loop {
        match next() {
            "tick" | "stop" => {
                next();
            }
            "recv" => {
                let fields = [(); 6].map(|()| next());
                if over(fields[4], 65_535) {
                    return "a hold draw";
                }
                if over(fields[2], 65_535) {
                    return "a source port";
                }
                if over(fields[3], 255) {
                    return "a draw";
                }
            }
            "claim" => {
                next();
                if over(next(), 1) {
                    return "a claim";
                }
                if over(next(), 4) {
                    return "a state";
                }
            }
            "port" => {
                next();
                if over(next(), 65_535) {
                    return "a port";
                }
            }
            "txt" => {
                next();
                next();
            }
            _ => return "nothing",
        }
    }
}

/// The kinds of what a player wrote to standard output and standard error.
pub fn player_kinds(output: &str, errors: &str) -> Vec<String> {
    let verdicts = output.lines().map(|line| {
        let words: Vec<&str> = line.split(' ').collect();
        format!("player {}", words[1..].join(" "))
    });
    let refusals = errors.lines().map(|line| match line.split_once(' ') {
        Some(("refused", rest)) => {
            let number = rest.split(' ').next().unwrap_or_default();
            format!("player refused {number}")
        }
        _ => format!("player {line}"),
    });
    let mut kinds: Vec<String> = verdicts.chain(refusals).collect();
    if kinds.is_empty() {
        kinds.push("player of no claim".to_string());
    }
    kinds
}
