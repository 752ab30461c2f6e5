//! The library's refusals, in words.

use std::collections::BTreeMap;
use std::fmt;

use kurgashel::Refusal;

/// A refusal by its number in the specification and what it means.
pub fn text(refusal: Refusal) -> String {
    format!("refusal {} ({})", refusal.number(), meaning(refusal))
}

fn meaning(refusal: Refusal) -> &'static str {
    match refusal {
        Refusal::Time => "the time is too great or runs backwards",
        Refusal::Draw => "a draw outside its range: 0..250 to start, 20..120 and 400..500 for a packet",
        Refusal::Buffer => "the out buffer is under 1,452 bytes",
        Refusal::Length => "a message under 12 or over 8,972 bytes",
        Refusal::Header => "opcode or RCODE not zero, or a response from a port other than 5353",
        Refusal::Malformed => "a malformed message, TXT or name",
        Refusal::Setup => {
            "names or data break the rules: an instance is 1..63 bytes of UTF-8 without control characters such as a line feed; a host is 1..63 bytes; a service is '_' and 1..15 letters, digits or single inner hyphens, one of them a letter, then '_tcp' or '_udp'; TXT is at most 400 bytes"
        }
        Refusal::Cache => "the cache table or its byte store has a wrong size",
        Refusal::Key => "a TXT key that is empty or has a byte that keys can't have",
        Refusal::Lost => "the instance's name is lost, so its data can't be changed",
        Refusal::TooSoon => "the last change is less than six seconds ago",
        Refusal::Trace => "a trace that breaks the rules, or an event that can't be written",
        Refusal::TooLong => "a name is over 255 bytes in the other domain",
    }
}

/// How often each refusal came, by number.
#[derive(Clone, Debug, Default)]
pub struct Tally(BTreeMap<u8, (Refusal, u64)>);

impl Tally {
    pub fn add(&mut self, refusal: Refusal) {
        self.0.entry(refusal.number()).or_insert((refusal, 0)).1 += 1;
    }
}

impl fmt::Display for Tally {
    /// One line for each refusal that came up.
    fn fmt(&self, f: &mut fmt::Formatter) -> fmt::Result {
        for (refusal, count) in self.0.values() {
            writeln!(f, "{count} packets were left out: {}", text(*refusal))?;
        }
        Ok(())
    }
}

#[cfg(test)]
mod tests {
    use super::*;

    #[test]
    fn a_refusal_is_told_by_number_and_meaning() {
        let told =
            "refusal 5 (opcode or RCODE not zero, or a response from a port other than 5353)";
        assert_eq!(text(Refusal::Header), told);
    }

    #[test]
    fn a_tally_names_only_what_came() {
        let mut tally = Tally::default();
        assert_eq!(tally.to_string(), "");
        tally.add(Refusal::Malformed);
        tally.add(Refusal::Length);
        tally.add(Refusal::Malformed);
        let lines = "1 packets were left out: refusal 4 (a message under 12 or over 8,972 bytes)\n2 packets were left out: refusal 6 (a malformed message, TXT or name)\n";
        assert_eq!(tally.to_string(), lines);
    }
}
