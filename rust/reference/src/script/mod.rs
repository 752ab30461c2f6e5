//! Long hostile console scripts from a seed. The writer of a script runs each
//! line on a console of its own, and aims the next lines at the state it sees.

mod browser;
mod changes;
mod holds;
mod lines;
mod packet;
mod plain;
mod proxies;
pub mod random;
mod responder;
mod store;
pub mod traces;
mod unicast;

use crate::console::Console;
use packet::{corner, largest, Draft};
use random::Random;

pub struct Script {
    random: Random,
    model: Console,
    lines: Vec<Vec<u8>>,
    /// In percent: how often a life meets conflicts and later probes.
    hostility: u64,
}

/// A script of `count` lines, each without its LF.
pub fn script(seed: u64, count: usize) -> Vec<Vec<u8>> {
    let mut script = Script {
        random: Random::new(seed),
        model: Console::default(),
        lines: Vec::new(),
        hostility: 0,
    };
    script.blank_responder();
    script.blank_proxy();
    script.blank_browser();
    while script.lines.len() < count {
        if script.random.chance(6) {
            script.traces();
            continue;
        }
        if script.random.chance(7) {
            script.proxies();
            continue;
        }
        match script.random.below(100) {
            0..=30 => script.life(),
            31..=51 => script.store(),
            52..=71 => script.browsing(),
            72..=77 => script.txt_lookups(),
            78..=89 => script.readings(),
            90..=95 => script.starts(),
            _ => script.bad_lines(),
        }
    }
    script.lines.truncate(count);
    script.lines
}

impl Script {
    /// Adds a line and runs it on the model; gives the answer.
    fn say(&mut self, line: impl Into<Vec<u8>>) -> String {
        let line = line.into();
        let answer = self.model.answer(&line).unwrap_or_default();
        self.lines.push(line);
        answer
    }

    /// Draft to packet, now and then damaged.
    fn packet(&mut self, mut draft: Draft) -> Vec<u8> {
        draft.decorate(&mut self.random);
        if self.random.chance(4) {
            draft.damaged(&mut self.random)
        } else {
            draft.encode(&mut self.random)
        }
    }

    /// Messages for `read` alone.
    fn readings(&mut self) {
        for _ in 0..self.random.below(20) {
            let bytes = match self.random.below(100) {
                0 => largest(&mut self.random),
                1..=70 => corner(&mut self.random),
                _ => {
                    let mut draft = self.some_draft();
                    draft.decorate(&mut self.random);
                    draft.damaged(&mut self.random)
                }
            };
            let line = format!("read {}", self.hex(&bytes));
            self.say(line);
        }
    }

    fn some_draft(&mut self) -> Draft {
        let mut draft = Draft {
            flags: self.random.pick(&[0, 0x8400]),
            ..Draft::default()
        };
        for _ in 0..self.random.below(3) {
            let name = packet::some_name(&mut self.random);
            let rtype = self.random.pick(&packet::TYPES);
            let class = self.random.pick(&packet::CLASSES);
            draft.questions.push((name, rtype, class));
        }
        for section in 0..3 {
            for _ in 0..self.random.below(3) {
                let record = packet::some_record(&mut self.random);
                draft.sections[section].push(record);
            }
        }
        draft
    }

    /// Hex of either case, `-` for no bytes.
    fn hex(&mut self, bytes: &[u8]) -> String {
        let text = crate::console::hex(bytes);
        match self.random.below(20) {
            0 => text.to_ascii_uppercase(),
            1 => String::from_utf8(self.random.recase(text.as_bytes())).expect("hex digits"),
            _ => text,
        }
    }
}

#[cfg(test)]
mod tests {
    use super::*;
    use crate::message::{check, Message};
    use crate::tally::Tally;

    #[test]
    fn a_seed_gives_one_script() {
        assert_eq!(script(3, 500), script(3, 500));
        assert_ne!(script(3, 500), script(4, 500));
        assert_eq!(script(3, 500).len(), 500);
    }

    #[test]
    fn scripts_reach_every_kind_of_answer() {
        let mut tally = Tally::default();
        // some kinds are too rare for one script
        for seed in 7..=9 {
            let mut console = Console::default();
            for line in script(seed, 60_000) {
                if let Some(answer) = console.answer(&line) {
                    tally.count(&line, &answer);
                }
            }
        }
        let report = tally.to_string();
        for state in ["waiting", "probing", "deferred", "held", "lost"] {
            assert!(
                report.contains(&format!("claims instance {state}")),
                "{report}"
            );
            assert!(report.contains(&format!("claims host {state}")), "{report}");
        }
        for kind in [
            "claims host held with second step",
            "claims reply set",
            "tick sent response of 3 more",
            "recv sent response of 4",
            "put turned away by a table of 1",
            "put turned away by a table of 512",
            "put refused 8",
            "look refused 8",
            "look slot in a table of 512",
            "put cached with passed over",
            "look none",
            "txt value factory",
            "read message with something",
            "read question of 127 labels",
            "read owner of no label",
            "read PTR target of 127 labels",
            "read SRV target of 1 label",
            "look owner of 127 labels",
            "read NSEC next name of 2 to 126 labels",
            "read another NSEC owner of 2 to 126 labels",
            "recv sent response with 1 NSEC",
            "recv sent response with 2 NSEC",
            "recv sent response of 6",
            "holds none",
            "holds of 1",
            "holds of 4",
            "tick sent response with 1 NSEC",
            "tick sent response of 5",
            "recv unicast of 1",
            "recv unicast of 2",
            "recv unicast with SRV",
            "recv unicast with PTR",
            "recv unicast in other case",
            "recv wanted unicast of 1",
            "recv wanted unicast of 4",
            "recv wanted unicast with an ID",
            "recv wanted unicast with PTR",
            "recv wanted unicast with NSEC",
            "recv sent and unicast",
            "stop quiet",
            "stop refused 1",
            "stop refused 3",
            "stop sent response of 1",
            "stop sent response of 3",
            "stop sent response of 4",
            "stop sent response of 5",
            "update port sent",
            "update port quiet",
            "update txt sent",
            "update txt quiet",
            "update refused 1",
            "update refused 3",
            "update refused 7",
            "update refused 10",
            "update refused 11",
            "claims updated once",
            "unicast unicast",
            "recv quiet from another port",
            "recv refused 5 from another port",
            "put cached from another port",
            "put cached with a restricted NSEC",
            "put cached with another NSEC",
            "look slot of NSEC",
            "slot used by NSEC",
            "recv refused 7",
            "start refused 7 with no UTF-8",
            "start refused 7 with a control byte",
            "start started with UTF-8",
            "txt refused 9",
            "trace of no event",
            "trace with claim",
            "trace refused 12 for a claim byte",
            "trace refused 12 for a state byte",
            "trace refused 12 for a kind 5 that is left out",
            "trace refused 12 for a kind 5 behind a kind 5",
            "trace refused 12 for a kind 3 that is not owed",
            "trace refused 12 for padding",
            "trace refused 12 for the end where a kind 2 is owed",
            "trace refused 12 for the end where a kind 3 is owed",
            "trace refused 12 for a kind 8 cut short",
            "trace refused 12 for a kind 1 where a kind 3 is owed",
            "record of no event",
            "record with txt",
            "record refused 3",
            "record refused 12 for a hold draw",
            "record refused 12 for a state",
            "proxy proxied",
            "proxy refused 7",
            "question ask mapped of 255 bytes",
            "question ask as it is of 255 bytes",
            "question negative for type 43",
            "question refused 6",
            "question refused 7",
            "question refused 13",
            "answer owner of 255 bytes",
            "answer of type 33, target mapped",
            "answer left of type 47",
            "answer refused 7",
            "answer refused 13",
            "cached record with TTL 9",
            "cached left",
            "cached refused 1",
            "cached refused 8",
            "cached refused 13",
            "browse browsing",
            "browse refused 1",
            "browse refused 2",
            "browse refused 7",
            "ask quiet",
            "ask sent query",
            "ask sent query of no known answer",
            "ask sent query with TTL 0",
            "ask sent query of 1,452 bytes",
            "ask sent truncated query more",
            "ask sent truncated query of 1,452 bytes",
            "ask sent rest",
            "ask sent rest more",
            "ask sent rest of 1,452 bytes",
            "ask sent truncated rest more",
            "ask sent truncated rest of 1,452 bytes",
            "ask refused 1",
            "ask refused 3",
            "ask refused 7",
            "ask refused 8",
            "list of none",
            "list of 1",
            "list of several",
            "list refused 1",
            "list refused 7",
            "list refused 8",
            "slot with less than its TTL",
            "bad line",
        ] {
            assert!(report.contains(kind), "{kind} in {report}");
        }
    }

    #[test]
    fn the_two_readers_agree() {
        let mut random = Random::new(11);
        for _ in 0..20_000 {
            let bytes = corner(&mut random);
            assert_eq!(check(&bytes).err(), Message::read(&bytes).err());
        }
    }
}
