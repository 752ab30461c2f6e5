//! A list as a person reads it: an entry a line, with the milliseconds since the first, the responder, its call and the answer.

use reference::console::hex;
use reference::responder::Change;
use reference::setup::Setup;
use reference::MDNS_PORT;

use crate::console::{Answer, Sent};
use crate::describe::{packet, text_of};
use crate::entry::{Call, Entry};

/// Responders are numbered by their accepted starts, as in a violation's words; where none runs, the console is named.
pub fn lines(played: &[(Entry, Option<Answer>)], consoles: usize) -> Vec<String> {
    let begin = played.first().map_or(0, |(entry, _)| entry.time);
    let mut running = vec![None; consoles];
    let mut started = 0;
    let mut lines = Vec::new();
    for (entry, answer) in played {
        if *answer == Some(Answer::Started) {
            running[entry.console] = Some(started);
            started += 1;
        }
        let who = match running[entry.console] {
            Some(number) => format!("responder {number}"),
            None => format!("console {}", entry.console),
        };
        let wait = entry.time - begin;
        let (call, answer) = (call_words(&entry.call), answer_words(answer.as_ref()));
        lines.push(format!("{wait:6} {who} {call}{answer}"));
        if let Call::Cut = entry.call {
            running[entry.console] = None;
        }
    }
    lines
}

fn call_words(call: &Call) -> String {
    match call {
        Call::Start {
            draw,
            setup,
            address,
            ..
        } => {
            let (at, setup) = (hex(address), setup_words(setup));
            format!("starts, draw {draw}, at {at}, {setup}")
        }
        Call::Receive(receive) => {
            let (from, heard) = (hex(&receive.from), packet(&receive.packet));
            match receive.port {
                MDNS_PORT => format!("hears from {from} {heard}"),
                port => format!("gets from {from} port {port} {heard}"),
            }
        }
        Call::Tick { .. } => "ticks".to_string(),
        Call::Stop { .. } => "stops".to_string(),
        Call::Update { change, .. } => match change {
            Change::Port(port) => format!("has port {port} now"),
            Change::Txt(txt) => format!("has TXT {} now", hex(txt)),
        },
        Call::Cut => "is cut".to_string(),
        Call::Join => "sees the groups joined".to_string(),
    }
}

fn answer_words(answer: Option<&Answer>) -> String {
    match answer {
        Some(Answer::Sent(Sent { to_all, unicast })) => {
            let to_all = to_all
                .as_ref()
                .map(|sent| format!(": sends {}", packet(sent)));
            let back = unicast
                .as_ref()
                .map(|sent| format!(": sends back {}", packet(sent)));
            to_all.into_iter().chain(back).collect()
        }
        Some(Answer::Refused(number)) => format!(": refused {number}"),
        Some(Answer::Started | Answer::Quiet) | None => String::new(),
    }
}

fn setup_words(setup: &Setup) -> String {
    format!(
        "{}, port {}, TXT {}; {}, A {}, AAAA {}",
        text_of(&setup.instance_name()),
        setup.port,
        hex(&setup.txt),
        text_of(&setup.host_name()),
        hex(&setup.a),
        hex(setup.aaaa.as_ref().map_or(&[], |address| &address[..])),
    )
}

#[cfg(test)]
mod tests {
    use super::*;
    use crate::random::Random;
    use crate::setups;
    use std::rc::Rc;

    #[test]
    fn responders_are_numbered_by_their_accepted_starts() {
        let setup = Rc::new(setups::draw(&mut Random::new(1)));
        let start = |draw| Call::Start {
            clock: 0,
            draw,
            setup: setup.clone(),
            address: [0; 16],
        };
        let tick = Call::Tick { clock: 0, out: 0 };
        let list = [
            (1, start(251), Some(Answer::Refused(2))),
            (1, start(0), Some(Answer::Started)),
            (0, start(0), Some(Answer::Started)),
            (1, Call::Cut, None),
            (0, tick.clone(), Some(Answer::Quiet)),
            (1, start(0), Some(Answer::Started)),
            (1, tick, Some(Answer::Refused(3))),
        ];
        let entry = |(time, (console, call, answer))| {
            let time = 100 + time as u64;
            let entry = Entry {
                time,
                console,
                call,
            };
            (entry, answer)
        };
        let played: Vec<_> = list.into_iter().enumerate().map(entry).collect();
        let lines = lines(&played, 2);
        for (line, begin) in lines.iter().zip([
            "     0 console 1 starts, draw 251",
            "     1 responder 0 starts, draw 0",
            "     2 responder 1 starts, draw 0",
            "     3 responder 0 is cut",
            "     4 responder 1 ticks",
            "     5 responder 2 starts, draw 0",
            "     6 responder 2 ticks: refused 3",
        ]) {
            assert!(line.starts_with(begin), "{line}");
        }
    }
}
