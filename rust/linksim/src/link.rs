//! One link: plays the entries of a list through the consoles, and holds each against the premises and the conclusions of demand 3.

use std::io;

use reference::message::Message;
use reference::MDNS_PORT;

use crate::console::{Answer, Claims, Console, Sent, State};
use crate::counts::Counts;
use crate::entry::{Before, Call, Entry, Packet, Receive};
use crate::judge::{Judge, Violation};
use crate::premises::{Limits, Premises};

pub struct Link<'a> {
    consoles: &'a mut [Console],
    kind: Kind,
    asked: Asked,
    /// The responder that each console runs.
    running: Vec<Option<Running>>,
    judge: Judge,
    premises: Premises,
    pub counts: Counts,
    /// The list so far, each entry with its answer; none for a power cut, and where nothing runs.
    pub played: Vec<(Entry, Option<Answer>)>,
    pub violation: Option<Violation>,
}

/// What a list is held against.
#[derive(Clone, Copy, PartialEq, Eq)]
pub enum Kind {
    /// Demand 3, from the first entry on.
    Whole,
    /// L13, from a joining on.
    Joined,
}

/// Which violations count.
#[derive(Clone, Copy, Debug, PartialEq, Eq)]
pub enum Asked {
    All,
    /// Demand 3, and L13.
    Demands,
    /// That a name which is left alone comes to be held, and stays so.
    Contention,
}

#[derive(Clone, Copy)]
struct Running {
    number: usize,
    /// The clock of its last accepted call.
    last: u64,
    states: [State; 2],
    /// How many queries it holds.
    holds: usize,
    /// The clock of its last accepted update.
    updated: Option<u64>,
    /// It has taken a stop: it no longer runs, though it may still be called.
    stopped: bool,
}

/// What an entry brought, for who makes the next ones.
pub struct Outcome {
    pub accepted: bool,
    /// To all.
    pub sent: Option<Packet>,
    /// To where the message came from.
    pub unicast: Option<Packet>,
    pub claims: Claims,
}

impl Link<'_> {
    pub fn new(consoles: &mut [Console], limits: Limits, kind: Kind, asked: Asked) -> Link<'_> {
        Link {
            running: vec![None; consoles.len()],
            consoles,
            kind,
            asked,
            judge: Judge::default(),
            premises: Premises::new(limits, kind == Kind::Joined),
            counts: Counts::default(),
            played: Vec::new(),
            violation: None,
        }
    }

    pub fn broken_premise(&self) -> Option<&'static str> {
        self.premises.broken()
    }

    /// Whether a console has a responder that can be called.
    pub fn answers(&self, console: usize) -> bool {
        self.running[console].is_some()
    }

    /// "a dock cut off or stopped no longer runs"
    pub fn runs(&self, console: usize) -> bool {
        self.running[console].is_some_and(|running| !running.stopped)
    }

    /// The number of the responder that a console runs.
    pub fn number(&self, console: usize) -> Option<usize> {
        self.running[console].map(|running| running.number)
    }

    /// Plays one entry. A power cut, and a call where nothing runs, have no outcome.
    pub fn play(&mut self, entry: Entry) -> io::Result<Option<Outcome>> {
        self.counts.entries += 1;
        self.premises.before(entry.time);
        if self.kind == Kind::Whole {
            let nobody = self.judge.nobody_holds(entry.time);
            self.found(nobody);
            let late = self.judge.not_in_time(entry.time);
            self.counts.asked = self.judge.asked;
            self.found(late);
            let two = self.judge.two_holders(entry.time);
            self.found(two);
        }
        let time = entry.time;
        let outcome = match &entry.call {
            Call::Cut => {
                self.cut(entry.console);
                None
            }
            Call::Join => {
                self.join();
                None
            }
            Call::Start { .. } => Some(self.call(&entry)?),
            _ if self.answers(entry.console) => Some(self.call(&entry)?),
            _ => None,
        };
        let (answer, outcome) = outcome.unzip();
        self.played.push((entry, answer));
        let two = match self.kind {
            Kind::Whole => self.judge.two_holders(time),
            Kind::Joined => self.judge.both_again(),
        };
        self.found(two);
        self.counts.excused = self.judge.excused;
        if self.kind == Kind::Whole {
            self.counts.contentions = self.judge.contentions();
        }
        self.counts.met = self.judge.met();
        Ok(outcome)
    }

    fn found(&mut self, violation: Option<Violation>) {
        let asked = |violation: &Violation| match self.asked {
            Asked::All => true,
            Asked::Demands => !violation.is_of_contention(),
            Asked::Contention => violation.is_of_contention(),
        };
        if self.violation.is_none() {
            self.violation = violation.filter(asked);
        }
    }

    /// Of a list that is held against demand 3 from its first entry on.
    fn found_in_whole(&mut self, violation: Option<Violation>) {
        if self.kind == Kind::Whole {
            self.found(violation);
        }
    }

    fn join(&mut self) {
        self.premises.join();
        self.judge.join();
        self.counts.joined += 1;
        self.counts.pairs += self.judge.pairs();
    }

    fn cut(&mut self, console: usize) {
        if let Some(running) = self.running[console].take() {
            if !running.stopped {
                self.counts.cuts += 1;
            }
            self.judge.end(running.number);
            self.premises.cut(running.number);
        }
    }

    /// A stop that was taken; its goodbye is written, and owed to the others.
    fn stopped(&mut self, console: usize) {
        if let Some(running) = &mut self.running[console] {
            if !running.stopped {
                self.counts.stops += 1;
            }
            running.stopped = true;
            self.judge.end(running.number);
            self.premises.cut(running.number);
        }
    }

    fn call(&mut self, entry: &Entry) -> io::Result<(Answer, Outcome)> {
        let before = self.running[entry.console].map(|running| Before {
            last: running.last,
            lost: running.states[0] == State::Lost,
            updated: running.updated,
        });
        let expected = entry.call.refusal(before.unwrap_or_default());
        let (answer, claims) = self.consoles[entry.console].call(&entry.call.line())?;
        let given = match answer {
            Answer::Refused(number) => Some(number),
            _ => None,
        };
        if given != expected {
            self.found(Some(Violation::Refusal { expected, given }));
        }
        let packet = |bytes: &Vec<u8>| Packet::from(&bytes[..]);
        let (sent, unicast) = match &answer {
            Answer::Sent(Sent { to_all, unicast }) => {
                (to_all.as_ref().map(packet), unicast.as_ref().map(packet))
            }
            _ => (None, None),
        };
        match given {
            Some(_) => self.counts.refused += 1,
            None => self.accepted(entry, &claims),
        }
        let is_goodbye = matches!(entry.call, Call::Stop { .. });
        if let (Some(packet), Some(number)) = (&sent, self.number(entry.console)) {
            self.sent(entry.time, number, packet, is_goodbye);
        }
        if is_goodbye && given.is_none() {
            self.stopped(entry.console);
        }
        if let (Some(packet), Call::Receive(receive)) = (&unicast, &entry.call) {
            self.sent_back(entry.time, entry.console, receive, packet);
        }
        let undefended = self.judge.undefended();
        self.found_in_whole(undefended);
        let outcome = Outcome {
            accepted: given.is_none(),
            sent,
            unicast,
            claims,
        };
        Ok((answer, outcome))
    }

    /// Takes note of a call that was not refused.
    fn accepted(&mut self, entry: &Entry, claims: &Claims) {
        if let Call::Start { .. } = entry.call {
            self.started(entry, claims);
        }
        let Some(mut running) = self.running[entry.console] else {
            return;
        };
        for (before, after) in running.states.iter().zip(&claims.states) {
            self.counts.turn(*before, *after);
        }
        running.last = entry.call.clock();
        running.states = claims.states;
        let holds = claims.due[3..].iter().flatten().count();
        self.counts.truncated += holds.saturating_sub(running.holds) as u64;
        running.holds = holds;
        if let Call::Update { clock, change, .. } = &entry.call {
            running.updated = Some(*clock);
            self.counts.updates += 1;
            self.premises.updated();
            self.judge.update(entry.time, running.number, change);
        }
        self.running[entry.console] = Some(running);
        self.premises
            .accepted(running.number, entry.call.clock(), claims.due);
        match &entry.call {
            Call::Receive(receive) if receive.port == MDNS_PORT => {
                self.heard(entry.time, running.number, receive);
            }
            _ => (),
        }
    }

    /// "Each start not refused begins a dock"; one that a console runs already ends with it.
    fn started(&mut self, entry: &Entry, claims: &Claims) {
        let Call::Start {
            clock,
            setup,
            address,
            ..
        } = &entry.call
        else {
            return;
        };
        self.cut(entry.console);
        self.counts.starts += 1;
        self.premises.start(*clock, *address);
        self.running[entry.console] = Some(Running {
            number: self.judge.start(entry.time, setup),
            last: *clock,
            states: claims.states,
            holds: 0,
            updated: None,
            stopped: false,
        });
    }

    fn heard(&mut self, time: u64, number: usize, receive: &Receive) {
        self.counts.heard += 1;
        self.premises.heard(number, receive.from, &receive.packet);
        // one that can't be read was to be refused, and counts as found already
        if let Ok(message) = Message::read(&receive.packet) {
            let given_up = self.judge.gives_up(number, &receive.packet, &message);
            self.found_in_whole(given_up);
            self.judge.challenge(time, number, &message);
            self.judge.meet(number, &receive.packet, &message);
            self.judge.hear(time, number, &message);
        }
    }

    /// A goodbye is owed to all as any packet, but begins no holding.
    fn sent(&mut self, time: u64, number: usize, packet: &Packet, is_goodbye: bool) {
        self.counts.sent += 1;
        self.premises.sent(number, packet);
        self.judge.send(number, packet);
        if !is_goodbye {
            self.written(time, number, packet, true);
        }
    }

    /// By unicast, to where the message came from: of a reply to a plain resolver "demand 3 asks no delivery".
    fn sent_back(&mut self, time: u64, console: usize, receive: &Receive, packet: &Packet) {
        let Some(number) = self.number(console) else {
            return;
        };
        match receive.port {
            MDNS_PORT => {
                self.counts.unicast += 1;
                self.premises.sent_to(number, receive.from, packet);
            }
            _ => self.counts.replied += 1,
        }
        self.judge.send_back(packet);
        self.written(time, number, packet, false);
    }

    /// A holding begins with "the call that writes a response with a record under it".
    fn written(&mut self, time: u64, number: usize, packet: &[u8], to_all: bool) {
        match Message::read(packet) {
            Ok(message) => {
                let given_up = self.judge.probes_again(number, &message);
                self.found_in_whole(given_up);
                self.judge.speak(time, number, &message, to_all);
                self.counts.held += self.judge.write(number, &message);
            }
            Err(_) => self.found(Some(Violation::Unreadable { responder: number })),
        }
    }
}
