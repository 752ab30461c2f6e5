//! Truncated queries from a few addresses, the known answers that follow them, and
//! what happens until they are due.

use super::packet::Draft;
use super::plain::OTHER_PORTS;
use super::Script;
use crate::setup::ClaimName;
use crate::{rtype, MDNS_PORT, MOST_TIME};

pub const TRUNCATED: u16 = 0x0200;

/// Two of them are one address, others differ in one byte.
const SOURCES: [&[u8]; 9] = [
    b"\x0a\x00\x00\x01",
    b"\x00\x00\x00\x00\x00\x00\x00\x00\x00\x00\xff\xff\x0a\x00\x00\x01",
    b"\x00\x00\x00\x00\x00\x00\x00\x00\x00\x00\x00\x00\x0a\x00\x00\x01",
    b"\x0a\x00\x00\x02",
    b"\x0b\x00\x00\x01",
    b"\xfe\x80\x00\x00\x00\x00\x00\x00\x00\x00\x00\x00\x00\x00\x00\x01",
    b"\xff\x80\x00\x00\x00\x00\x00\x00\x00\x00\x00\x00\x00\x00\x00\x01",
    b"\xfe\x80\x00\x00\x00\x00\x00\x80\x00\x00\x00\x00\x00\x00\x00\x01",
    b"\x00\x00\x00\x00\x00\x00\x00\x00\x00\x00\x00\x00\x00\x00\x00\x00",
];

impl Script {
    /// A source address, often one of which a query is held.
    pub(super) fn source(&mut self) -> Vec<u8> {
        let holds = &self.model.responder.holds;
        let held: Vec<_> = holds.iter().map(|hold| hold.from.to_vec()).collect();
        if !held.is_empty() && self.random.chance(30) {
            return self.random.pick(&held);
        }
        self.random.pick(&SOURCES).to_vec()
    }

    pub(super) fn hold_draw(&mut self) -> u64 {
        match self.random.below(4) {
            0 => 400,
            1 => 500,
            _ => self.random.within(400..=500),
        }
    }

    /// A truncated query, most times for own records, with the first known answers.
    fn truncated(&mut self) -> Draft {
        let mut draft = Draft::query();
        draft.flags = TRUNCATED;
        for _ in 0..self.random.pick(&[0, 1, 1, 1, 2, 3]) {
            let question = self.some_question();
            draft.questions.push(question);
        }
        if self.random.chance(30) {
            // PTR and all of the claims', NSEC too
            let setup = &self.model.responder.setup;
            let names = [setup.instance_name(), setup.host_name()];
            let service = setup.service_name().into_wire();
            draft.questions.push((service, rtype::PTR, 1));
            for name in names {
                let absent = (name.wire().to_vec(), 99, 1);
                draft.questions.push((name.into_wire(), rtype::ANY, 1));
                if self.random.chance(50) {
                    draft.questions.push(absent);
                }
            }
        }
        if self.random.chance(25) {
            self.add_known_answers(&mut draft);
        }
        if self.random.chance(8) {
            // a probe, or nearly: it is never held
            let claim = self.random.pick(&[ClaimName::Instance, ClaimName::Host]);
            draft.sections[1] = self.rival_records(claim);
        }
        draft
    }

    pub(super) fn recv_truncated(&mut self, now: u64) {
        let draft = self.truncated();
        let packet = draft.encode(&mut self.random);
        let source = self.source();
        let port = match self.random.chance(8) {
            true => self.random.pick(&OTHER_PORTS),
            false => MDNS_PORT,
        };
        self.recv_with(&source, port, now, &packet);
        if self.random.chance(60) {
            self.say("holds");
        }
    }

    /// More known answers from an address of which a query is held, or from one
    /// beside it.
    pub(super) fn recv_more_known(&mut self, now: u64) {
        let holds = &self.model.responder.holds;
        let held: Vec<_> = holds.iter().map(|hold| hold.from.to_vec()).collect();
        let source = match held.is_empty() || self.random.chance(15) {
            true => self.source(),
            false => self.random.pick(&held),
        };
        let mut draft = Draft::query();
        draft.flags = self.random.pick(&[0, 0, TRUNCATED]);
        if self.random.chance(25) {
            let question = self.some_question();
            draft.questions.push(question);
        }
        self.add_known_answers(&mut draft);
        if self.random.chance(5) {
            draft.flags |= 0x8400;
        }
        if self.random.chance(10) {
            let claim = self.random.pick(&[ClaimName::Instance, ClaimName::Host]);
            let name = self.model.responder.setup.claim_name(claim);
            draft.questions.push((name.into_wire(), rtype::ANY, 1));
            draft.sections[1] = self.rival_records(claim);
        }
        let packet = draft.encode(&mut self.random);
        let port = match self.random.chance(8) {
            true => self.random.pick(&OTHER_PORTS),
            false => MDNS_PORT,
        };
        self.recv_with(&source, port, now, &packet);
        if self.random.chance(20) {
            self.say("holds");
        }
    }

    /// Truncated queries from up to six addresses within a few ms, known answers
    /// among them, then ticks at the times they are due.
    pub(super) fn burst(&mut self, mut now: u64) {
        let mut sources = SOURCES.to_vec();
        self.random.shuffle(&mut sources);
        for source in &sources[..self.random.within(1..=6) as usize] {
            let draft = self.truncated();
            let packet = draft.encode(&mut self.random);
            self.recv_with(source, MDNS_PORT, now, &packet);
            if self.random.chance(30) {
                self.recv_more_known(now);
            }
            now = (now + self.random.pick(&[0, 0, 1, 40, 100])).min(MOST_TIME);
        }
        self.say("holds");
        for _ in 0..self.random.below(12) {
            if self.random.chance(20) {
                let now = self.life_time();
                self.recv_more_known(now);
                continue;
            }
            let dues: Vec<u64> = self.model.responder.dues().collect();
            let Some(due) = dues.iter().min().copied() else {
                return;
            };
            let any = self.random.pick(&dues);
            let time = self
                .random
                .pick(&[due, due, any, due + 1, due.saturating_sub(1)]);
            let now = time.max(self.model.responder.last).min(MOST_TIME);
            self.tick_all(now);
            if self.random.chance(50) {
                self.say("holds");
            }
        }
    }
}
