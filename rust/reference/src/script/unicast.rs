//! Queries with the top bit in the class of their questions, at the times around a
//! quarter of a TTL after a multicast.

use super::holds::TRUNCATED;
use super::packet::Draft;
use super::plain::OTHER_PORTS;
use super::Script;
use crate::setup::{ClaimName, OwnRecord};
use crate::{class, rtype, MDNS_PORT, MOST_TIME};

impl Script {
    /// The time of the last multicast of an own record and a quarter of its TTL, or
    /// about so; else a time of the life.
    fn time_around_a_quarter(&mut self) -> u64 {
        let responder = &self.model.responder;
        let last = responder.last;
        let mut quarters = Vec::new();
        for record in responder.setup.all_records() {
            if let Some(at) = responder.multicast[record.kind as usize] {
                quarters.push(at + u64::from(record.kind.ttl()) * 250);
            }
        }
        quarters.retain(|quarter| *quarter > last && *quarter <= MOST_TIME);
        if quarters.is_empty() || self.random.chance(60) {
            return self.life_time();
        }
        // most times those of the short TTLs, which come first
        quarters.sort();
        let quarter = match self.random.chance(70) {
            true => quarters[0],
            false => self.random.pick(&quarters),
        };
        let off = self.random.pick(&[0, 0, 1, 1, 2, 31]);
        (quarter + 1 - off.min(quarter)).clamp(last, MOST_TIME)
    }

    /// A question for an own record or what its name has no record of, with the bit
    /// most times.
    fn question_wanting_unicast(&mut self, own: &OwnRecord) -> (Vec<u8>, u16, u16) {
        let (name, mut rtype, _) = self.some_question();
        let mut owner = own.owner.wire().to_vec();
        if self.random.chance(20) {
            owner = self.random.recase(&owner);
        }
        match self.random.below(8) {
            0 => owner = name,
            1 => rtype = rtype::ANY,
            2 => rtype = 99,
            _ if own.kind.is_negative() => rtype = self.random.pick(&[99, rtype::NSEC, 256]),
            _ => rtype = own.kind.rtype(),
        }
        let plain_class = self.random.pick(&[1, 1, 1, 1, 255, 3]);
        let bit = match self.random.chance(80) {
            true => class::TOP_BIT,
            false => 0,
        };
        (owner, rtype, plain_class | bit)
    }

    pub(super) fn recv_wanting_unicast(&mut self) {
        let now = self.time_around_a_quarter();
        let all = self.model.responder.setup.all_records();
        let mut draft = Draft::query();
        draft.id = match self.random.chance(70) {
            true => self.random.number() as u16,
            false => 0,
        };
        if self.random.chance(30) {
            // all that there is
            for own in &all {
                let rtype = match own.kind.is_negative() {
                    true => 99,
                    false => own.kind.rtype(),
                };
                let owner = own.owner.wire().to_vec();
                draft
                    .questions
                    .push((owner, rtype, class::IN | class::TOP_BIT));
            }
        }
        for _ in 0..self.random.pick(&[0, 1, 1, 2, 3]) {
            let own = self.random.pick(&all);
            let question = self.question_wanting_unicast(&own);
            draft.questions.push(question.clone());
            if self.random.chance(35) {
                // the same record is asked for again, most times without the bit
                let (owner, rtype, class) = question;
                let rtype = self.random.pick(&[rtype, rtype::ANY]);
                let class = class & !class::TOP_BIT | self.random.pick(&[0, 0, class::TOP_BIT]);
                draft.questions.push((owner, rtype, class));
            }
        }
        self.random.shuffle(&mut draft.questions);
        if self.random.chance(25) {
            self.add_known_answers(&mut draft);
        }
        if self.random.chance(30) {
            let claim = self.random.pick(&[ClaimName::Instance, ClaimName::Host]);
            let name = self.model.responder.setup.claim_name(claim);
            let class = self.random.pick(&[0x8001, 0x8001, 0x80ff, 1]);
            draft.questions.push((name.into_wire(), rtype::ANY, class));
            draft.sections[1] = self.rival_records(claim);
        }
        if self.random.chance(12) {
            draft.flags = TRUNCATED;
        }
        let packet = draft.encode(&mut self.random);
        let port = match self.random.chance(6) {
            true => self.random.pick(&OTHER_PORTS),
            false => MDNS_PORT,
        };
        let source = self.source();
        self.recv_with(&source, port, now, &packet);
        if self.random.chance(30) {
            // again at once: what went by unicast has no gap
            self.recv_with(&source, port, now, &packet);
        }
        if self.random.chance(30) {
            self.say("claims");
        }
        if self.random.chance(15) {
            let buffer = self.random.pick(&["out", "unicast"]);
            self.say(format!("{buffer} 0 400"));
        }
    }
}
