//! Stops and updates, near the time at which an update may come again, with probes,
//! old data and held queries around them.

use super::holds::TRUNCATED;
use super::packet::{txt_of, Draft, DraftRecord};
use super::Script;
use crate::setup::{ClaimName, Kind};
use crate::{rtype, MOST_TIME};

const UPDATE_GAP: u64 = 6000;

impl Script {
    pub(super) fn change(&mut self) {
        match self.random.below(100) {
            0..=11 => self.stop(),
            27..=36 => self.update_with_held_queries(),
            12..=16 => {
                // again and again
                for _ in 0..3 {
                    self.update();
                }
            }
            17..=26 => {
                // a query is held meanwhile
                let now = self.life_time();
                self.recv_truncated(now);
                let now = self.model.responder.last;
                self.recv_more_known(now);
                self.update();
                if self.random.chance(50) {
                    let now = self.life_time();
                    self.recv_more_known(now);
                }
                let due = self.model.responder.holds.iter().map(|hold| hold.due).max();
                if let Some(due) = due {
                    let now = due.max(self.model.responder.last).min(MOST_TIME);
                    self.tick_all(now);
                }
            }
            _ => self.update(),
        }
    }

    /// Queries are held that know the records, an update comes, and they are answered
    /// when the claim is held and the gaps are over: one tick at each time, so that the
    /// claim's steps come before them.
    fn update_with_held_queries(&mut self) {
        for _ in 0..self.random.within(1..=3) {
            let packet = self.knowing_query().encode(&mut self.random);
            let now = self.model.responder.last;
            self.recv_from(crate::MDNS_PORT, now, &packet);
        }
        self.update();
        for _ in 0..4 {
            let responder = &self.model.responder;
            let held = responder.instance.is_held();
            let Some(due) = responder.instance.due().filter(|_| !held) else {
                break;
            };
            let now = due.max(responder.last).min(MOST_TIME);
            self.say(format!("tick {now}"));
        }
        for _ in 0..self.random.within(2..=7) {
            let now = (self.model.responder.last + 1000).min(MOST_TIME);
            self.say(format!("tick {now}"));
        }
        self.say("holds");
    }

    /// A truncated query for the instance's records, or the host's, that knows all of them.
    fn knowing_query(&mut self) -> Draft {
        let setup = self.model.responder.setup.clone();
        let claim = self
            .random
            .pick(&[ClaimName::Instance, ClaimName::Instance, ClaimName::Host]);
        let mut draft = Draft::query();
        draft.flags = TRUNCATED;
        let name = setup.claim_name(claim).into_wire();
        draft.questions.push((name, rtype::ANY, 1));
        for own in setup.claimed_records(ClaimName::Instance) {
            let (rtype, ttl) = (own.kind.rtype(), own.kind.ttl());
            let record = DraftRecord::new(own.owner.wire(), rtype, 1, ttl, &own.rdata());
            draft.sections[0].push(record);
        }
        draft
    }

    fn room(&mut self) -> &'static str {
        let rooms = [
            "", "", "", "", "", "", " 1452", " 4096", " 1451", " 0", " 4097",
        ];
        self.random.pick(&rooms)
    }

    fn stop(&mut self) {
        let mut now = self.life_time();
        if self.random.chance(15) {
            now = self.bad_time(self.model.responder.last);
        }
        let room = self.room();
        self.say(format!("stop {now}{room}"));
        self.say("claims");
        if self.random.chance(40) {
            let now = self.life_time();
            self.tick_all(now);
            self.say("holds");
        }
        if self.random.chance(30) {
            let now = self.life_time();
            self.say(format!("stop {now}"));
        }
        if self.random.chance(30) {
            self.update();
        }
    }

    /// 6,000 ms after the last update, or nearly; else a time of the life.
    fn time_of_update(&mut self) -> u64 {
        let last = self.model.responder.last;
        if self.random.chance(5) {
            return self.bad_time(last);
        }
        match self.model.responder.updated {
            Some(updated) if self.random.chance(70) => {
                let time = updated + UPDATE_GAP + 1 - self.random.pick(&[0, 1, 1, 1, 2, 2]);
                time.max(last).min(MOST_TIME)
            }
            _ => self.life_time(),
        }
    }

    /// New data: others, the same again, at the limits, or illegal.
    fn new_data(&mut self) -> String {
        let setup = self.model.responder.setup.clone();
        if self.random.chance(50) {
            let port = self
                .random
                .pick(&[0, 1, 80, 4000, 0x8000, 65_535, setup.port]);
            return format!("port {port}");
        }
        let txt = match self.random.below(12) {
            0 | 1 => setup.txt,
            2 => vec![],
            3 => txt_of(&mut self.random, 400),
            4 => txt_of(&mut self.random, 401),
            5 => vec![2, 0],
            6 => [setup.txt, vec![0]].concat(),
            _ => {
                let length = self.random.within(1..=40) as usize;
                txt_of(&mut self.random, length)
            }
        };
        format!("txt {}", self.hex(&txt))
    }

    /// An update, and at times what follows it closely: a probe, the old data, a
    /// question for the record, its second step.
    fn update(&mut self) {
        let before = self.model.responder.setup.clone();
        let (now, data, room) = (self.time_of_update(), self.new_data(), self.room());
        let answer = self.say(format!("update {now} {data}{room}"));
        if self.random.chance(60) {
            self.say("claims");
        }
        if answer.starts_with("refused") || answer == "bad line" {
            return;
        }
        let last = self.model.responder.last;
        let soon = (last + self.random.pick(&[0, 1, 249, 250, 999, 1000])).min(MOST_TIME);
        match self.random.below(8) {
            0 => {
                // a probe for the name
                let name = self.model.responder.setup.claim_name(ClaimName::Instance);
                let class = self.random.pick(&[1, 1, 0x8001]);
                let mut draft = Draft::query();
                draft.questions.push((name.into_wire(), rtype::ANY, class));
                draft.sections[1] = self.rival_records(ClaimName::Instance);
                let packet = draft.encode(&mut self.random);
                self.recv_from(crate::MDNS_PORT, soon, &packet);
                self.say("claims");
            }
            1 if self.hostility > 0 || self.random.chance(20) => {
                // the data of before, as a response or as known answers
                let mut draft = Draft::response();
                draft.flags = self.random.pick(&[0x8400, 0]);
                let class = self.random.pick(&[1, 0x8001]);
                for own in before.records() {
                    if matches!(own.kind, Kind::Srv | Kind::Txt) {
                        let owner = own.owner.wire().to_vec();
                        let rtype = own.kind.rtype();
                        draft.questions.push((owner.clone(), rtype, 1));
                        let ttl = own.kind.ttl();
                        let record = DraftRecord::new(&owner, rtype, class, ttl, &own.rdata());
                        draft.sections[0].push(record);
                    }
                }
                let packet = draft.encode(&mut self.random);
                self.recv_from(crate::MDNS_PORT, soon, &packet);
                self.say("claims");
            }
            2 => {
                // both records, with the bit or without it
                let name = self.model.responder.setup.instance_name();
                let class = self.random.pick(&[1, 1, 0x8001]);
                let mut draft = Draft::query();
                draft.questions.push((name.into_wire(), rtype::ANY, class));
                let packet = draft.encode(&mut self.random);
                self.recv_from(crate::MDNS_PORT, soon, &packet);
            }
            3 | 4 => self.tick_all(soon),
            5 => {
                // too soon, or just not
                self.say(format!("update {soon} {data}"));
            }
            _ => (),
        }
    }
}
