//! Demand 3's premises, tested on the list as it is played: deliveries, due steps, clocks, addresses. A list that does not meet them shows nothing.

use reference::responder::holds::Address;

use crate::console::Dues;
use crate::entry::Packet;

/// The most that the premises allow.
#[derive(Clone, Copy, Debug, PartialEq, Eq)]
pub struct Limits {
    pub delay: u64,
    /// The same, of packets by unicast.
    pub unicast: u64,
    pub late: u64,
}

/// "Every packet a dock sends reaches and is taken by every other dock, unaltered, within 100 ms; every due step is taken at most 50 ms late".
pub const DEMANDED: Limits = Limits {
    delay: 100,
    unicast: 100,
    late: 50,
};

pub struct Premises {
    limits: Limits,
    /// From when they are asked: from the beginning, or from a joining on. Before, none is asked.
    from: Option<i64>,
    /// The time of the last entry.
    time: u64,
    /// By number; none after a cut.
    responders: Vec<Option<Responder>>,
    owed: Vec<Owed>,
    broken: Option<&'static str>,
}

struct Responder {
    address: Address,
    /// Its clock less the link's time.
    offset: i64,
    /// On the link's time.
    due: Vec<i64>,
}

struct Owed {
    packet: Packet,
    /// The sender's address, with which it has to arrive.
    from: Address,
    to: usize,
    by: u64,
}

impl Premises {
    /// A list of groups that are joined has to meet them from the joining on.
    pub fn new(limits: Limits, joined: bool) -> Premises {
        Premises {
            limits,
            from: (!joined).then_some(i64::MIN),
            time: 0,
            responders: Vec::new(),
            owed: Vec::new(),
            broken: None,
        }
    }

    /// Which premise the list breaks, if any.
    pub fn broken(&self) -> Option<&'static str> {
        self.broken
    }

    fn require(&mut self, met: bool, premise: &'static str) {
        if !met && self.from.is_some() {
            self.broken.get_or_insert(premise);
        }
    }

    /// "From the moment of joining, with demand 3's premises from then on".
    pub fn join(&mut self) {
        self.from = Some(self.time as i64);
        let running = || self.responders.iter().flatten();
        let alone = |one: &Responder| {
            running()
                .filter(|other| other.address == one.address)
                .count()
                == 1
        };
        let apart = running().all(alone);
        self.require(apart, "an address is no other running responder's");
    }

    /// Before an entry: what was owed until a time before it has happened.
    pub fn before(&mut self, time: u64) {
        self.require(self.time <= time, "the link's time never falls");
        self.time = time;
        let delivered = self.owed.iter().all(|owed| time <= owed.by);
        self.require(delivered, "a packet is taken in time");
        // what was overdue at the joining has 50 ms from then
        let (late, from) = (self.limits.late as i64, self.from.unwrap_or(i64::MIN));
        let taken = |due: &i64| time as i64 <= from.max(*due) + late;
        let running = self.responders.iter().flatten();
        let on_time = running
            .flat_map(|responder| responder.due.iter())
            .all(taken);
        self.require(on_time, "a due step is taken in time");
    }

    /// An accepted start; responders are numbered by these.
    pub fn start(&mut self, clock: u64, address: Address) {
        let alone = self.running_at(address).is_none();
        self.require(alone, "an address is no other running responder's");
        self.responders.push(Some(Responder {
            address,
            offset: clock as i64 - self.time as i64,
            due: Vec::new(),
        }));
    }

    /// "A power cut ends a dock: from then on it [...] need take no step or packet"; and "a dock cut off or stopped no longer runs".
    pub fn cut(&mut self, responder: usize) {
        self.responders[responder] = None;
        self.owed.retain(|owed| owed.to != responder);
    }

    /// "L4's updates left out", from a joining on.
    pub fn updated(&mut self) {
        let joined = self.from.is_some_and(|from| from > i64::MIN);
        self.require(!joined, "no update is taken after a joining");
    }

    /// "Calls carry their dock's clock, a fixed amount off the link's time".
    pub fn accepted(&mut self, responder: usize, clock: u64, due: Dues) {
        let time = self.time as i64;
        let Some(running) = &mut self.responders[responder] else {
            return;
        };
        let offset = running.offset;
        running.due = due
            .iter()
            .flatten()
            .map(|due| *due as i64 - offset)
            .collect();
        self.require(clock as i64 == time + offset, "clocks run at one rate");
    }

    /// "all of a dock's packets arrive with one source address, its own": with another one it is no delivery.
    pub fn heard(&mut self, responder: usize, from: Address, packet: &Packet) {
        self.owed
            .retain(|owed| owed.to != responder || owed.from != from || owed.packet != *packet);
    }

    /// Owed to every other responder that runs now: "One sent before a dock's start need not reach it."
    pub fn sent(&mut self, from: usize, packet: &Packet) {
        for to in 0..self.responders.len() {
            if to != from && self.responders[to].is_some() {
                self.owe(from, to, self.limits.delay, packet);
            }
        }
    }

    /// "A unicast packet need reach only the dock running at its address: sent after that dock's start to its port 5353". A responder
    /// owes itself nothing.
    pub fn sent_to(&mut self, from: usize, address: Address, packet: &Packet) {
        if let Some(to) = self.running_at(address).filter(|to| *to != from) {
            self.owe(from, to, self.limits.unicast, packet);
        }
    }

    fn owe(&mut self, from: usize, to: usize, delay: u64, packet: &Packet) {
        let (Some(sender), Some(_)) = (&self.responders[from], self.from) else {
            return;
        };
        self.owed.push(Owed {
            packet: packet.clone(),
            from: sender.address,
            to,
            by: self.time + delay,
        });
    }

    /// "a dock cut off [...] no longer runs"
    fn running_at(&self, address: Address) -> Option<usize> {
        self.responders.iter().position(|responder| {
            responder
                .as_ref()
                .is_some_and(|responder| responder.address == address)
        })
    }
}

#[cfg(test)]
mod tests {
    use super::*;
    use crate::console::dues;

    const ONE: Address = [1; 16];
    const TWO: Address = [2; 16];

    /// Two responders from time 10 on, with clocks of 0 and 10.
    fn two() -> Premises {
        let mut premises = Premises::new(DEMANDED, false);
        premises.before(10);
        premises.start(0, ONE);
        premises.start(10, TWO);
        premises
    }

    fn packet() -> Packet {
        vec![1, 2, 3].into()
    }

    #[test]
    fn a_packet_is_owed_for_100_ms() {
        for (time, heard, broken) in [(110, false, false), (111, false, true), (111, true, false)] {
            let mut premises = two();
            premises.sent(0, &packet());
            premises.before(110);
            if heard {
                premises.heard(1, ONE, &packet());
            }
            premises.before(time);
            assert_eq!(premises.broken().is_some(), broken);
        }
    }

    #[test]
    fn another_packet_another_responder_or_an_earlier_hearing_is_no_delivery() {
        let wrong: [fn(&mut Premises); 4] = [
            |premises| premises.heard(1, ONE, &vec![1, 2, 4].into()),
            |premises| premises.heard(0, ONE, &packet()),
            |premises| premises.heard(1, TWO, &packet()),
            |_| (),
        ];
        for deliver in wrong {
            let mut premises = two();
            premises.heard(1, ONE, &packet());
            premises.sent(0, &packet());
            deliver(&mut premises);
            premises.before(111);
            assert!(premises.broken().is_some());
        }
    }

    #[test]
    fn a_unicast_packet_is_owed_to_who_runs_at_its_address() {
        // to responder 1, to nobody, to the sender itself
        for (address, owed) in [(TWO, true), ([3; 16], false), (ONE, false)] {
            let mut premises = two();
            premises.sent_to(0, address, &packet());
            premises.heard(1, TWO, &packet());
            premises.before(110);
            assert_eq!(premises.broken(), None);
            premises.before(111);
            assert_eq!(premises.broken().is_some(), owed);
        }
        let mut premises = two();
        premises.sent_to(0, TWO, &packet());
        premises.heard(1, ONE, &packet());
        premises.before(111);
        assert_eq!(premises.broken(), None);
    }

    #[test]
    fn an_address_is_used_again_after_a_cut_alone() {
        let mut premises = two();
        premises.sent_to(0, TWO, &packet());
        premises.cut(1);
        premises.start(10, TWO);
        assert_eq!(premises.broken(), None);
        // what was sent before its start is not owed to it, what is sent then is
        premises.before(111);
        assert_eq!(premises.broken(), None);
        premises.sent_to(0, TWO, &packet());
        premises.before(212);
        assert!(premises.broken().is_some());
        let mut premises = two();
        premises.start(10, TWO);
        assert!(premises.broken().is_some());
    }

    #[test]
    fn nothing_is_owed_to_a_responder_that_was_cut() {
        let mut premises = two();
        premises.sent(0, &packet());
        premises.accepted(1, 10, dues(&[Some(10)]));
        premises.cut(1);
        premises.before(1000);
        assert_eq!(premises.broken(), None);
    }

    #[test]
    fn a_step_may_be_50_ms_late_on_its_responders_clock() {
        for (time, broken) in [(85, false), (86, true)] {
            let mut premises = two();
            premises.accepted(0, 0, dues(&[None, None, None, Some(25)]));
            premises.before(time);
            assert_eq!(premises.broken().is_some(), broken);
        }
    }

    #[test]
    fn before_a_joining_nothing_is_asked_and_what_is_overdue_has_50_ms() {
        let mut premises = Premises::new(DEMANDED, true);
        premises.before(10);
        premises.start(0, ONE);
        premises.start(10, TWO);
        premises.accepted(0, 0, dues(&[Some(20)]));
        premises.sent(0, &packet());
        premises.before(1000);
        premises.join();
        premises.before(1050);
        assert_eq!(premises.broken(), None);
        premises.accepted(0, 1040, dues(&[Some(1041)]));
        premises.sent(0, &packet());
        premises.before(1101);
        assert_eq!(premises.broken(), None);
        premises.before(1102);
        assert!(premises.broken().is_some());
        let mut premises = Premises::new(DEMANDED, true);
        premises.start(0, ONE);
        premises.start(10, ONE);
        premises.join();
        assert!(premises.broken().is_some());
    }

    #[test]
    fn clocks_and_order() {
        let mut premises = two();
        premises.before(30);
        premises.accepted(0, 20, dues(&[]));
        assert_eq!(premises.broken(), None);
        premises.accepted(0, 21, dues(&[]));
        assert!(premises.broken().is_some());
        let mut premises = two();
        premises.before(9);
        assert!(premises.broken().is_some());
    }
}
