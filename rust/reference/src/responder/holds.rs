//! "Truncated known answers": queries that are held until their known answers
//! have come, and then decided (RFC 6762, section 7.2).

#[cfg(test)]
mod tests;

use super::{is_known, Arrival, Responder, MULTICAST_GAP};
use crate::message::Message;
use crate::setup::{ClaimName, KINDS};

/// An IPv6 address, or an IPv4 address as ::ffff:a.b.c.d.
pub type Address = [u8; 16];

pub const LEAST_HOLD_DRAW: u64 = 400;
pub const MOST_HOLD_DRAW: u64 = 500;
/// "Hold up to four such queries"
pub const MOST_HOLDS: usize = 4;

/// A held query: what it asked for and what it knows, by `Kind`.
#[derive(Clone, Debug, PartialEq, Eq)]
pub struct Hold {
    pub from: Address,
    pub due: u64,
    pub asked: [bool; KINDS],
    pub known: [bool; KINDS],
}

impl Responder {
    fn holds_one_from(&self, from: Address) -> bool {
        self.holds.iter().any(|hold| hold.from == from)
    }

    /// "A probe is never held", whatever state the claim is in.
    fn is_probe(&self, query: &Message) -> bool {
        [ClaimName::Instance, ClaimName::Host]
            .into_iter()
            .any(|name| self.probe_for(query, name).is_some())
    }

    /// Whether a query from port 5353 is held: it is truncated and no probe, and
    /// there is room for it and none from its address yet.
    pub(super) fn can_be_held(&self, from: Address, query: &Message) -> bool {
        query.is_truncated()
            && !self.is_probe(query)
            && !self.holds_one_from(from)
            && self.holds.len() < MOST_HOLDS
    }

    pub(super) fn hold(&mut self, arrival: Arrival, query: &Message) {
        let mut hold = Hold {
            from: arrival.from,
            due: arrival.now + arrival.hold_draw,
            asked: [false; KINDS],
            known: [false; KINDS],
        };
        for record in self.setup.all_records() {
            let kind = record.kind as usize;
            hold.asked[kind] = self.is_in_question(query, &record);
            hold.known[kind] = is_known(query, &record);
        }
        self.holds.push(hold);
    }

    /// "add the Answer records of later queries from that address"
    pub(super) fn add_known_answers(&mut self, from: Address, query: &Message) {
        for record in self.setup.all_records() {
            if is_known(query, &record) {
                for hold in self.holds.iter_mut().filter(|hold| hold.from == from) {
                    hold.known[record.kind as usize] = true;
                }
            }
        }
    }

    /// Takes the due holds, the one that came first before the others, until one
    /// sends: "its answers, PTR too, go in one packet by the claims and gaps of
    /// then".
    pub(super) fn hold_steps(&mut self, now: u64, out: &mut [u8]) -> Option<usize> {
        while let Some(first) = self.holds.iter().position(|hold| hold.due <= now) {
            let hold = self.holds.remove(first);
            let mut answers = self.setup.all_records();
            answers.retain(|record| {
                let kind = record.kind as usize;
                self.claim(record.kind.claim()).is_held()
                    && hold.asked[kind]
                    && !hold.known[kind]
                    && !self.was_multicast_within(record.kind, MULTICAST_GAP, now)
            });
            if let Some(length) = self.multicast(now, &answers, out) {
                return Some(length);
            }
        }
        None
    }
}
