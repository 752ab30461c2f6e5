//! How long a name that is wanted is held by nobody, judged by the packets alone, as long as the name is left alone: none who wants it
//! is cut, stopped or updated, and none hears a stranger's conflicting response for it.
//!
//! Who wants it and hears no probe for it with later records, from its start on and for 1,200 ms, finds it held then, by itself or by
//! another. A later probe defers by 1,000 ms who is probing: then it is held 1,950 ms after the last one that was heard, four steps of
//! at most 50 ms late and three gaps of 250 ms behind the deferral. Who holds it keeps it: it hears no conflicting response of another,
//! probes for it no more, and answers who probes for it, unless it has just spoken.

use std::fmt;

use reference::message::{Message, Section};
use reference::name::Name;

use super::{Judge, Violation, HOLDING_TIME};
use crate::describe::text_of;
use crate::entry::Packet;

/// 1,000 ms, four times 50 ms and three times 250 ms.
const AFTER_LATER: u64 = 1950;
/// "(b) it was multicast less than 1,000 ms ago, 250 ms if the query is a probe for its claim"
const DEFENCE_GAP: u64 = 250;

#[derive(Default)]
pub struct Contention {
    names: Vec<Wanted>,
    /// What the responders of the list sent, to all or by unicast.
    sent: Vec<Packet>,
    counts: Counts,
}

/// A name, as long as it is left alone.
struct Wanted {
    name: Name,
    since: u64,
    held: bool,
    disturbed: bool,
    /// A stranger's probe with later records was heard.
    deferred: bool,
}

#[derive(Clone, Debug, Default)]
pub struct Counts {
    /// Lists in which a name was asked to be held, and such with every name left alone to their end.
    pub lists: u64,
    pub left_alone: u64,
    /// How often a name was asked to be held, and how often so of a name that others want too.
    pub asked: u64,
    pub contended: u64,
    /// How often it was asked after a later probe.
    pub deferred: u64,
    /// How often a holder had to answer a probe.
    pub challenged: u64,
    /// In ms, the longest time without a holder of a name for which strangers sent no later probe, and of the others.
    pub longest: u64,
    pub longest_deferred: u64,
}

impl Counts {
    pub fn add(&mut self, other: &Counts) {
        self.lists += other.lists;
        self.left_alone += other.left_alone;
        self.asked += other.asked;
        self.contended += other.contended;
        self.deferred += other.deferred;
        self.challenged += other.challenged;
        self.longest = self.longest.max(other.longest);
        self.longest_deferred = self.longest_deferred.max(other.longest_deferred);
    }
}

impl fmt::Display for Counts {
    fn fmt(&self, f: &mut fmt::Formatter) -> fmt::Result {
        let Counts {
            lists,
            left_alone,
            asked,
            contended,
            deferred,
            challenged,
            longest,
            longest_deferred,
        } = self;
        write!(
            f,
            "names left alone: {lists} lists judged, {left_alone} of them left alone as a whole; a holder asked for {asked} times, {contended} of a name that several want, {deferred} after a later probe, and an answer to a probe {challenged} times; the longest time without one {longest} ms, {longest_deferred} ms where strangers sent later probes"
        )
    }
}

impl Contention {
    fn wanted(&mut self, name: &Name) -> Option<&mut Wanted> {
        self.names
            .iter_mut()
            .find(|wanted| wanted.name.equals(name))
    }

    /// An accepted start of one who wants it.
    pub fn want(&mut self, time: u64, name: &Name) {
        if self.wanted(name).is_none() {
            self.names.push(Wanted {
                name: name.clone(),
                since: time,
                held: false,
                disturbed: false,
                deferred: false,
            });
        }
    }

    /// A cut, a stop, an update, or a stranger's conflicting response.
    pub fn disturb(&mut self, name: &Name) {
        if let Some(wanted) = self.wanted(name) {
            wanted.disturbed = true;
        }
    }

    /// A stranger's probe with later records.
    fn defer(&mut self, name: &Name) {
        if let Some(wanted) = self.wanted(name) {
            wanted.deferred = true;
        }
    }

    fn is_left_alone(&mut self, name: &Name) -> bool {
        self.wanted(name).is_some_and(|wanted| !wanted.disturbed)
    }

    /// A holding of the name began.
    pub fn hold(&mut self, name: &Name) {
        if let Some(wanted) = self.wanted(name) {
            wanted.held = true;
        }
    }

    pub fn send(&mut self, packet: &Packet) {
        self.sent.push(packet.clone());
    }

    /// Whether a packet, by its bytes, is no responder's of the list.
    fn is_strange(&self, packet: &Packet) -> bool {
        !self.sent.contains(packet)
    }

    /// Before an entry at this time.
    fn wait_until(&mut self, time: u64) {
        for wanted in &self.names {
            let longest = match wanted.deferred {
                true => &mut self.counts.longest_deferred,
                false => &mut self.counts.longest,
            };
            if !wanted.held && !wanted.disturbed {
                *longest = (time - wanted.since).max(*longest);
            }
        }
    }

    pub fn counts(&self) -> Counts {
        let judged = self.counts.asked > 0;
        let whole = self.names.iter().all(|wanted| !wanted.disturbed);
        Counts {
            lists: u64::from(judged),
            left_alone: u64::from(judged && whole),
            ..self.counts.clone()
        }
    }
}

impl Judge {
    /// Before an entry at this time: a name that is left alone, whose holder's time has come, and nobody holds it.
    pub fn nobody_holds(&mut self, time: u64) -> Option<Violation> {
        self.contention.wait_until(time);
        let mut due = Vec::new();
        for (number, responder) in self.responders.iter_mut().enumerate() {
            for claim in &mut responder.claims {
                let since_start = claim.started + HOLDING_TIME;
                let since_later = claim.later.map_or(0, |later| later + AFTER_LATER);
                if claim.answered || time <= since_start.max(since_later) {
                    continue;
                }
                claim.answered = true;
                if self.contention.is_left_alone(&claim.name) {
                    due.push((number, claim.name.clone(), claim.later.is_some()));
                }
            }
        }
        let mut found = None;
        for (number, name, later) in due {
            let all = self.responders.iter();
            let wanting = all.flat_map(|responder| &responder.claims);
            let wanting: Vec<_> = wanting.filter(|claim| claim.name.equals(&name)).collect();
            let counts = &mut self.contention.counts;
            counts.asked += 1;
            counts.contended += u64::from(wanting.len() > 1);
            counts.deferred += u64::from(later);
            if !wanting.iter().any(|claim| claim.holds) {
                found = Some(Violation::Unheld {
                    name: text_of(&name),
                    responder: number,
                    later,
                });
            }
        }
        found
    }

    /// Before a packet is judged as heard: what of it strangers did, and whether one who holds a name that is left alone hears a
    /// conflicting response, of another of the list.
    pub fn gives_up(
        &mut self,
        responder: usize,
        packet: &Packet,
        message: &Message,
    ) -> Option<Violation> {
        let mut found = None;
        for claim in &self.responders[responder].claims {
            if claim.is_later(message) && self.contention.is_strange(packet) {
                self.contention.defer(&claim.name);
            }
            if !claim.conflicts(message) {
                continue;
            }
            if self.contention.is_strange(packet) {
                self.contention.disturb(&claim.name);
            } else if claim.holds && self.contention.is_left_alone(&claim.name) {
                found = Some(Violation::GivenUp {
                    name: text_of(&claim.name),
                    responder,
                });
            }
        }
        found
    }

    /// One who holds a name that is left alone hears a probe for it, with no known answers, and did not speak for it within 250 ms.
    pub fn challenge(&mut self, time: u64, responder: usize, message: &Message) {
        let known = message.section(Section::Answer).next().is_some();
        for claim in &mut self.responders[responder].claims {
            let spoke = claim.multicast.is_some_and(|at| time < at + DEFENCE_GAP);
            if claim.holds
                && claim.is_probe(message)
                && !known
                && !spoke
                && self.contention.is_left_alone(&claim.name)
            {
                claim.challenged = true;
                self.contention.counts.challenged += 1;
            }
        }
    }

    /// A packet that was written, to all or by unicast, and read.
    pub fn speak(&mut self, time: u64, responder: usize, message: &Message, to_all: bool) {
        for claim in &mut self.responders[responder].claims {
            if claim.is_answered_by(message) {
                claim.challenged = false;
                if to_all {
                    claim.multicast = Some(time);
                }
            }
        }
    }

    /// After a call: one who had to answer a probe did not.
    pub fn undefended(&mut self) -> Option<Violation> {
        let mut found = None;
        for (responder, running) in self.responders.iter_mut().enumerate() {
            for claim in &mut running.claims {
                if std::mem::take(&mut claim.challenged) {
                    let name = text_of(&claim.name);
                    found = Some(Violation::GivenUp { name, responder });
                }
            }
        }
        found
    }

    /// One who holds a name that is left alone writes a probe for it: it holds it no longer, though nothing took it away.
    pub fn probes_again(&mut self, responder: usize, message: &Message) -> Option<Violation> {
        let mut found = None;
        for claim in &self.responders[responder].claims {
            if claim.holds && claim.is_probe(message) && self.contention.is_left_alone(&claim.name)
            {
                found = Some(Violation::GivenUp {
                    name: text_of(&claim.name),
                    responder,
                });
            }
        }
        found
    }
}

#[cfg(test)]
mod tests {
    use super::super::tests::{announcement, host_probe, plain, setup};
    use super::*;
    use reference::responder::Change;
    use reference::setup::Setup;

    /// An announcement's bytes stand for themselves here.
    fn packet(number: u8) -> Packet {
        vec![number].into()
    }

    fn later() -> Setup {
        setup("dock", [10, 0, 0, 8], None)
    }

    /// Two who want both names from 0 on, the second with later records of the host's.
    fn two() -> Judge {
        let mut judge = Judge::default();
        judge.start(0, &plain());
        judge.start(0, &later());
        judge
    }

    fn unheld(judge: &mut Judge, time: u64) -> Vec<String> {
        let found = judge.nobody_holds(time);
        let words = found.into_iter().map(|violation| violation.to_string());
        words.collect()
    }

    #[test]
    fn a_wanted_name_is_held_after_1200_ms_by_someone() {
        assert!(unheld(&mut two(), 1200).is_empty());
        let words = &unheld(&mut two(), 1201)[0];
        assert!(
            words.starts_with("nobody holds dock.local 1,200 ms"),
            "{words}"
        );
        let mut judge = two();
        judge.write(0, &announcement(&plain()));
        assert!(unheld(&mut judge, 1201).is_empty());
        let counts = judge.contentions();
        assert_eq!((counts.lists, counts.left_alone), (1, 1));
        assert_eq!((counts.asked, counts.contended, counts.deferred), (4, 4, 0));
    }

    #[test]
    fn a_later_probe_gives_1950_ms_more() {
        let theirs = host_probe(&later());
        for (heard, time, found) in [(900, 2850, false), (900, 2851, true), (0, 1951, true)] {
            let mut judge = Judge::default();
            judge.start(0, &plain());
            // the instance name is held
            judge
                .contention
                .disturb(&judge.responders[0].claims[0].name);
            judge.hear(heard, 0, &theirs);
            assert_eq!(
                !unheld(&mut judge, time).is_empty(),
                found,
                "{heard} {time}"
            );
        }
        // and one that is not later none
        let mut judge = Judge::default();
        judge.start(0, &later());
        judge.hear(900, 0, &host_probe(&plain()));
        assert!(!unheld(&mut judge, 1201).is_empty());
    }

    #[test]
    fn what_leaves_a_name_not_alone() {
        let disturbances: [fn(&mut Judge); 3] = [
            |judge| judge.end(1),
            |judge| {
                judge.end(0);
                judge.update(7, 1, &Change::Port(80));
            },
            |judge| {
                judge.gives_up(0, &packet(1), &announcement(&later()));
                judge.end(1);
            },
        ];
        for disturb in disturbances {
            let mut judge = two();
            disturb(&mut judge);
            assert!(unheld(&mut judge, 5000).is_empty());
            assert_eq!(judge.contentions().lists, 0);
        }
        // an update leaves the host name alone
        let mut judge = two();
        judge.update(7, 1, &Change::Port(80));
        assert_eq!(unheld(&mut judge, 1201).len(), 1);
        assert_eq!(judge.contentions().left_alone, 0);
    }

    #[test]
    fn a_holder_keeps_its_name() {
        let mut judge = two();
        judge.write(0, &announcement(&plain()));
        assert_eq!(judge.probes_again(1, &host_probe(&later())), None);
        assert!(judge.probes_again(0, &host_probe(&plain())).is_some());
        // it hears what another of the list sent
        judge.send(1, &packet(1));
        assert!(judge
            .gives_up(0, &packet(1), &announcement(&later()))
            .is_some());
        assert_eq!(judge.gives_up(0, &packet(1), &announcement(&plain())), None);
        // or a stranger, and gives it up
        assert_eq!(judge.gives_up(0, &packet(2), &announcement(&later())), None);
        assert_eq!(judge.probes_again(0, &host_probe(&plain())), None);
    }

    #[test]
    fn a_holder_answers_who_probes_for_its_name() {
        let theirs = host_probe(&later());
        let said = announcement(&plain());
        for (spoke, to_all, found) in [(750, true, true), (751, true, false), (751, false, true)] {
            let mut judge = two();
            judge.write(0, &said);
            judge.speak(spoke, 0, &said, to_all);
            judge.challenge(1000, 0, &theirs);
            assert_eq!(judge.undefended().is_some(), found, "{spoke}");
            assert_eq!(judge.undefended(), None);
            // answered, by unicast too
            judge.challenge(1000, 0, &theirs);
            judge.speak(1000, 0, &said, false);
            assert_eq!(judge.undefended(), None);
        }
        // one that does not hold it need not
        let mut judge = two();
        judge.challenge(1000, 0, &theirs);
        assert_eq!(judge.undefended(), None);
    }

    #[test]
    fn the_longest_time_without_a_holder() {
        let mut judge = two();
        judge.nobody_holds(700);
        judge.gives_up(0, &packet(1), &host_probe(&later()));
        judge.nobody_holds(900);
        judge.write(0, &announcement(&plain()));
        judge.nobody_holds(1000);
        let counts = judge.contentions();
        assert_eq!((counts.longest, counts.longest_deferred), (900, 900));
        assert_eq!(judge.contention.names.len(), 2);
    }
}
