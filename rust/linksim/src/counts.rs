//! What the lists came to, so that a run in which nothing happens would show.

use std::fmt;

use crate::console::State;
use crate::judge::Contentions;

#[derive(Clone, Debug, Default)]
pub struct Counts {
    pub lists: u64,
    pub entries: u64,
    /// Groups that were joined, with so many pairs of holders then, and pairs of which one heard the other since.
    pub joined: u64,
    pub pairs: u64,
    pub met: u64,
    /// Entries of the longest list.
    pub longest: u64,
    pub starts: u64,
    pub cuts: u64,
    pub stops: u64,
    pub updates: u64,
    /// Entries at which two held one name with different data, in the 100 ms after an update.
    pub excused: u64,
    pub refused: u64,
    pub sent: u64,
    /// Truncated queries that came to be held.
    pub truncated: u64,
    /// Answers by unicast to port 5353.
    pub unicast: u64,
    /// Replies to plain resolvers.
    pub replied: u64,
    pub heard: u64,
    /// Holdings that began: a response written under a name that was not held.
    pub held: u64,
    /// Held claims that went back to waiting.
    pub given_up: u64,
    pub lost: u64,
    pub deferred: u64,
    /// Claims of which the 1,200 ms were asked.
    pub asked: u64,
    pub contentions: Contentions,
}

impl Counts {
    /// Adds the counts of one list.
    pub fn add(&mut self, other: &Counts) {
        self.lists += other.lists;
        self.entries += other.entries;
        self.longest = self.longest.max(other.entries);
        self.joined += other.joined;
        self.pairs += other.pairs;
        self.met += other.met;
        self.starts += other.starts;
        self.cuts += other.cuts;
        self.stops += other.stops;
        self.updates += other.updates;
        self.excused += other.excused;
        self.refused += other.refused;
        self.sent += other.sent;
        self.truncated += other.truncated;
        self.unicast += other.unicast;
        self.replied += other.replied;
        self.heard += other.heard;
        self.held += other.held;
        self.given_up += other.given_up;
        self.lost += other.lost;
        self.deferred += other.deferred;
        self.asked += other.asked;
        self.contentions.add(&other.contentions);
    }

    pub fn turn(&mut self, before: State, after: State) {
        match (before, after) {
            (State::Held, State::Waiting) => self.given_up += 1,
            (State::Lost, _) | (State::Deferred, State::Deferred) => (),
            (_, State::Lost) => self.lost += 1,
            (_, State::Deferred) => self.deferred += 1,
            _ => (),
        }
    }
}

impl fmt::Display for Counts {
    fn fmt(&self, f: &mut fmt::Formatter) -> fmt::Result {
        let Counts {
            lists,
            entries,
            joined,
            pairs,
            met,
            longest,
            starts,
            cuts,
            stops,
            updates,
            excused,
            refused,
            sent,
            truncated,
            unicast,
            replied,
            heard,
            held,
            given_up,
            lost,
            deferred,
            asked,
            contentions,
        } = self;
        writeln!(
            f,
            "{lists} lists of {entries} entries, the longest of {longest}; {joined} of groups that are joined, with {pairs} pairs of holders then, and {met} pairs of which one heard the other since"
        )?;
        writeln!(
            f,
            "{starts} responders started, {cuts} cut, {stops} stopped; {updates} updates, {excused} times with two holders in the 100 ms after one; {refused} calls refused; {sent} packets sent, {heard} heard, {truncated} of them held back, {unicast} answered by unicast, {replied} of plain resolvers"
        )?;
        writeln!(
            f,
            "{held} times a name came to be held, {given_up} given up; {lost} claims lost, {deferred} deferred; the 1,200 ms asked of {asked} claims"
        )?;
        write!(f, "{contentions}")
    }
}
