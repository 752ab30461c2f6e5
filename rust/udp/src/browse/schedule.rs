//! When to ask: after a delay, then after a second and after gaps that at least double, up to an hour, for as long as the answer is wanted (RFC 6762 section
//! 5.2). What is wanted meanwhile goes along with the first, and what is asked again waits for others, so that the questions about many instances take few
//! packets.

use std::collections::{BTreeMap, BTreeSet};

use super::wants::Want;

const FIRST_GAP: u64 = 1000;
const MOST_GAP: u64 = 3_600_000;
/// The longest that a question which is asked again waits for others.
const MOST_WAIT: u64 = 60_000;

pub struct Schedule {
    /// How long a new question waits for others, in milliseconds.
    delay: u64,
    turns: BTreeMap<Want, Turn>,
}

/// When a question may be asked, and when it was asked last.
struct Turn {
    due: u64,
    asked: Option<u64>,
}

impl Schedule {
    /// With a delay that is drawn, 20 to 120 ms.
    pub fn new(delay: u64) -> Schedule {
        let turns = BTreeMap::new();
        Schedule { delay, turns }
    }

    /// What is wanted and may be asked now, and with it what waits to be asked for the first time. What is no longer wanted starts over when it is wanted
    /// again.
    pub fn due(&mut self, now: u64, wants: Vec<Want>) -> Vec<Want> {
        let wanted: BTreeSet<Want> = wants.into_iter().collect();
        self.turns.retain(|want, _| wanted.contains(want));
        for want in wanted {
            self.turns.entry(want).or_insert(Turn {
                due: now + self.delay,
                asked: None,
            });
        }
        let is_time = self.next().is_some_and(|next| next <= now);
        if !is_time {
            return Vec::new();
        }
        let may_go = |turn: &Turn| turn.due <= now || turn.asked.is_none();
        let due = self.turns.iter().filter(|(_, turn)| may_go(turn));
        due.map(|(want, _)| want.clone()).collect()
    }

    /// When the next may be asked.
    pub fn next(&self) -> Option<u64> {
        self.turns.values().map(|turn| turn.due).min()
    }

    pub fn mark_asked(&mut self, now: u64, want: &Want) {
        if let Some(turn) = self.turns.get_mut(want) {
            let gap = turn.asked.map_or(FIRST_GAP, |asked| 2 * (now - asked));
            turn.due = shared(now + gap.min(MOST_GAP), gap);
            turn.asked = Some(now);
        }
    }
}

/// The next time of those that questions of about this gap share: an eighth to a quarter of it apart.
fn shared(time: u64, gap: u64) -> u64 {
    let doublings = (gap / FIRST_GAP).max(1).ilog2();
    let apart = (FIRST_GAP / 4) << doublings;
    time.next_multiple_of(apart.min(MOST_WAIT))
}

#[cfg(test)]
mod tests {
    use super::super::wants::Reason;
    use super::*;
    use crate::query::Question;

    fn want(rtype: u16) -> Want {
        Want {
            question: Question {
                name: vec![0],
                rtype,
            },
            reason: Reason::Missing,
        }
    }

    /// The times at which it asks, until `end`.
    fn times(schedule: &mut Schedule, end: u64) -> Vec<u64> {
        let mut times = Vec::new();
        for now in (0..end).step_by(10) {
            for want in schedule.due(now, vec![want(1)]) {
                schedule.mark_asked(now, &want);
                times.push(now);
            }
        }
        times
    }

    #[test]
    fn gaps_at_least_double() {
        let mut schedule = Schedule::new(50);
        assert_eq!(times(&mut schedule, 16_000), [50, 1250, 4000, 10_000]);
        assert_eq!(schedule.next(), Some(22_000));
        let asked = times(&mut Schedule::new(120), 3_600_000);
        let gaps: Vec<_> = asked.windows(2).map(|pair| pair[1] - pair[0]).collect();
        assert!(gaps.len() > 8 && gaps[0] >= 1000, "{gaps:?}");
        assert!(gaps.windows(2).all(|pair| pair[1] >= 2 * pair[0]));
    }

    #[test]
    fn gaps_end_at_an_hour() {
        let mut schedule = Schedule::new(50);
        let asked = times(&mut schedule, 20_000_000);
        let last = &asked[asked.len() - 2..];
        let gap = last[1] - last[0];
        assert!((MOST_GAP..MOST_GAP + MOST_WAIT).contains(&gap), "{gap}");
    }

    #[test]
    fn those_asked_at_about_one_time_are_asked_again_together() {
        let mut schedule = Schedule::new(20);
        let both = vec![want(1), want(2)];
        for (now, wants) in [(0, vec![want(1)]), (20, vec![want(1)]), (120, both.clone())] {
            for want in schedule.due(now, wants) {
                schedule.mark_asked(now, &want);
            }
        }
        assert_eq!(schedule.due(140, both.clone()), [want(2)]);
        schedule.mark_asked(140, &want(2));
        assert_eq!(schedule.due(1249, both.clone()), []);
        assert_eq!(schedule.due(1250, both.clone()), both);
    }

    #[test]
    fn what_was_not_wanted_starts_over() {
        let mut schedule = Schedule::new(50);
        assert_eq!(times(&mut schedule, 1300), [50, 1250]);
        assert!(schedule.due(1500, vec![want(1)]).is_empty());
        assert!(schedule.due(1501, vec![]).is_empty());
        assert!(schedule.due(1502, vec![want(1)]).is_empty());
        assert_eq!(schedule.due(1552, vec![want(1)]), [want(1)]);
    }

    #[test]
    fn new_ones_go_along_with_the_first() {
        let mut schedule = Schedule::new(50);
        assert!(schedule.due(0, vec![want(1)]).is_empty());
        assert!(schedule.due(49, vec![want(1), want(2)]).is_empty());
        let both = vec![want(1), want(2)];
        assert_eq!(schedule.due(50, both.clone()), both);
        // those that did not fit the packet are due still
        schedule.mark_asked(50, &want(1));
        assert_eq!(schedule.due(98, both.clone()), []);
        assert_eq!(schedule.due(99, both), [want(2)]);
    }
}
