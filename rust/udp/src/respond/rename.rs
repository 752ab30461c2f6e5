//! Other names where one is lost, and the pace at which they are tried (RFC 6762 sections 8.1 and 9).

/// The most bytes of a label.
const MOST_LABEL: usize = 63;
/// So many conflicts within so many milliseconds are too many; from then on so long a wait comes before each try.
const TOO_MANY: usize = 15;
const WITHIN: u64 = 10_000;
const WAIT: u64 = 5000;
/// Who has found no name for so long tells it.
const LONG: u64 = 60_000;

#[derive(Clone, Copy, Debug, PartialEq, Eq)]
pub enum Kind {
    Instance,
    Host,
}

/// The name to try at the time of this number, from 1 on: as it was given, then 'booth (2)', 'booth (3)' of an instance and 'dock-2', 'dock-3' of a host. What was
/// given is cut between two characters, so that the label fits.
pub fn label(given: &str, kind: Kind, number: u32) -> String {
    if number < 2 {
        return given.to_string();
    }
    let suffix = match kind {
        Kind::Instance => format!(" ({number})"),
        Kind::Host => format!("-{number}"),
    };
    let mut end = given.len().min(MOST_LABEL - suffix.len());
    while !given.is_char_boundary(end) {
        end -= 1;
    }
    format!("{}{suffix}", &given[..end])
}

/// The conflicts that one link has seen, and how soon a name may be tried again.
#[derive(Clone, Debug, Default)]
pub struct Conflicts {
    /// When the last of them were, at most `TOO_MANY`.
    last: Vec<u64>,
    /// Whether there were too many since a name was held.
    are_many: bool,
    /// When the first was since a name was held, until it is told that none is found.
    since: Option<u64>,
    is_told: bool,
}

impl Conflicts {
    pub fn add(&mut self, now: u64) {
        self.last.push(now);
        if self.last.len() > TOO_MANY {
            self.last.remove(0);
        }
        let is_full = self.last.len() == TOO_MANY;
        self.are_many |= is_full && now - self.last[0] <= WITHIN;
        self.since.get_or_insert(now);
    }

    /// Both names are held.
    pub fn settle(&mut self) {
        (self.are_many, self.since, self.is_told) = (false, None, false);
    }

    /// When the next try may begin.
    pub fn next_try(&self, now: u64) -> u64 {
        if self.are_many {
            now + WAIT
        } else {
            now
        }
    }

    /// Whether it is to be told now that no name was found for a minute.
    pub fn is_to_tell(&mut self, now: u64) -> bool {
        let is_long = self.since.is_some_and(|since| now - since >= LONG);
        is_long && !std::mem::replace(&mut self.is_told, is_long)
    }
}

#[cfg(test)]
mod tests {
    use super::*;

    #[test]
    fn names_in_turn() {
        for (kind, number, expected) in [
            (Kind::Instance, 1, "Booth 3"),
            (Kind::Instance, 2, "Booth 3 (2)"),
            (Kind::Instance, 10, "Booth 3 (10)"),
            (Kind::Host, 1, "Booth 3"),
            (Kind::Host, 2, "Booth 3-2"),
        ] {
            assert_eq!(label("Booth 3", kind, number), expected);
        }
    }

    #[test]
    fn a_long_name_is_cut_between_characters() {
        let ascii = "x".repeat(63);
        assert_eq!(label(&ascii, Kind::Instance, 1), ascii);
        assert_eq!(
            label(&ascii, Kind::Instance, 2),
            format!("{} (2)", &ascii[..59])
        );
        assert_eq!(
            label(&ascii, Kind::Host, 12),
            format!("{}-12", &ascii[..60])
        );
        // two bytes each, 62 in all: of 59 bytes 58 make whole characters
        let wide = "ä".repeat(31);
        assert_eq!(
            label(&wide, Kind::Instance, 2),
            format!("{} (2)", "ä".repeat(29))
        );
        for number in [2, 9, 10, 99, 100, u32::MAX] {
            for given in ["a", &ascii, &wide, &"𝄞".repeat(15)] {
                for kind in [Kind::Instance, Kind::Host] {
                    let label = label(given, kind, number);
                    assert!(label.len() <= MOST_LABEL && label.len() > given.len().min(40));
                }
            }
        }
    }

    #[test]
    fn fifteen_conflicts_in_ten_seconds() {
        let mut conflicts = Conflicts::default();
        for turn in 0..14 {
            conflicts.add(turn * 100);
        }
        assert_eq!(conflicts.next_try(1400), 1400);
        conflicts.add(10_000);
        assert_eq!(conflicts.next_try(10_000), 15_000);
        // and before each that follows, until a name is held
        conflicts.add(30_000);
        assert_eq!(conflicts.next_try(30_000), 35_000);
        conflicts.settle();
        assert_eq!(conflicts.next_try(30_000), 30_000);
        conflicts.add(40_000);
        assert_eq!(conflicts.next_try(40_000), 40_000);
    }

    #[test]
    fn fifteen_in_more_than_ten_seconds() {
        let mut conflicts = Conflicts::default();
        for turn in 0..100 {
            conflicts.add(turn * 715);
            assert_eq!(conflicts.next_try(0), 0);
        }
        let mut conflicts = Conflicts::default();
        for turn in 0..15 {
            conflicts.add(turn * 714);
        }
        assert_eq!(conflicts.next_try(0), WAIT);
    }

    #[test]
    fn a_minute_without_a_name_is_told_once() {
        let mut conflicts = Conflicts::default();
        assert!(!conflicts.is_to_tell(90_000));
        conflicts.add(1000);
        conflicts.add(50_000);
        assert!(!conflicts.is_to_tell(60_999));
        assert!(conflicts.is_to_tell(61_000));
        assert!(!conflicts.is_to_tell(62_000));
        conflicts.settle();
        conflicts.add(70_000);
        assert!(conflicts.is_to_tell(130_000));
    }
}
