//! Who held which name, and when: intervals of several devices on one clock, and what they say of each other.

use std::collections::BTreeMap;

/// A time during which a device held a name, on the common clock, in milliseconds: from its first moment up to its last, which is no longer in it.
#[derive(Clone, Debug, PartialEq, Eq, PartialOrd, Ord)]
pub struct Span {
    pub from: u64,
    pub to: u64,
    pub device: String,
    /// It ends where its recording ends, and not by what was recorded.
    pub is_open: bool,
}

/// What happened to a device at one moment.
#[derive(Clone, Copy, Debug, PartialEq, Eq, PartialOrd, Ord)]
pub enum Event {
    /// It started; again, where it had before.
    Started,
    Restarted,
    /// It lost the name.
    Lost,
    /// The recording says of a claim what the replay does not.
    Contradicted,
}

#[derive(Clone, Debug, PartialEq, Eq, PartialOrd, Ord)]
pub struct Mark {
    pub at: u64,
    pub device: String,
    pub event: Event,
}

/// All that is known of one name.
#[derive(Clone, Debug, Default, PartialEq, Eq)]
pub struct Row {
    pub spans: Vec<Span>,
    pub marks: Vec<Mark>,
}

/// The names, each by its first spelling, equal with letters folded.
#[derive(Clone, Debug, Default, PartialEq, Eq)]
pub struct Timeline {
    pub rows: BTreeMap<String, Row>,
}

/// Two devices that held one name at once.
#[derive(Clone, Debug, PartialEq, Eq)]
pub struct Overlap {
    pub from: u64,
    pub to: u64,
    pub devices: [String; 2],
}

impl Timeline {
    /// The row of a name.
    pub fn row(&mut self, name: &str) -> &mut Row {
        let known = self
            .rows
            .keys()
            .find(|known| known.eq_ignore_ascii_case(name));
        let key = known.map_or(name, String::as_str).to_string();
        self.rows.entry(key).or_default()
    }

    /// Puts everything into the order of time.
    pub fn sort(&mut self) {
        for row in self.rows.values_mut() {
            row.spans.sort();
            row.marks.sort();
        }
    }

    /// The first and the last moment of all.
    pub fn bounds(&self) -> Option<(u64, u64)> {
        let rows = self.rows.values();
        let times = rows.flat_map(|row| {
            let spans = row.spans.iter().flat_map(|span| [span.from, span.to]);
            spans.chain(row.marks.iter().map(|mark| mark.at))
        });
        times.fold(None, |bounds, time| {
            let (first, last) = bounds.unwrap_or((time, time));
            Some((first.min(time), last.max(time)))
        })
    }

    /// The devices, in the order of their names.
    pub fn devices(&self) -> Vec<&str> {
        let rows = self.rows.values();
        let mut devices: Vec<&str> = rows
            .flat_map(|row| {
                let spans = row.spans.iter().map(|span| &span.device[..]);
                spans.chain(row.marks.iter().map(|mark| &mark.device[..]))
            })
            .collect();
        devices.sort_unstable();
        devices.dedup();
        devices
    }
}

impl Row {
    /// Who held the name at a moment.
    pub fn holders(&self, at: u64) -> Vec<&str> {
        let spans = self.spans.iter();
        let mut holders: Vec<&str> = spans
            .filter(|span| span.from <= at && at < span.to)
            .map(|span| &span.device[..])
            .collect();
        holders.dedup();
        holders
    }

    /// Where two held it at once.
    pub fn overlaps(&self) -> Vec<Overlap> {
        let mut overlaps = Vec::new();
        for (n, one) in self.spans.iter().enumerate() {
            for other in &self.spans[n + 1..] {
                let (from, to) = (one.from.max(other.from), one.to.min(other.to));
                if from < to && one.device != other.device {
                    let devices = [one.device.clone(), other.device.clone()];
                    overlaps.push(Overlap { from, to, devices });
                }
            }
        }
        overlaps
    }
}

#[cfg(test)]
pub mod tests {
    use super::*;

    pub fn span(device: &str, from: u64, to: u64) -> Span {
        Span {
            from,
            to,
            device: device.into(),
            is_open: false,
        }
    }

    #[test]
    fn names_are_equal_with_letters_folded() {
        let mut timeline = Timeline::default();
        timeline.row("Booth.local").spans.push(span("one", 5, 9));
        timeline.row("BOOTH.local").spans.push(span("two", 1, 4));
        timeline.sort();
        assert_eq!(timeline.rows.len(), 1);
        assert_eq!(timeline.rows["Booth.local"].spans[0].device, "two");
        assert_eq!(timeline.bounds(), Some((1, 9)));
        assert_eq!(timeline.devices(), ["one", "two"]);
    }

    #[test]
    fn who_held_it() {
        let row = Row {
            spans: vec![span("one", 10, 20), span("two", 20, 30)],
            marks: Vec::new(),
        };
        assert_eq!(row.holders(9), [""; 0]);
        assert_eq!(row.holders(10), ["one"]);
        assert_eq!(row.holders(20), ["two"]);
        assert_eq!(row.holders(30), [""; 0]);
        assert!(row.overlaps().is_empty());
    }

    #[test]
    fn two_at_once_are_seen() {
        let row = Row {
            spans: vec![
                span("one", 10, 20),
                span("one", 19, 25),
                span("two", 19, 30),
            ],
            marks: Vec::new(),
        };
        let overlaps: Vec<_> = row.overlaps().iter().map(|o| (o.from, o.to)).collect();
        assert_eq!(overlaps, [(19, 20), (19, 25)]);
    }
}
