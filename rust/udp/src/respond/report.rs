//! One line for each change of a claim.

use kurgashel::{Claim, Responder};

use super::options::Options;
use crate::name;

/// The claims of the instance's name and of the host's.
pub type Claims = [Claim; 2];

pub fn claims(responder: &Responder) -> Claims {
    [responder.instance(), responder.host()]
}

pub fn all_lost(claims: Claims) -> bool {
    claims == [Claim::Lost; 2]
}

/// The two names as text, and how their claims stood when last told of.
pub struct Report {
    /// What a line begins with, where there are several interfaces.
    mark: String,
    names: [String; 2],
    told: [Option<Claim>; 2],
}

/// Of a claim that stood in one way and now in another: whether a conflict was met (RFC 6762 sections 8.1 and 9).
fn is_conflict(before: Option<Claim>, now: Claim) -> bool {
    match now {
        Claim::Lost => before != Some(Claim::Lost),
        Claim::Waiting => before == Some(Claim::Held),
        _ => false,
    }
}

impl Report {
    /// Of the labels of the instance and of the host.
    pub fn new(options: &Options, labels: &[String; 2], mark: String) -> Report {
        let [instance, host] = labels.each_ref().map(|label| label.as_bytes());
        let instance: [&[u8]; 4] = [
            instance,
            options.service.as_bytes(),
            options.protocol.as_bytes(),
            b"local",
        ];
        let host: [&[u8]; 2] = [host, b"local"];
        let text = |labels: &[&[u8]]| name::text(&name::from_labels(labels));
        Report {
            mark,
            names: [text(&instance), text(&host)],
            told: [None; 2],
        }
    }

    pub fn mark(&self) -> &str {
        &self.mark
    }

    /// How both stand, in one line.
    pub fn summary(&self) -> String {
        let of = |at: usize| {
            let word = self.told[at].map_or("not begun", |claim| claim.word());
            format!("{} {word}", self.names[at])
        };
        format!("{}{}, {}", self.mark, of(0), of(1))
    }

    /// How many of the claims met a conflict since the last time.
    pub fn conflicts(&self, claims: Claims) -> usize {
        let both = self.told.iter().zip(claims);
        both.filter(|(before, now)| is_conflict(**before, *now))
            .count()
    }

    /// The lines for what changed since the last time.
    pub fn changes(&mut self, now: u64, claims: Claims) -> Vec<String> {
        let mut lines = Vec::new();
        for ((name, told), claim) in self.names.iter().zip(&mut self.told).zip(claims) {
            if told.replace(claim) != Some(claim) {
                let mark = &self.mark;
                lines.push(format!("{mark}{now:6} ms  {:8}  {name}", claim.word()));
            }
        }
        lines
    }
}

#[cfg(test)]
mod tests {
    use super::*;

    #[test]
    fn only_changes_are_told() {
        let options = Options {
            instance: "booth".into(),
            service: "_voice".into(),
            protocol: "_tcp".into(),
            host: "dock".into(),
            ..Options::default()
        };
        let labels = ["booth".to_string(), "dock".to_string()];
        let mut report = Report::new(&options, &labels, String::new());
        assert_eq!(
            report.changes(0, [Claim::Waiting; 2]),
            [
                "     0 ms  waiting   booth._voice._tcp.local",
                "     0 ms  waiting   dock.local"
            ]
        );
        assert!(report.changes(9, [Claim::Waiting; 2]).is_empty());
        assert_eq!(
            report.changes(70, [Claim::Waiting, Claim::Lost]),
            ["    70 ms  lost      dock.local"]
        );
        assert!(!all_lost([Claim::Waiting, Claim::Lost]));
        assert!(all_lost([Claim::Lost; 2]));
    }

    #[test]
    fn conflicts_are_counted() {
        use Claim::{Deferred, Held, Lost, Probing, Waiting};
        for (before, now, is_met) in [
            (None, Waiting, false),
            (Some(Probing), Lost, true),
            (Some(Lost), Lost, false),
            (Some(Held), Waiting, true),
            (Some(Probing), Waiting, false),
            (Some(Probing), Deferred, false),
            (Some(Probing), Held, false),
        ] {
            assert_eq!(is_conflict(before, now), is_met, "{before:?} {now:?}");
        }
    }
}
