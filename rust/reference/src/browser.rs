//! A browser that keeps looking: the continuous queries of RFC 6762, section
//! 5.2, for one service name, and the list of what the cache knows of it.

#[cfg(test)]
mod tests;

use crate::cache::{Cache, Entry};
use crate::compose::{self, KnownAnswer, Query};
use crate::name::Name;
use crate::refusal::Refusal;
use crate::responder::{check_out, write, Sent, MOST_KEPT_TIME};
use crate::setup::is_service_name;
use crate::{rtype, MOST_TIME};

const LEAST_DRAW: u64 = 20;
const MOST_DRAW: u64 = 120;
const MOST_REFRESH_DRAW: u64 = 20;

/// "gaps of 1 s from its sending, doubled each time, up to 60 minutes"
const FIRST_GAP: u64 = 1000;
const MOST_GAP: u64 = 3_600_000;
/// "80, 85, 90 or 95 percent", in thousandths.
const REFRESHES: [u64; 4] = [800, 850, 900, 950];

#[derive(Clone, Debug, Default)]
pub struct Browser {
    pub service: Vec<u8>,
    pub protocol: Vec<u8>,
    pub domain: Vec<u8>,
    /// For the first query, in ms.
    pub draw: u64,
    /// Behind the percentages, in thousandths.
    pub refresh_draw: u64,
    pub started: u64,
    /// The time of the last call that was not refused.
    pub last: u64,
    pub series: Option<Series>,
    /// When the last query of the series or for a refresh was sent.
    pub asked: Option<u64>,
    /// The entry from which on a truncated query still owes known answers.
    pub owed: Option<usize>,
}

/// The queries by rising gaps, after the first one.
#[derive(Clone, Copy, Debug, PartialEq, Eq)]
pub struct Series {
    /// When the last one was sent.
    pub sent: u64,
    /// The gap to the next one.
    pub gap: u64,
}

impl Browser {
    /// Refusals 1, 2 and 7, "as in setup".
    pub fn start(
        now: u64,
        draw: u64,
        refresh_draw: u64,
        [service, protocol, domain]: [Vec<u8>; 3],
    ) -> Result<Browser, Refusal> {
        if now > MOST_TIME {
            return Err(Refusal::Time);
        }
        let browser = Browser {
            service,
            protocol,
            domain,
            draw,
            refresh_draw,
            started: now,
            last: now,
            ..Browser::default()
        };
        if !browser.has_legal_draws() {
            return Err(Refusal::Draw);
        }
        if !browser.has_legal_labels() {
            return Err(Refusal::Setup);
        }
        Ok(browser)
    }

    fn has_legal_draws(&self) -> bool {
        (LEAST_DRAW..=MOST_DRAW).contains(&self.draw) && self.refresh_draw <= MOST_REFRESH_DRAW
    }

    fn has_legal_labels(&self) -> bool {
        is_service_name(&self.service, &self.protocol, &self.domain)
    }

    fn name(&self) -> Name {
        Name::from_labels(&[&self.service, &self.protocol, &self.domain])
    }

    /// Refusal 1: "time above 2^62, before the browser's last time or an entry's
    /// received time, a kept time above 2^62 + 2,000".
    fn check_time(&self, now: u64, cache: &Cache) -> Result<(), Refusal> {
        let series = self.series.map(|series| series.sent);
        let kept = [self.started, self.last].into_iter();
        let mut kept = kept.chain(series).chain(self.asked);
        if now < self.last || kept.any(|time| time > MOST_KEPT_TIME) {
            return Err(Refusal::Time);
        }
        cache.check_time(now)
    }

    /// Refusal 7: "Draws outside are refusal 2, kept ones 7."
    fn check_kept(&self) -> Result<(), Refusal> {
        match self.has_legal_draws() && self.has_legal_labels() {
            true => Ok(()),
            false => Err(Refusal::Setup),
        }
    }

    /// First what a truncated query still owes, "with no question"; then a query,
    /// if one is due. One packet a tick.
    pub fn tick(
        &mut self,
        now: u64,
        cache: &Cache,
        out: &mut [u8],
    ) -> Result<Option<Sent>, Refusal> {
        self.check_time(now, cache)?;
        check_out(out)?;
        cache.check_sizes()?;
        self.check_kept()?;

        self.last = now;
        let packet = match self.rest(now, cache) {
            Some(rest) => Some(rest),
            None => self.query(now, cache),
        };
        Ok(packet.map(|packet| {
            let rest = self.owed.is_some_and(|from| {
                let mut left = self.known_answers(now, cache, from);
                left.next().is_some()
            });
            Sent {
                length: write(&packet, out),
                more: rest || self.is_due(now, cache),
            }
        }))
    }

    /// "the next tick sends, with no question, the rest from that entry on as it
    /// then is, if any, and so on"
    fn rest(&mut self, now: u64, cache: &Cache) -> Option<Vec<u8>> {
        let from = self.owed.take()?;
        let known: Vec<KnownAnswer> = self.known_answers(now, cache, from).collect();
        if known.is_empty() {
            return None;
        }
        let Query { packet, stopped } = compose::query(None, &known);
        self.owed = stopped;
        Some(packet)
    }

    /// "If both are due, one serves.", and it is of the series.
    fn query(&mut self, now: u64, cache: &Cache) -> Option<Vec<u8>> {
        if !self.is_due(now, cache) {
            return None;
        }
        if self.is_series_due(now) {
            let gap = match self.series {
                None => FIRST_GAP,
                Some(series) => (2 * series.gap).min(MOST_GAP),
            };
            self.series = Some(Series { sent: now, gap });
        }
        self.asked = Some(now);
        let known: Vec<KnownAnswer> = self.known_answers(now, cache, 0).collect();
        let Query { packet, stopped } = compose::query(Some(&self.name()), &known);
        self.owed = stopped;
        Some(packet)
    }

    fn is_due(&self, now: u64, cache: &Cache) -> bool {
        self.is_series_due(now) || self.is_refresh_due(now, cache)
    }

    /// "first query after a draw of 20..120 ms, then gaps [...] from its sending"
    fn is_series_due(&self, now: u64) -> bool {
        let due = match self.series {
            None => self.started + self.draw,
            Some(series) => series.sent + series.gap,
        };
        due <= now
    }

    /// "After the first, a query also goes out [...] once the age of a live PTR
    /// entry of the name reaches 80, 85, 90 or 95 percent of its TTL, plus a second
    /// start draw of 0 to 20 thousandths of it, and none went out since."
    fn is_refresh_due(&self, now: u64, cache: &Cache) -> bool {
        let Some(asked) = self.asked else {
            return false;
        };
        self.entries(now, cache).any(|(_, entry, _)| {
            let reached = |thousandths: &u64| {
                let part = u128::from(entry.ttl) * u128::from(thousandths + self.refresh_draw);
                u128::from(entry.received) + part
            };
            let since = u128::from(asked) + 1..=u128::from(now);
            REFRESHES
                .iter()
                .map(reached)
                .any(|time| since.contains(&time))
        })
    }

    /// The live PTR entries of the name, with their slots and targets. "Entries
    /// whose target is malformed count nowhere."
    fn entries<'a>(
        &self,
        now: u64,
        cache: &'a Cache,
    ) -> impl Iterator<Item = (usize, &'a Entry, Name)> {
        let name = self.name();
        let entries = cache.entries().iter().enumerate();
        entries.filter_map(move |(slot, entry)| {
            let counts = entry.is_live(now) && entry.has(&name, rtype::PTR.into());
            let target = Name::from_wire(&entry.rdata).ok().filter(|_| counts)?;
            Some((slot, entry, target))
        })
    }

    /// Of the entries from a slot on those "with more than half their TTL left, with
    /// the TTL left (at most that received) in whole seconds rounded down, spelled
    /// as stored, in entry order".
    fn known_answers<'a>(
        &self,
        now: u64,
        cache: &'a Cache,
        from: usize,
    ) -> impl Iterator<Item = KnownAnswer> + use<'a> {
        let entries = self.entries(now, cache).filter(move |(slot, entry, _)| {
            let left = u128::from(entry.expiry - now);
            *slot >= from && 2 * left > 1000 * u128::from(entry.ttl)
        });
        entries.filter_map(move |(slot, entry, target)| {
            Some(KnownAnswer {
                slot,
                owner: Name::from_wire(&entry.owner).ok()?,
                ttl: entry.ttl.min((entry.expiry - now) / 1000) as u32,
                target,
            })
        })
    }

    /// "exactly the live PTR targets under that name, each once, case folded, lowest
    /// entry first and spelled as there"
    pub fn list(&self, now: u64, cache: &Cache) -> Result<Vec<(usize, Name)>, Refusal> {
        self.check_time(now, cache)?;
        cache.check_sizes()?;
        self.check_kept()?;

        let mut list: Vec<(usize, Name)> = Vec::new();
        for (slot, _, target) in self.entries(now, cache) {
            if !list.iter().any(|(_, shown)| shown.equals(&target)) {
                list.push((slot, target));
            }
        }
        Ok(list)
    }
}
