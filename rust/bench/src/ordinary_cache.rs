//! An ordinary cache: a `Vec` of entries that own their bytes, with the rules of the specification's cache. It validates a message by the ordinary reader,
//! then walks it without allocating; an entry's vectors are used again. `reference::cache` reads a message into owned records first, which costs more than the
//! table.

use reference::message::MOST_MESSAGE;
use reference::refusal::Refusal;
use reference::MOST_TIME;

pub use crate::ordinary_walk::Counts;
use crate::ordinary_walk::{check, each_record, is_name, Record};

const MOST_RDATA: usize = 768;
const LAST_SECOND: u64 = 1000;
const BURST: u64 = 1000;

#[derive(Clone, Default)]
struct Entry {
    rtype: u16,
    owner: Vec<u8>,
    rdata: Vec<u8>,
    received: u64,
    expiry: u64,
    ttl: u32,
}

pub struct OrdinaryCache {
    entries: Vec<Entry>,
    rdata: Vec<u8>,
}

/// What a lookup finds.
#[derive(Clone, Copy, Debug, PartialEq, Eq)]
pub struct Found<'a> {
    pub slot: usize,
    pub owner: &'a [u8],
    pub rdata: &'a [u8],
    pub received: u64,
    pub expiry: u64,
    pub ttl: u32,
}

impl Entry {
    fn is_live(&self, now: u64) -> bool {
        self.expiry > now
    }

    /// Type and length first: names are folded only where both are equal.
    fn has(&self, owner: &[u8], rtype: u16) -> bool {
        self.rtype == rtype && self.owner.eq_ignore_ascii_case(owner)
    }
}

impl OrdinaryCache {
    pub fn with_entries(entries: usize) -> OrdinaryCache {
        OrdinaryCache {
            entries: vec![Entry::default(); entries],
            rdata: Vec::with_capacity(MOST_MESSAGE),
        }
    }

    /// Refusal 1. Refusal 8 can't come: the table's size is right, and a vector knows its length.
    fn check_time(&self, now: u64) -> Result<(), Refusal> {
        // without an early end, which is faster
        let late = |late, entry: &Entry| late | (now < entry.received);
        if now > MOST_TIME || self.entries.iter().fold(false, late) {
            return Err(Refusal::Time);
        }
        Ok(())
    }

    /// Takes the records of a response that came from `port`.
    pub fn take(&mut self, now: u64, port: u16, packet: &[u8]) -> Result<Counts, Refusal> {
        self.check_time(now)?;
        let mut counts = Counts::default();
        if check(port, packet)? {
            let mut rdata = std::mem::take(&mut self.rdata);
            each_record(packet, &mut rdata, |record| {
                self.take_record(now, record, &mut counts);
            });
            self.rdata = rdata;
        }
        Ok(counts)
    }

    fn take_record(&mut self, now: u64, record: &Record, counts: &mut Counts) {
        if record.flushes {
            for entry in &mut self.entries {
                if entry.has(record.owner, record.rtype)
                    && entry.is_live(now)
                    && now - entry.received > BURST
                {
                    entry.expiry = entry.expiry.min(now + LAST_SECOND);
                }
            }
        }
        if record.rdata.len() > MOST_RDATA {
            counts.passed_over += 1;
            return;
        }
        let known = self.entries.iter_mut().find(|entry| {
            entry.rtype == record.rtype
                && entry.rdata == record.rdata
                && entry.is_live(now)
                && entry.has(record.owner, record.rtype)
        });
        let expiry = now + 1000 * u64::from(record.ttl);
        if let Some(entry) = known {
            if record.ttl == 0 {
                entry.expiry = entry.expiry.min(now + LAST_SECOND);
            } else {
                (entry.received, entry.expiry, entry.ttl) = (now, expiry, record.ttl);
            }
            return;
        }
        if record.ttl == 0 {
            return;
        }
        match self.entries.iter_mut().find(|entry| !entry.is_live(now)) {
            Some(entry) => {
                entry.rtype = record.rtype;
                entry.owner.clear();
                entry.owner.extend_from_slice(record.owner);
                entry.rdata.clear();
                entry.rdata.extend_from_slice(record.rdata);
                (entry.received, entry.expiry, entry.ttl) = (now, expiry, record.ttl);
            }
            None => counts.turned_away += 1,
        }
    }

    /// The lowest live record of a name and a type, from a slot on.
    pub fn look_up(
        &self,
        now: u64,
        name: &[u8],
        rtype: u16,
        from: usize,
    ) -> Result<Option<Found<'_>>, Refusal> {
        self.check_time(now)?;
        if !is_name(name) {
            return Err(Refusal::Malformed);
        }
        let later = self.entries.get(from..).unwrap_or_default();
        let found = later
            .iter()
            .position(|entry| entry.has(name, rtype) && entry.is_live(now))
            .map(|index| (from + index, &later[index]));
        Ok(found.map(|(slot, entry)| Found {
            slot,
            owner: &entry.owner,
            rdata: &entry.rdata,
            received: entry.received,
            expiry: entry.expiry,
            ttl: entry.ttl,
        }))
    }
}
