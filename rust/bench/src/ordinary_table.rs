//! An ordinary cache on a table and a byte store that are laid out as the proved one's, with the same refusals 1 and 8: 1 to 512 entries of 32 bytes, and for
//! each a slot of 1,024 bytes, of which 256 are the owner's. What it does beside that is what `ordinary_cache` does.

use reference::message::MOST_MESSAGE;
use reference::refusal::Refusal;
use reference::MOST_TIME;

use crate::ordinary_walk::{check, each_record, is_name, Counts, Record};

const MOST_ENTRIES: usize = 512;
const SLOT: usize = 1024;
const OWNER: usize = 256;
const MOST_OWNER: u16 = 255;
const MOST_RDATA: u32 = 768;
const LAST_SECOND: u64 = 1000;
const BURST: u64 = 1000;

#[repr(C)]
#[derive(Clone, Copy, Debug, Default, PartialEq, Eq)]
pub struct Entry {
    pub rtype: u16,
    pub owner: u16,
    pub rdata: u32,
    pub received: u64,
    pub expiry: u64,
    pub ttl: u64,
}

pub struct OrdinaryTable {
    pub table: Vec<Entry>,
    pub store: Vec<u8>,
    rdata: Vec<u8>,
}

impl Entry {
    fn is_live(&self, now: u64) -> bool {
        self.expiry > now
    }

    fn owner_in<'a>(&self, slot: &'a [u8]) -> &'a [u8] {
        &slot[..usize::from(self.owner)]
    }

    fn rdata_in<'a>(&self, slot: &'a [u8]) -> &'a [u8] {
        &slot[OWNER..][..self.rdata as usize]
    }

    /// Type and length first: names are folded only where both are equal.
    fn has(&self, slot: &[u8], owner: &[u8], rtype: u16) -> bool {
        self.rtype == rtype
            && usize::from(self.owner) == owner.len()
            && self.owner_in(slot).eq_ignore_ascii_case(owner)
    }
}

impl OrdinaryTable {
    pub fn with_entries(entries: usize) -> OrdinaryTable {
        OrdinaryTable {
            table: vec![Entry::default(); entries],
            store: vec![0; SLOT * entries],
            rdata: Vec::with_capacity(MOST_MESSAGE),
        }
    }

    /// Refusals 1 and 8.
    fn check_table(&self, now: u64) -> Result<(), Refusal> {
        // without an early end, which is faster
        let (late, long) = self.table.iter().fold((false, false), |(late, long), e| {
            (
                late | (now < e.received),
                long | (e.owner > MOST_OWNER) | (e.rdata > MOST_RDATA),
            )
        });
        if late || now > MOST_TIME {
            return Err(Refusal::Time);
        }
        let entries = self.table.len();
        if long || !(1..=MOST_ENTRIES).contains(&entries) || self.store.len() != SLOT * entries {
            return Err(Refusal::Table);
        }
        Ok(())
    }

    /// Takes the records of a response that came from `port`.
    pub fn take(&mut self, now: u64, port: u16, packet: &[u8]) -> Result<Counts, Refusal> {
        self.check_table(now)?;
        let mut counts = Counts::default();
        if check(port, packet)? {
            let mut rdata = std::mem::take(&mut self.rdata);
            each_record(packet, &mut rdata, |record| {
                self.take_record(now, record, &mut counts);
            });
            self.rdata = rdata;
        }
        Ok(counts)
    }

    fn take_record(&mut self, now: u64, record: &Record, counts: &mut Counts) {
        if record.flushes {
            for (entry, slot) in self.table.iter_mut().zip(self.store.chunks_exact(SLOT)) {
                if entry.has(slot, record.owner, record.rtype)
                    && entry.is_live(now)
                    && now - entry.received > BURST
                {
                    entry.expiry = entry.expiry.min(now + LAST_SECOND);
                }
            }
        }
        if record.rdata.len() > MOST_RDATA as usize {
            counts.passed_over += 1;
            return;
        }
        let known = self
            .table
            .iter_mut()
            .zip(self.store.chunks_exact(SLOT))
            .find(|(entry, slot)| {
                entry.rtype == record.rtype
                    && entry.rdata_in(slot) == record.rdata
                    && entry.is_live(now)
                    && entry.has(slot, record.owner, record.rtype)
            });
        let expiry = now + 1000 * u64::from(record.ttl);
        if let Some((entry, _)) = known {
            if record.ttl == 0 {
                entry.expiry = entry.expiry.min(now + LAST_SECOND);
            } else {
                (entry.received, entry.expiry, entry.ttl) = (now, expiry, record.ttl.into());
            }
            return;
        }
        if record.ttl == 0 {
            return;
        }
        let mut slots = self.table.iter_mut().zip(self.store.chunks_exact_mut(SLOT));
        match slots.find(|(entry, _)| !entry.is_live(now)) {
            Some((entry, slot)) => {
                *entry = Entry {
                    rtype: record.rtype,
                    owner: record.owner.len() as u16,
                    rdata: record.rdata.len() as u32,
                    received: now,
                    expiry,
                    ttl: record.ttl.into(),
                };
                slot.fill(0);
                slot[..record.owner.len()].copy_from_slice(record.owner);
                slot[OWNER..][..record.rdata.len()].copy_from_slice(record.rdata);
            }
            None => counts.turned_away += 1,
        }
    }

    /// The slot of the lowest live record of a name and a type, from a slot on.
    pub fn look_up(
        &self,
        now: u64,
        name: &[u8],
        rtype: u16,
        from: usize,
    ) -> Result<Option<usize>, Refusal> {
        self.check_table(now)?;
        if !is_name(name) {
            return Err(Refusal::Malformed);
        }
        let slots = self.table.iter().zip(self.store.chunks_exact(SLOT));
        Ok(slots
            .enumerate()
            .skip(from)
            .find(|(_, (entry, slot))| entry.has(slot, name, rtype) && entry.is_live(now))
            .map(|(index, _)| index))
    }
}
