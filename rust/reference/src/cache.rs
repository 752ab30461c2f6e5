//! "The cache": a table of entries with what their slots hold.

use crate::message::{Message, Record, Section};
use crate::name::{Labels, Name};
use crate::refusal::Refusal;
use crate::{class, MOST_TIME};

/// "any size from 1 to 512 entries with 1,024 store bytes each"
pub const MOST_ENTRIES: usize = 512;
pub const SLOT: usize = OWNER_ROOM + RDATA_ROOM;
const OWNER_ROOM: usize = 256;
const RDATA_ROOM: usize = 768;

/// A goodbye or a cache flush leaves a record one more second.
const LAST_SECOND: u64 = 1000;
/// A record received within this time is not flushed.
const BURST: u64 = 1000;

/// An entry of the table together with its slot; the slot's other bytes are 0.
#[derive(Clone, Debug, Default, PartialEq, Eq)]
pub struct Entry {
    pub rtype: u16,
    pub owner: Vec<u8>,
    pub rdata: Vec<u8>,
    pub received: u64,
    pub expiry: u64,
    /// "the TTL as received", in seconds
    pub ttl: u64,
}

/// A table and a store. The store's bytes are kept with the entries; of sizes
/// that are refused, all of them stay 0.
#[derive(Clone, Debug)]
pub struct Cache {
    entries: Vec<Entry>,
    /// The length of the store.
    store: usize,
}

/// "Counts are per call."
#[derive(Clone, Copy, Debug, Default, PartialEq, Eq)]
pub struct Counts {
    pub turned_away: u64,
    pub passed_over: u64,
}

/// What a lookup found.
#[derive(Clone, Copy, Debug, PartialEq, Eq)]
pub struct Found<'a> {
    pub slot: usize,
    pub entry: &'a Entry,
    /// The labels of the owner as stored.
    pub labels: Labels,
}

impl Entry {
    /// "Live means expiry after now."
    pub fn is_live(&self, now: u64) -> bool {
        self.expiry > now
    }

    pub fn has(&self, owner: &Name, rtype: u64) -> bool {
        u64::from(self.rtype) == rtype && self.owner.eq_ignore_ascii_case(owner.wire())
    }

    fn equals(&self, record: &Record) -> bool {
        self.has(&record.owner, record.rtype.into()) && self.rdata == record.rdata
    }

    fn expire_by(&mut self, time: u64) {
        self.expiry = self.expiry.min(time);
    }

    /// The 1,024 bytes of the slot: "256 bytes owner, 768 rdata, [...] unused
    /// bytes 0".
    pub fn slot(&self) -> Vec<u8> {
        let mut slot = self.owner.clone();
        slot.resize(OWNER_ROOM, 0);
        slot.extend(&self.rdata);
        slot.resize(SLOT, 0);
        slot
    }
}

impl Cache {
    /// A table of so many entries and a store of so many bytes, all zeros; of
    /// any sizes, which are judged by the calls.
    pub fn new(entries: usize, store: usize) -> Cache {
        Cache {
            entries: vec![Entry::default(); entries],
            store,
        }
    }

    pub fn entries(&self) -> &[Entry] {
        &self.entries
    }

    /// Entries that no rule has written, for tests of what is lent.
    #[cfg(test)]
    pub fn entries_mut(&mut self) -> &mut [Entry] {
        &mut self.entries
    }

    /// The length of the store.
    pub fn store(&self) -> usize {
        self.store
    }

    /// Zeros again, of the same sizes.
    pub fn clear(&mut self) {
        self.entries.fill(Entry::default());
    }

    /// The entry of a slot that the table has and that lies whole in the store.
    pub fn whole_slot(&self, slot: usize) -> Option<&Entry> {
        let entry = self.entries.get(slot)?;
        (SLOT * (slot + 1) <= self.store).then_some(entry)
    }

    /// Refusal 8: "a count outside that range or a store of another length". Here
    /// the lengths in an entry are always legal.
    pub fn check_sizes(&self) -> Result<(), Refusal> {
        let entries = self.entries.len();
        if !(1..=MOST_ENTRIES).contains(&entries) || self.store != SLOT * entries {
            return Err(Refusal::Table);
        }
        Ok(())
    }

    /// Refusal 1: "time above 2^62, [...] or before any entry's receive time".
    pub fn check_time(&self, now: u64) -> Result<(), Refusal> {
        if now > MOST_TIME || self.entries.iter().any(|entry| now < entry.received) {
            return Err(Refusal::Time);
        }
        Ok(())
    }

    /// "Answer and Additional records of a response, of class 1 and the five
    /// types, are taken in message order"; restricted NSEC "as a sixth type".
    pub fn put(&mut self, now: u64, port: u64, packet: &[u8]) -> Result<Counts, Refusal> {
        self.check_time(now)?;
        self.check_sizes()?;
        let message = Message::read_from(port, packet)?;
        let mut counts = Counts::default();
        if message.is_response() {
            for record in &message.records {
                if record.section != Section::Authority
                    && record.class() == class::IN
                    && record.is_one_of_the_six()
                {
                    self.take(now, record, &mut counts);
                }
            }
        }
        Ok(counts)
    }

    fn take(&mut self, now: u64, record: &Record, counts: &mut Counts) {
        // 1. "for every live entry of that name and type received more than
        // 1,000 ms ago, expiry becomes the lesser of itself and now plus 1,000"
        if record.is_cache_flush() {
            for entry in &mut self.entries {
                if entry.is_live(now)
                    && entry.has(&record.owner, record.rtype.into())
                    && now - entry.received > BURST
                {
                    entry.expire_by(now + LAST_SECOND);
                }
            }
        }
        // "Rdata over 768 bytes is counted as passed over after rule 1, TTL 0 too."
        if record.rdata.len() > RDATA_ROOM {
            counts.passed_over += 1;
            return;
        }
        let known = self
            .entries
            .iter_mut()
            .find(|entry| entry.is_live(now) && entry.equals(record));
        let expiry = now + 1000 * u64::from(record.ttl);
        match known {
            // 2. TTL 0: a goodbye
            Some(entry) if record.ttl == 0 => entry.expire_by(now + LAST_SECOND),
            None if record.ttl == 0 => (),
            // 3.
            Some(entry) => {
                entry.received = now;
                entry.expiry = expiry;
                entry.ttl = record.ttl.into();
            }
            None => match self.entries.iter_mut().find(|entry| !entry.is_live(now)) {
                Some(entry) => {
                    *entry = Entry {
                        rtype: record.rtype,
                        owner: record.owner.wire().to_vec(),
                        rdata: record.rdata.clone(),
                        received: now,
                        expiry,
                        ttl: record.ttl.into(),
                    }
                }
                None => counts.turned_away += 1,
            },
        }
    }

    /// "A lookup by uncompressed name and type gives the lowest live match from
    /// a given slot on, or none."
    pub fn look(
        &self,
        now: u64,
        name: &[u8],
        rtype: u64,
        from: u64,
    ) -> Result<Option<Found<'_>>, Refusal> {
        self.check_time(now)?;
        self.check_sizes()?;
        let name = Name::from_wire(name)?;
        let matching = self.entries.iter().enumerate().find(|(slot, entry)| {
            *slot as u64 >= from && entry.is_live(now) && entry.has(&name, rtype)
        });
        let Some((slot, entry)) = matching else {
            return Ok(None);
        };
        let labels = Name::from_wire(&entry.owner)?.labels();
        Ok(Some(Found {
            slot,
            entry,
            labels,
        }))
    }
}

#[cfg(test)]
mod tests {
    use super::*;
    use crate::MDNS_PORT;

    const OWNER: &[u8] = b"\x04dock\x05local\x00";
    const OTHER_CASE: &[u8] = b"\x04Dock\x05LOCAL\x00";

    /// A table of 64 entries.
    fn table() -> Cache {
        Cache::new(64, 65_536)
    }

    /// Owner, type, class, TTL and rdata.
    type TestRecord<'a> = (&'a [u8], u16, u16, u32, &'a [u8]);

    fn response(records: &[TestRecord]) -> Vec<u8> {
        let mut bytes = vec![0, 0, 0x84, 0, 0, 0];
        bytes.extend((records.len() as u16).to_be_bytes());
        bytes.extend([0; 4]);
        for (owner, rtype, class, ttl, rdata) in records {
            bytes.extend_from_slice(owner);
            bytes.extend(rtype.to_be_bytes());
            bytes.extend(class.to_be_bytes());
            bytes.extend(ttl.to_be_bytes());
            bytes.extend((rdata.len() as u16).to_be_bytes());
            bytes.extend_from_slice(rdata);
        }
        bytes
    }

    fn put(cache: &mut Cache, now: u64, records: &[TestRecord]) -> (u64, u64) {
        let counts = cache.put(now, MDNS_PORT, &response(records)).unwrap();
        (counts.turned_away, counts.passed_over)
    }

    fn times(cache: &Cache, slot: usize) -> (u64, u64) {
        let entry = &cache.entries()[slot];
        (entry.received, entry.expiry)
    }

    #[test]
    fn flush_at_5000() {
        for (received, expiry) in [(4000, 124_000), (3999, 6000)] {
            let mut cache = table();
            put(&mut cache, received, &[(OWNER, 1, 1, 120, &[1; 4])]);
            put(&mut cache, 5000, &[(OTHER_CASE, 1, 0x8001, 120, &[2; 4])]);
            assert_eq!(times(&cache, 0), (received, expiry));
            assert_eq!(times(&cache, 1), (5000, 125_000));
        }
    }

    #[test]
    fn a_flush_restores_the_equal_entry_and_spares_the_burst_and_other_types() {
        let mut cache = table();
        put(
            &mut cache,
            0,
            &[(OWNER, 1, 1, 9, &[1; 4]), (OWNER, 28, 1, 9, &[1; 16])],
        );
        put(
            &mut cache,
            5000,
            &[
                (OWNER, 1, 0x8001, 9, &[2; 4]),
                (OWNER, 1, 0x8001, 9, &[1; 4]),
            ],
        );
        assert_eq!(times(&cache, 0), (5000, 14_000));
        assert_eq!(times(&cache, 1), (0, 9000));
        assert_eq!(times(&cache, 2), (5000, 14_000));
    }

    #[test]
    fn goodbyes() {
        let mut cache = table();
        put(&mut cache, 0, &[(OWNER, 1, 1, 9, &[1; 4])]);
        put(&mut cache, 1, &[(OTHER_CASE, 1, 1, 0, &[1; 4])]);
        assert_eq!(times(&cache, 0), (0, 1001));
        put(&mut cache, 2, &[(OWNER, 1, 1, 0xffff_ffff, &[1; 4])]);
        assert_eq!(times(&cache, 0), (0, 1001));
        assert_eq!(put(&mut cache, 2, &[(OWNER, 1, 1, 0, &[2; 4])]), (0, 0));
        assert_eq!(cache.entries()[1], Entry::default());
    }

    #[test]
    fn refresh_keeps_the_spelling_and_a_dead_entry_is_replaced() {
        let mut cache = table();
        put(&mut cache, 0, &[(OTHER_CASE, 1, 1, 1, &[1; 4])]);
        put(&mut cache, 999, &[(OWNER, 1, 1, 1, &[1; 4])]);
        assert_eq!(times(&cache, 0), (999, 1999));
        assert_eq!(cache.entries()[0].owner, OTHER_CASE);
        put(&mut cache, 1999, &[(OWNER, 1, 1, 1, &[1; 4])]);
        assert_eq!(cache.entries()[0].owner, OWNER);
    }

    #[test]
    fn a_full_table_turns_away() {
        let mut cache = table();
        let rdata: Vec<[u8; 4]> = (0..66).map(|i| [i, 0, 0, 0]).collect();
        let records: Vec<TestRecord> = rdata
            .iter()
            .map(|rdata| (OWNER, 1, 1, 2, &rdata[..]))
            .collect();
        assert_eq!(put(&mut cache, 0, &records), (2, 0));
        assert_eq!(put(&mut cache, 1999, &records[64..]), (2, 0));
        assert_eq!(put(&mut cache, 2000, &records[64..]), (0, 0));
        let found = cache.look(2000, OTHER_CASE, 1, 1).unwrap();
        assert_eq!(found.map(|found| found.slot), Some(1));
        assert_eq!(
            found.map(|found| found.labels),
            Some(Labels { count: 2, first: 4 })
        );
        assert!(cache.look(2000, OWNER, 1, 2).unwrap().is_none());
    }

    #[test]
    fn sizes() {
        for (entries, store, legal) in [
            (0, 0, false),
            (1, 1024, true),
            (1, 1023, false),
            (1, 1025, false),
            (1, 65_536, false),
            (65, 65 * 1024, true),
            (511, 511 * 1024, true),
            (512, 512 * 1024, true),
            (512, 64 * 1024, false),
            (513, 513 * 1024, false),
            (513, 512 * 1024, false),
        ] {
            let refusal = (!legal).then_some(Refusal::Table);
            let mut cache = Cache::new(entries, store);
            assert_eq!(cache.put(0, MDNS_PORT, &response(&[])).err(), refusal);
            assert_eq!(cache.look(0, OWNER, 1, 0).err(), refusal);
            // 1 before 8 before 4, 5 and 6
            assert_eq!(cache.put(MOST_TIME + 1, 1, &[]), Err(Refusal::Time));
            let next = refusal.unwrap_or(Refusal::MessageLength);
            assert_eq!(cache.put(0, 1, &[]), Err(next));
            let next = refusal.unwrap_or(Refusal::Malformed);
            assert_eq!(cache.look(0, &[], 1, 0), Err(next));
        }
    }

    #[test]
    fn every_entry_of_a_table_counts() {
        for entries in [1, 2, 63, 64, 65, 511, 512] {
            let mut cache = Cache::new(entries, SLOT * entries);
            let rdata: Vec<[u8; 4]> = (0..=entries as u32).map(u32::to_be_bytes).collect();
            let records: Vec<TestRecord> = rdata
                .iter()
                .map(|rdata| (OWNER, 1, 1, 2, &rdata[..]))
                .collect();
            // (a message has no room for so many whole owners)
            for record in &records[..entries - 1] {
                assert_eq!(put(&mut cache, 0, &[*record]), (0, 0));
            }
            assert_eq!(put(&mut cache, 5, &records[entries - 1..]), (1, 0));
            assert_eq!(times(&cache, entries - 1), (5, 2005));
            let last = cache.look(5, OWNER, 1, entries as u64 - 1).unwrap();
            assert_eq!(last.map(|found| found.slot), Some(entries - 1));
            assert_eq!(cache.look(5, OWNER, 1, entries as u64), Ok(None));
            assert_eq!(cache.look(4, OWNER, 1, 0), Err(Refusal::Time));
            cache.clear();
            assert_eq!(cache.entries(), vec![Entry::default(); entries]);
        }
    }

    #[test]
    fn slots_that_lie_whole_in_the_store() {
        let slots = |entries, store| {
            let cache = Cache::new(entries, store);
            (0..9).filter(|k| cache.whole_slot(*k).is_some()).count()
        };
        assert_eq!(slots(0, 1024), 0);
        assert_eq!(slots(1, 1023), 0);
        assert_eq!(slots(2, 2047), 1);
        assert_eq!(slots(2, 2048), 2);
        assert_eq!(slots(2, 4096), 2);
    }

    #[test]
    fn long_rdata_is_passed_over_after_the_flush() {
        let mut cache = table();
        let fits = vec![0; 768];
        let long = vec![0; 769];
        assert_eq!(put(&mut cache, 0, &[(OWNER, 16, 1, 9, &fits)]), (0, 0));
        assert_eq!(
            put(
                &mut cache,
                2000,
                &[(OWNER, 16, 0x8001, 0, &long), (OWNER, 16, 1, 9, &long)]
            ),
            (0, 2)
        );
        assert_eq!(times(&cache, 0), (0, 3000));
        assert_eq!(cache.entries()[0].slot().len(), 1024);
    }

    #[test]
    fn restricted_nsec_is_taken_and_no_other() {
        let mut cache = table();
        let rdata = |name: &[u8], window: &[u8]| [name, window].concat();
        let own = rdata(OWNER, b"\x00\x01\x40");
        let recased = rdata(OTHER_CASE, b"\x00\x01\x40");
        let zeros = rdata(OWNER, b"\x00\x02\x40\x00");
        for bad in [
            rdata(OWNER, b"\x01\x01\x40"),
            rdata(OWNER, b"\x00\x01\x40\x00"),
            rdata(b"\x00", b"\x00\x01\x40"),
        ] {
            assert_eq!(put(&mut cache, 0, &[(OWNER, 47, 1, 9, &bad)]), (0, 0));
            assert_eq!(cache.entries()[0], Entry::default());
        }
        for rdata in [&own, &recased, &own, &zeros] {
            put(&mut cache, 0, &[(OWNER, 47, 1, 9, rdata)]);
        }
        put(
            &mut cache,
            0,
            &[(OWNER, 47, 3, 9, &rdata(OWNER, b"\x00\x01\x01"))],
        );
        let stored: Vec<_> = cache.entries()[..4]
            .iter()
            .map(|entry| &entry.rdata)
            .collect();
        assert_eq!(stored, [&own, &recased, &zeros, &vec![]]);
        let mut pointed = response(&[(OWNER, 47, 0x8001, 9, b"\xc0\x0c\x00\x01\x40")]);
        cache.put(5000, MDNS_PORT, &pointed).unwrap();
        assert_eq!(times(&cache, 0), (5000, 14_000));
        assert_eq!(times(&cache, 1), (0, 6000));
        let found = cache.look(5000, OTHER_CASE, 47, 1).unwrap().unwrap();
        assert_eq!((found.slot, &found.entry.rdata), (1, &recased));
        // an owner of another spelling than the next name's
        pointed[13] = b'D';
        cache.put(5001, MDNS_PORT, &pointed).unwrap();
        assert_eq!(
            cache.entries()[3].rdata,
            rdata(b"\x04Dock\x05local\x00", b"\x00\x01\x40")
        );
    }

    #[test]
    fn what_is_not_taken() {
        let mut cache = table();
        let record: &[TestRecord] = &[(OWNER, 1, 1, 9, &[1; 4])];
        let mut authority = response(record);
        authority.swap(7, 9);
        let mut query = response(record);
        query[2] = 0;
        for packet in [authority, query, response(&[(OWNER, 1, 3, 9, &[1; 4])])] {
            assert_eq!(cache.put(0, MDNS_PORT, &packet), Ok(Counts::default()));
        }
        put(&mut cache, 0, &[(OWNER, 47, 1, 9, &[1; 4])]);
        assert_eq!(cache.entries()[0], Entry::default());
    }

    #[test]
    fn refusals() {
        let mut cache = table();
        put(&mut cache, 10, &[(OWNER, 1, 1, 0, &[1; 4])]);
        put(&mut cache, 10, &[(OWNER, 1, 1, 1, &[1; 4])]);
        assert_eq!(cache.look(9, OWNER, 1, 0), Err(Refusal::Time));
        assert_eq!(cache.look(MOST_TIME + 1, &[], 1, 0), Err(Refusal::Time));
        assert_eq!(cache.look(10, &[0, 0], 1, 0), Err(Refusal::Malformed));
        assert_eq!(cache.put(9, 1, &[]), Err(Refusal::Time));
        assert_eq!(cache.put(10, 1, &[]), Err(Refusal::MessageLength));
        let response = response(&[(OWNER, 1, 1, 1, &[2; 4]), (OWNER, 1, 1, 1, &[3; 4])]);
        assert_eq!(cache.put(10, 1, &response), Err(Refusal::Header));
        // a query from another port is accepted, and nothing is taken
        let mut query = response.clone();
        query[2] = 0;
        assert_eq!(cache.put(10, 1, &query), Ok(Counts::default()));
        query.pop();
        assert_eq!(cache.put(10, 1, &query), Err(Refusal::Malformed));
        let mut cut = response;
        cut.pop();
        assert_eq!(cache.put(10, MDNS_PORT, &cut), Err(Refusal::Malformed));
        assert_eq!(cache.entries()[1], Entry::default());
    }
}
