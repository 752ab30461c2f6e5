//! The cache of others' records: 1 to 512 entries, and a store of 1,024 bytes for each.

use crate::Refusal;

/// The most entries of a cache; the least is 1.
pub const MOST_ENTRIES: usize = 512;

const USUAL_ENTRIES: usize = 64;
const SLOT_BYTES: usize = 1024;
const OWNER_BYTES: usize = 256;

#[repr(C)]
#[derive(Clone, Copy, Default)]
pub(crate) struct Entry {
    rtype: u16,
    owner: u16,
    rdata: u32,
    received: u64,
    pub(crate) expiry: u64,
    ttl: u64,
}

#[repr(C)]
struct TakenNumbers {
    refusal: u8,
    turned_away: u32,
    passed_over: u32,
}

#[repr(C)]
struct LookedNumbers {
    refusal: u8,
    found: bool,
    slot: usize,
    name_labels: usize,
    name_first_label: usize,
}

extern "C" {
    #[allow(clippy::too_many_arguments)]
    fn kurgashel_cache_take(
        table: *mut Entry,
        entries: usize,
        store: *mut u8,
        store_bytes: usize,
        now: u64,
        port: u16,
        message: *const u8,
        message_bytes: usize,
    ) -> TakenNumbers;
    #[allow(clippy::too_many_arguments)]
    fn kurgashel_cache_look_up(
        table: *const Entry,
        entries: usize,
        store: *const u8,
        store_bytes: usize,
        now: u64,
        name: *const u8,
        name_bytes: usize,
        rtype: u16,
        from: usize,
    ) -> LookedNumbers;
}

/// The records of a message that were not taken.
#[derive(Clone, Copy, Debug, PartialEq, Eq)]
pub struct Taken {
    /// Since all entries are live.
    pub turned_away: u32,
    /// Since their rdata is over 768 bytes.
    pub passed_over: u32,
}

/// A record in the cache. Its names are uncompressed, in wire form.
#[derive(Clone, Copy, Debug, PartialEq, Eq)]
pub struct Found<'a> {
    /// The slot; look on from the next one for further records of the same name and type.
    pub slot: usize,
    /// The owner's name.
    pub owner: &'a [u8],
    /// How many labels the owner has, as the name that was looked up.
    pub labels: usize,
    /// The owner's first label, such as the instance in the name of one.
    pub first_label: &'a [u8],
    /// The rdata.
    pub rdata: &'a [u8],
    /// When it was received.
    pub received: u64,
    /// When it expires.
    pub expiry: u64,
    /// The TTL as received, in seconds. A goodbye or a flush leaves it, and makes only the expiry earlier.
    pub ttl: u64,
}

/// A cache, at first empty.
pub struct Cache {
    table: Box<[Entry]>,
    store: Box<[u8]>,
}

/// A cache of 64 entries.
impl Default for Cache {
    fn default() -> Cache {
        Cache::empty(USUAL_ENTRIES)
    }
}

impl Cache {
    /// A cache of 1 to 512 entries. Another number is what its calls would refuse: [`Refusal::Cache`].
    pub fn with_entries(entries: usize) -> Result<Cache, Refusal> {
        if entries == 0 || entries > MOST_ENTRIES {
            return Err(Refusal::Cache);
        }
        Ok(Cache::empty(entries))
    }

    fn empty(entries: usize) -> Cache {
        Cache {
            table: vec![Entry::default(); entries].into(),
            store: vec![0; SLOT_BYTES * entries].into(),
        }
    }

    /// How many entries it has.
    pub fn entries(&self) -> usize {
        self.table.len()
    }

    /// What the browser is lent: the table and the store.
    pub(crate) fn lent(&self) -> (&[Entry], &[u8]) {
        (&self.table, &self.store)
    }

    /// Takes the records of a response that came from `port`.
    pub fn take(&mut self, now: u64, port: u16, message: &[u8]) -> Result<Taken, Refusal> {
        let (table, store) = (&mut self.table, &mut self.store);
        // SAFETY: each pointer and count are those of one slice; table and store are borrowed for this call alone.
        let taken = unsafe {
            kurgashel_cache_take(
                table.as_mut_ptr(),
                table.len(),
                store.as_mut_ptr(),
                store.len(),
                now,
                port,
                message.as_ptr(),
                message.len(),
            )
        };
        Refusal::check(taken.refusal).map(|()| Taken {
            turned_away: taken.turned_away,
            passed_over: taken.passed_over,
        })
    }

    /// The lowest live record of a name (uncompressed, in wire form) and a type, from a slot on.
    pub fn look_up(
        &self,
        now: u64,
        name: &[u8],
        rtype: u16,
        from: usize,
    ) -> Result<Option<Found<'_>>, Refusal> {
        let (table, store) = (&self.table, &self.store);
        // SAFETY: each pointer and count are those of one slice; nothing is written.
        let looked = unsafe {
            kurgashel_cache_look_up(
                table.as_ptr(),
                table.len(),
                store.as_ptr(),
                store.len(),
                now,
                name.as_ptr(),
                name.len(),
                rtype,
                from,
            )
        };
        Refusal::check(looked.refusal).map(|()| looked.found.then(|| self.found(&looked)))
    }

    /// All live records of a name and a type.
    pub fn all(&self, now: u64, name: &[u8], rtype: u16) -> Result<Vec<Found<'_>>, Refusal> {
        let mut records = Vec::new();
        let mut from = 0;
        while let Some(found) = self.look_up(now, name, rtype, from)? {
            from = found.slot + 1;
            records.push(found);
        }
        Ok(records)
    }

    /// The entry of a slot, if there is one, and the bytes of the slot.
    pub(crate) fn slot(&self, slot: usize) -> Option<(Entry, &[u8])> {
        let entry = *self.table.get(slot)?;
        Some((
            entry,
            &self.store[SLOT_BYTES * slot..SLOT_BYTES * (slot + 1)],
        ))
    }

    /// The rdata in a slot that there is, of a cache that is not refused.
    pub(crate) fn rdata(&self, slot: usize) -> &[u8] {
        let start = SLOT_BYTES * slot + OWNER_BYTES;
        &self.store[start..start + self.table[slot].rdata as usize]
    }

    fn found(&self, looked: &LookedNumbers) -> Found<'_> {
        let slot = looked.slot;
        let entry = self.table[slot];
        let (owner, rdata) =
            self.store[SLOT_BYTES * slot..SLOT_BYTES * (slot + 1)].split_at(OWNER_BYTES);
        Found {
            slot,
            owner: &owner[..usize::from(entry.owner)],
            labels: looked.name_labels,
            first_label: &owner[1..1 + looked.name_first_label],
            rdata: &rdata[..entry.rdata as usize],
            received: entry.received,
            expiry: entry.expiry,
            ttl: entry.ttl,
        }
    }
}
