//! Lookups in a full cache: what an answer costs by where it is found, and by which test it fails.

use std::hint::black_box;

use kurgashel::{Cache, PORT};

use crate::ordinary_cache::OrdinaryCache;
use crate::ordinary_table::OrdinaryTable;
use crate::packets;
use crate::timing;

/// When all is received, and when it is looked up.
const RECEIVED: u64 = 1_000;
const NOW: u64 = 2_000;

const A: u16 = 1;
const AAAA: u16 = 28;

const OWNER_BYTES: usize = 200;
const SHORTER_BYTES: usize = 100;

/// Looking for a name and a type from slot 0 on, and the slot where it is found.
pub struct Lookup {
    pub name: Vec<u8>,
    pub rtype: u16,
    pub found: Option<usize>,
}

/// A cache of live A records, and what is looked up in it.
pub struct Lookups {
    cache: Cache,
    ordinary: OrdinaryCache,
    table: OrdinaryTable,
    /// By a length and a type that no entry has.
    pub other_length_and_type: Lookup,
    /// By a type that no entry has; all have the name's length.
    pub other_type: Lookup,
    /// By a name that differs from every owner in a middle letter; all have its length and type.
    pub other_letter: Lookup,
    /// The record in slot 0.
    pub first: Lookup,
    /// The record in the last slot: all before it differ in a middle letter.
    pub last: Lookup,
}

impl Lookups {
    /// Of a cache of so many entries, each live with an owner of 200 bytes.
    pub fn among(entries: usize) -> Lookups {
        let mut cache = Cache::with_entries(entries).expect("a size");
        let mut ordinary = OrdinaryCache::with_entries(entries);
        let mut table = OrdinaryTable::with_entries(entries);
        for slot in 0..entries {
            let owner = packets::long_name(OWNER_BYTES, letter(slot, entries));
            let message = packets::shared_address(&owner, slot as u32);
            let taken = cache.take(RECEIVED, PORT, &message).expect("accepted");
            assert_eq!((taken.turned_away, taken.passed_over), (0, 0));
            ordinary.take(RECEIVED, PORT, &message).expect("accepted");
            table.take(RECEIVED, PORT, &message).expect("accepted");
        }
        let lookup = |bytes, letter, rtype, found| Lookup {
            name: packets::long_name(bytes, letter),
            rtype,
            found,
        };
        Lookups {
            cache,
            ordinary,
            table,
            other_length_and_type: lookup(SHORTER_BYTES, b'x', AAAA, None),
            other_type: lookup(OWNER_BYTES, b'x', AAAA, None),
            other_letter: lookup(OWNER_BYTES, b'x', A, None),
            first: lookup(OWNER_BYTES, letter(0, entries), A, Some(0)),
            last: lookup(
                OWNER_BYTES,
                letter(entries - 1, entries),
                A,
                Some(entries - 1),
            ),
        }
    }

    /// The slot that a lookup finds.
    pub fn slot(&self, lookup: &Lookup) -> Option<usize> {
        self.cache
            .look_up(NOW, &lookup.name, lookup.rtype, 0)
            .expect("accepted")
            .map(|found| found.slot)
    }

    /// The slot that a lookup finds in the ordinary cache.
    pub fn ordinary_slot(&self, lookup: &Lookup) -> Option<usize> {
        self.ordinary
            .look_up(NOW, &lookup.name, lookup.rtype, 0)
            .expect("accepted")
            .map(|found| found.slot)
    }

    /// The slot that a lookup finds in the ordinary cache on a table and a store.
    pub fn table_slot(&self, lookup: &Lookup) -> Option<usize> {
        self.table
            .look_up(NOW, &lookup.name, lookup.rtype, 0)
            .expect("accepted")
    }

    /// The least times of a lookup in the proved cache, in the ordinary one, and in that on a table and a store.
    pub fn beside_ordinary(&self, lookup: &Lookup) -> [f64; 3] {
        timing::least_of_three(
            || _ = black_box(self.slot(black_box(lookup))),
            || _ = black_box(self.ordinary_slot(black_box(lookup))),
            || _ = black_box(self.table_slot(black_box(lookup))),
        )
    }

    /// The median times of two lookups, in nanoseconds, taken in turns.
    pub fn medians(&self, repeat: usize, a: &Lookup, b: &Lookup) -> [f64; 2] {
        timing::medians(
            repeat,
            || _ = black_box(self.slot(black_box(a))),
            || _ = black_box(self.slot(black_box(b))),
        )
    }
}

/// The middle letter of the owner in a slot: the last has one of its own.
fn letter(slot: usize, entries: usize) -> u8 {
    if slot + 1 == entries {
        b'z'
    } else {
        b'y'
    }
}
