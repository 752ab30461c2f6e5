//! The proved cache and the two ordinary ones, full of live entries, and the calls that are timed on all.

use kurgashel::{Cache, PORT};

use crate::chains;
use crate::ordinary_cache::OrdinaryCache;
use crate::ordinary_table::OrdinaryTable;
use crate::packets;

/// When all is received.
const RECEIVED: u64 = 1_000;

/// Caches of the same entries, each with its clock.
pub struct Caches {
    pub proved: Clocked<Cache>,
    pub ordinary: Clocked<OrdinaryCache>,
    /// On a table and a store as the proved one's.
    pub table: Clocked<OrdinaryTable>,
}

/// A cache that takes one message after the other.
pub struct Clocked<C> {
    pub cache: C,
    now: u64,
}

impl Clocked<Cache> {
    /// Takes a message a millisecond after the last; tells what was turned away and passed over.
    pub fn take(&mut self, message: &[u8]) -> (u32, u32) {
        self.now += 1;
        let taken = self.cache.take(self.now, PORT, message).expect("accepted");
        (taken.turned_away, taken.passed_over)
    }
}

impl Clocked<OrdinaryCache> {
    pub fn take(&mut self, message: &[u8]) -> (u32, u32) {
        self.now += 1;
        let taken = self.cache.take(self.now, PORT, message).expect("accepted");
        (taken.turned_away, taken.passed_over)
    }
}

impl Clocked<OrdinaryTable> {
    pub fn take(&mut self, message: &[u8]) -> (u32, u32) {
        self.now += 1;
        let taken = self.cache.take(self.now, PORT, message).expect("accepted");
        (taken.turned_away, taken.passed_over)
    }
}

impl Caches {
    pub fn empty(entries: usize) -> Caches {
        Caches {
            proved: Clocked {
                cache: Cache::with_entries(entries).expect("a size"),
                now: RECEIVED,
            },
            ordinary: Clocked {
                cache: OrdinaryCache::with_entries(entries),
                now: RECEIVED,
            },
            table: Clocked {
                cache: OrdinaryTable::with_entries(entries),
                now: RECEIVED,
            },
        }
    }

    /// All entries live: addresses of other hosts first, then the records of a message.
    pub fn among(entries: usize, message: &[u8]) -> Caches {
        let records = usize::from(u16::from_be_bytes([message[6], message[7]]));
        let mut caches = Caches::empty(entries);
        for host in 0..entries - records {
            let other = packets::host_address(host as u16);
            assert_eq!(caches.take(&other), (0, 0));
        }
        assert_eq!(caches.take(message), (0, 0), "all have room");
        let another = packets::host_address(entries as u16);
        assert_eq!(caches.take(&another), (1, 0), "and fill it");
        caches
    }

    /// Caches of which the proved one's entries are all live and agree with the records of `chains::knowing` in type and lengths.
    pub fn full_of_alike(entries: usize) -> Caches {
        let mut caches = Caches::empty(entries);
        for number in 0..entries {
            assert_eq!(caches.proved.take(&chains::alike(number)), (0, 0));
        }
        caches
    }

    /// All take a message, with equal counts.
    pub fn take(&mut self, message: &[u8]) -> (u32, u32) {
        let taken = self.proved.take(message);
        assert_eq!(taken, self.ordinary.take(message));
        assert_eq!(taken, self.table.take(message));
        taken
    }
}
