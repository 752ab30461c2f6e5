//! Caches of every kind of size: which are refused, and that the others work to their last slot.

use kurgashel::{Cache, Refusal, Taken, MOST_ENTRIES, PORT};

const NAME: &[u8] = b"\x04dock\x05local\0";
const A: u16 = 1;
const FLUSH: u16 = 0x8001;

/// A response with addresses of `dock.local`.
fn response(class: u16, ttl: u32, addresses: &[[u8; 4]]) -> Vec<u8> {
    let mut packet = vec![0, 0, 0x84, 0, 0, 0, 0, addresses.len() as u8, 0, 0, 0, 0];
    for address in addresses {
        packet.extend(NAME);
        packet.extend(A.to_be_bytes());
        packet.extend(class.to_be_bytes());
        packet.extend(ttl.to_be_bytes());
        packet.extend([0, 4]);
        packet.extend(address);
    }
    packet
}

fn address(number: usize) -> [u8; 4] {
    [10, 0, (number >> 8) as u8, number as u8]
}

fn turned_away(number: u32) -> Result<Taken, Refusal> {
    Ok(Taken {
        turned_away: number,
        passed_over: 0,
    })
}

#[test]
fn sizes() {
    for entries in [0, 1, 2, 63, 64, 65, 511, 512, 513] {
        let Ok(mut cache) = Cache::with_entries(entries) else {
            assert!(entries == 0 || entries > MOST_ENTRIES, "{entries}");
            continue;
        };
        assert!((1..=MOST_ENTRIES).contains(&entries));
        assert_eq!(cache.entries(), entries);
        for number in 0..entries {
            let one = response(1, 120, &[address(number)]);
            assert_eq!(cache.take(1000, PORT, &one), turned_away(0));
        }
        let two = response(1, 120, &[[1; 4], [2; 4]]);
        assert_eq!(cache.take(1000, PORT, &two), turned_away(2), "{entries}");
        let last = cache.look_up(1000, NAME, A, entries - 1).unwrap().unwrap();
        assert_eq!(
            (last.slot, last.rdata),
            (entries - 1, &address(entries - 1)[..])
        );
        assert_eq!(cache.look_up(1000, NAME, A, entries), Ok(None));
        assert_eq!(cache.look_up(1000, NAME, A, usize::MAX), Ok(None));
        assert_eq!(cache.all(1000, NAME, A).unwrap().len(), entries);
        // a flush reaches every entry; the one that says it is refreshed, and has its TTL
        let flush = response(FLUSH, 60, &[address(0)]);
        assert_eq!(cache.take(2001, PORT, &flush), turned_away(0));
        let ttl = |slot| cache.look_up(2001, NAME, A, slot).unwrap().unwrap().ttl;
        assert_eq!(
            (0..entries).map(ttl).sum::<u64>(),
            120 * entries as u64 - 60
        );
        assert_eq!(cache.all(3000, NAME, A).unwrap().len(), entries);
        assert_eq!(cache.all(3001, NAME, A).unwrap().len(), 1);
        assert_eq!(
            cache.take(2000, PORT, &flush),
            Err(Refusal::Time),
            "{entries}"
        );
    }
}

#[repr(C)]
#[derive(Clone, Copy, Default)]
struct Entry {
    rtype: u16,
    owner: u16,
    rdata: u32,
    received: u64,
    expiry: u64,
    ttl: u64,
}

#[repr(C)]
struct LookedNumbers {
    refusal: u8,
    found: bool,
    slot: usize,
    name_labels: usize,
    name_first_label: usize,
}

extern "C" {
    #[allow(clippy::too_many_arguments)]
    fn kurgashel_cache_look_up(
        table: *const Entry,
        entries: usize,
        store: *const u8,
        store_bytes: usize,
        now: u64,
        name: *const u8,
        name_bytes: usize,
        rtype: u16,
        from: usize,
    ) -> LookedNumbers;
}

/// The refusal of a lookup in an empty table of so many entries with a store of so many bytes.
fn refusal(entries: usize, bytes: usize) -> u8 {
    let table = vec![Entry::default(); entries];
    let store = vec![0; bytes];
    // SAFETY: each pointer and count are those of one slice; nothing is written.
    let looked = unsafe {
        kurgashel_cache_look_up(
            table.as_ptr(),
            table.len(),
            store.as_ptr(),
            store.len(),
            0,
            NAME.as_ptr(),
            NAME.len(),
            A,
            0,
        )
    };
    let found = (
        looked.found,
        looked.slot,
        looked.name_labels,
        looked.name_first_label,
    );
    assert_eq!(found, (false, 0, 0, 0));
    looked.refusal
}

#[test]
fn stores() {
    for entries in [1, 2, 63, 64, 65, 511, 512] {
        assert_eq!(refusal(entries, 1024 * entries), 0, "{entries}");
        assert_eq!(refusal(entries, 1024 * entries - 1), 8, "{entries}");
        assert_eq!(refusal(entries, 1024 * entries + 1), 8, "{entries}");
    }
    assert_eq!((refusal(0, 0), refusal(513, 1024 * 513)), (8, 8));
}
