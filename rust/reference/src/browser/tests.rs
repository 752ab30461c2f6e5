//! Queries to the byte and to the millisecond, and tables that no rule wrote.

use super::*;
use crate::message::{Message, Section};

const OUT: usize = 1452;
const NAME: &[u8] = b"\x06_voice\x04_tcp\x05local\x00";

fn labels() -> [Vec<u8>; 3] {
    [b"_voice".to_vec(), b"_tcp".to_vec(), b"local".to_vec()]
}

fn browser(refresh_draw: u64) -> Browser {
    Browser::start(0, 20, refresh_draw, labels()).unwrap()
}

/// A table of so many entries.
fn table(entries: usize) -> Cache {
    Cache::new(entries, 1024 * entries)
}

/// "LABEL._voice._tcp.local"
fn target(label: &[u8]) -> Vec<u8> {
    [&[label.len() as u8], label, NAME].concat()
}

fn ptr(received: u64, ttl: u64, rdata: Vec<u8>) -> Entry {
    Entry {
        rtype: rtype::PTR,
        owner: NAME.to_vec(),
        rdata,
        received,
        expiry: received + 1000 * ttl,
        ttl,
    }
}

/// What a tick sends and whether more is due, or nothing.
fn tick(browser: &mut Browser, now: u64, cache: &Cache) -> Option<(Vec<u8>, bool)> {
    let mut out = [0; OUT];
    let sent = browser.tick(now, cache, &mut out).unwrap()?;
    Some((out[..sent.length].to_vec(), sent.more))
}

fn asks(browser: &mut Browser, now: u64, cache: &Cache) -> bool {
    tick(browser, now, cache).is_some()
}

/// The TTLs of the known answers.
fn ttls(packet: &[u8]) -> Vec<u32> {
    let message = Message::read(packet).unwrap();
    message
        .section(Section::Answer)
        .map(|record| record.ttl)
        .collect()
}

#[test]
fn the_series_is_1_2_4_to_2048_and_3600_seconds() {
    let cache = table(1);
    let mut browser = browser(0);
    assert!(!asks(&mut browser, 19, &cache));
    assert!(asks(&mut browser, 20, &cache));
    let mut now = 20;
    for gap in [
        1, 2, 4, 8, 16, 32, 64, 128, 256, 512, 1024, 2048, 3600, 3600, 3600,
    ] {
        // a late one puts the next off
        now += 7;
        browser.series.as_mut().unwrap().sent = now;
        assert!(!asks(&mut browser, now + 1000 * gap - 1, &cache), "{gap}");
        now += 1000 * gap;
        assert!(asks(&mut browser, now, &cache), "{gap}");
        assert!(!asks(&mut browser, now, &cache));
    }
}

#[test]
fn a_query_without_and_with_known_answers_byte_for_byte() {
    let mut cache = table(3);
    let question = [NAME, b"\x00\x0c\x00\x01"].concat();
    let packet = tick(&mut browser(0), 20, &cache);
    let bare = [
        &b"\x00\x00\x00\x00\x00\x01\x00\x00\x00\x00\x00\x00"[..],
        &question,
    ]
    .concat();
    assert_eq!(packet, Some((bare, false)));
    cache.entries_mut()[0] = ptr(0, 120, target(b"booth"));
    cache.entries_mut()[2] = Entry {
        owner: NAME.to_ascii_uppercase(),
        ..ptr(0, 4500, target(b"Booth"))
    };
    let (packet, more) = tick(&mut browser(0), 20, &cache).unwrap();
    let expected = [
        &b"\x00\x00\x00\x00\x00\x01\x00\x02\x00\x00\x00\x00"[..],
        &question,
        b"\xc0\x0c\x00\x0c\x00\x01\x00\x00\x00\x77\x00\x08\x05booth\xc0\x0c",
        b"\x06_VOICE\x04_TCP\x05LOCAL\x00\x00\x0c\x00\x01\x00\x00\x11\x93\x00\x08\x05Booth\xc0\x0c",
    ]
    .concat();
    assert_eq!(packet, expected);
    assert!(!more);
}

#[test]
fn known_answers_have_more_than_half_of_their_ttl_left() {
    for (now, shown) in [
        (20, vec![9]),
        (4999, vec![5]),
        (5000, vec![]),
        (5001, vec![]),
    ] {
        let mut cache = table(1);
        cache.entries_mut()[0] = ptr(0, 10, target(b"booth"));
        let (packet, _) = tick(&mut browser(0), now, &cache).unwrap();
        assert_eq!(ttls(&packet), shown, "{now}");
    }
    // at most what was received, whatever the expiry says; and 0 in the last second
    let mut cache = table(2);
    cache.entries_mut()[0] = Entry {
        expiry: 1 << 40,
        ..ptr(0, 10, target(b"booth"))
    };
    cache.entries_mut()[1] = ptr(0, 1, target(b"hall"));
    let (packet, _) = tick(&mut browser(0), 499, &cache).unwrap();
    assert_eq!(ttls(&packet), [10, 0]);
}

#[test]
fn refreshes_at_each_threshold_to_the_millisecond() {
    for draw in [0, 7, 20] {
        let mut cache = table(1);
        // the series asks at 20 and in two hours
        let mut browser = browser(draw);
        let received = 100_000;
        cache.entries_mut()[0] = ptr(received, 100, target(b"booth"));
        browser.series = Some(Series {
            sent: received,
            gap: 7_200_000,
        });
        browser.asked = Some(received);
        browser.last = received;
        for thousandths in [800, 850, 900, 950] {
            let due = received + 100 * (thousandths + draw);
            assert!(!asks(&mut browser, due - 1, &cache), "{due}");
            assert!(asks(&mut browser, due, &cache), "{due}");
            assert!(!asks(&mut browser, due, &cache), "{due}");
        }
        assert!(!asks(&mut browser, received + 99_999, &cache));
        assert_eq!(browser.series.unwrap().sent, received);
        assert!(!asks(&mut browser, received + 100_000, &cache));
    }
}

#[test]
fn none_went_out_since() {
    let mut cache = table(1);
    cache.entries_mut()[0] = ptr(0, 100, target(b"booth"));
    for (asked, due) in [(79_999, true), (80_000, false), (80_001, false)] {
        let mut browser = browser(0);
        browser.series = Some(Series {
            sent: 20,
            gap: 7_200_000,
        });
        browser.asked = Some(asked);
        assert_eq!(asks(&mut browser, 80_001, &cache), due, "{asked}");
    }
    // before the first query nothing is refreshed
    let mut browser = browser(0);
    browser.started = 90_000;
    assert!(!asks(&mut browser, 90_019, &cache));
    assert!(asks(&mut browser, 90_020, &cache));
}

#[test]
fn both_due_is_one_query_of_the_series() {
    let mut cache = table(1);
    cache.entries_mut()[0] = ptr(0, 100, target(b"booth"));
    let mut browser = browser(0);
    browser.series = Some(Series {
        sent: 70_000,
        gap: 10_000,
    });
    browser.asked = Some(70_000);
    let (_, more) = tick(&mut browser, 80_000, &cache).unwrap();
    assert!(!more);
    assert_eq!(
        browser.series,
        Some(Series {
            sent: 80_000,
            gap: 20_000
        })
    );
    assert!(!asks(&mut browser, 80_000, &cache));
}

/// So many entries with targets of 255 bytes.
fn long_entries(cache: &mut Cache, ttl: u64) {
    for (slot, entry) in cache.entries_mut().iter_mut().enumerate() {
        let label = |length: u8| [&[length][..], &vec![slot as u8 + 1; length.into()]].concat();
        let wire = [label(63), label(63), label(63), label(43), NAME.to_vec()].concat();
        *entry = ptr(0, ttl, wire);
    }
}

#[test]
fn the_rest_goes_on_from_the_entry_that_did_not_fit() {
    let mut cache = table(16);
    long_entries(&mut cache, 4500);
    assert_eq!(cache.entries()[0].rdata.len(), 255);
    let mut browser = browser(0);
    let (first, more) = tick(&mut browser, 20, &cache).unwrap();
    assert!(more);
    assert_eq!(first[2..8], [2, 0, 0, 1, 0, 5]);
    assert_eq!(first.len(), 12 + 23 + 5 * (12 + 236 + 2));
    assert_eq!(browser.owed, Some(5));
    // the entry is gone meanwhile, and another one too short-lived
    cache.entries_mut()[5].expiry = 21;
    cache.entries_mut()[6].expiry = 22;
    let (second, more) = tick(&mut browser, 21, &cache).unwrap();
    assert!(more);
    assert_eq!(second[2..8], [2, 0, 0, 0, 0, 5]);
    assert_eq!(second.len(), 12 + 17 + 5 * (12 + 236 + 2));
    assert_eq!(browser.owed, Some(12));
    let (third, more) = tick(&mut browser, 22, &cache).unwrap();
    assert!(!more);
    assert_eq!(third[2..8], [0, 0, 0, 0, 0, 4]);
    assert_eq!(browser.asked, Some(20));
    assert!(!asks(&mut browser, 22, &cache));
}

#[test]
fn a_debt_that_is_gone_and_a_query_in_the_same_tick() {
    let mut cache = table(6);
    long_entries(&mut cache, 4500);
    for (now, sent) in [(1019, false), (1020, true)] {
        let mut browser = browser(0);
        tick(&mut browser, 20, &cache).unwrap();
        assert_eq!(browser.owed, Some(5));
        let mut cache = cache.clone();
        cache.entries_mut()[5].expiry = 21;
        assert_eq!(asks(&mut browser, now, &cache), sent);
        assert_eq!(browser.owed, None);
    }
    // a rest first, then the query that is due too
    let mut browser = browser(0);
    tick(&mut browser, 20, &cache).unwrap();
    let (rest, more) = tick(&mut browser, 1020, &cache).unwrap();
    assert_eq!((rest[5], more), (0, true));
    let (query, more) = tick(&mut browser, 1020, &cache).unwrap();
    assert_eq!((query[5], more), (1, true));
}

#[test]
fn the_list_shows_each_target_once() {
    let mut cache = table(8);
    let entries = cache.entries_mut();
    entries[0] = ptr(0, 10, target(b"hall"));
    entries[1] = ptr(0, 1, target(b"gone"));
    entries[2] = Entry {
        owner: NAME.to_ascii_uppercase(),
        ..ptr(0, 10, target(b"Booth"))
    };
    entries[3] = ptr(0, 10, target(b"booth"));
    entries[4] = Entry {
        rtype: rtype::TXT,
        ..ptr(0, 10, target(b"text"))
    };
    entries[5] = Entry {
        owner: target(b"x"),
        ..ptr(0, 10, target(b"other"))
    };
    entries[7] = ptr(0, 10, vec![0]);
    let list = browser(0).list(1000, &cache).unwrap();
    let shown: Vec<_> = list
        .iter()
        .map(|(slot, name)| (*slot, name.wire().to_vec()))
        .collect();
    let expected = [(0, target(b"hall")), (2, target(b"Booth")), (7, vec![0])];
    assert_eq!(shown, expected);
}

#[test]
fn malformed_targets_count_nowhere() {
    let whole = target(b"booth");
    let bad: Vec<Vec<u8>> = vec![
        vec![],
        whole[..whole.len() - 1].to_vec(),
        [&whole[..], &[0]].concat(),
        b"\x05booth\xc0\x0c".to_vec(),
        [&[64][..], &[b'x'; 64], &[0]].concat(),
        [[&[63][..], &[b'x'; 63]].concat().repeat(4), vec![0]].concat(),
        vec![0; 2],
    ];
    for rdata in bad {
        let mut cache = table(2);
        cache.entries_mut()[0] = ptr(0, 100, rdata);
        cache.entries_mut()[1] = ptr(50_000, 100, target(b"hall"));
        let mut browser = Browser::start(60_000, 20, 0, labels()).unwrap();
        assert_eq!(browser.list(60_000, &cache).unwrap().len(), 1);
        let (packet, _) = tick(&mut browser, 60_020, &cache).unwrap();
        assert_eq!(ttls(&packet), [89]);
        browser.series = Some(Series {
            sent: 60_020,
            gap: 7_200_000,
        });
        assert!(!asks(&mut browser, 80_000, &cache));
    }
}

#[test]
fn refusals_in_their_order() {
    let start = |now, draw, refresh, service: &[u8]| {
        let labels = [service.to_vec(), b"_udp".to_vec(), b"local".to_vec()];
        Browser::start(now, draw, refresh, labels)
            .err()
            .map(Refusal::number)
    };
    assert_eq!(start(MOST_TIME, 120, 20, b"_a"), None);
    assert_eq!(start(MOST_TIME + 1, 19, 21, b"a"), Some(1));
    for (draw, refresh) in [(19, 0), (121, 0), (20, 21), (u64::MAX, 0), (20, u64::MAX)] {
        assert_eq!(start(0, draw, refresh, b"a"), Some(2));
    }
    assert_eq!(start(0, 20, 0, b"a"), Some(7));

    let mut small = [0; OUT - 1];
    let mut out = [0; OUT];
    let (mut odd, mut blank) = (Cache::new(1, 1023), Browser::default());
    let number = |answer: Result<Option<Sent>, Refusal>| answer.unwrap_err().number();
    assert_eq!(number(blank.tick(MOST_TIME + 1, &odd, &mut small)), 1);
    assert_eq!(number(blank.tick(0, &odd, &mut small)), 3);
    assert_eq!(number(blank.tick(0, &odd, &mut out)), 8);
    assert_eq!(number(blank.tick(0, &table(1), &mut out)), 7);
    odd.entries_mut()[0].received = 5;
    assert_eq!(number(blank.tick(4, &odd, &mut small)), 1);
    assert_eq!(blank.list(4, &odd).unwrap_err(), Refusal::Time);
    assert_eq!(blank.list(5, &odd).unwrap_err(), Refusal::Table);
    assert_eq!(blank.list(5, &table(1)).unwrap_err(), Refusal::Setup);
    for draws in [(19, 0), (121, 0), (20, 21)] {
        let mut kept = browser(0);
        (kept.draw, kept.refresh_draw) = draws;
        assert_eq!(number(kept.tick(0, &table(1), &mut out)), 7);
    }
    let late: [fn(&mut Browser, u64); 4] = [
        |browser, time| browser.started = time,
        |browser, time| browser.asked = Some(time),
        |browser, time| {
            browser.series = Some(Series {
                sent: time,
                gap: 1000,
            })
        },
        |browser, time| (browser.last, browser.started) = (0, time),
    ];
    for set in late {
        let mut kept = browser(0);
        set(&mut kept, MOST_KEPT_TIME);
        assert!(kept.tick(MOST_TIME, &table(1), &mut out).is_ok());
        set(&mut kept, MOST_KEPT_TIME + 1);
        assert_eq!(number(kept.tick(MOST_TIME, &table(1), &mut out)), 1);
    }
    let mut kept = browser(0);
    kept.last = 9;
    assert_eq!(number(kept.tick(8, &table(1), &mut out)), 1);
}

#[test]
fn any_ttl_may_stand_in_a_table() {
    let mut cache = table(1);
    cache.entries_mut()[0] = Entry {
        ttl: u64::MAX,
        expiry: u64::MAX,
        ..ptr(0, 1, target(b"booth"))
    };
    let mut browser = browser(20);
    assert!(asks(&mut browser, MOST_TIME, &cache));
    assert!(!asks(&mut browser, MOST_TIME, &cache));
}
