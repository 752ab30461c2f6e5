//! A browser over a cache: its queries, what they list, and who it shows.

use kurgashel::{Browser, BrowserDraws, Cache, Message, Refusal, Section, OUT_BYTES, PORT};

const SERVICE: &[u8] = b"\x06_voice\x04_tcp\x05local\0";
const DRAWS: BrowserDraws = BrowserDraws {
    first: 20,
    refresh: 0,
};

fn instance(label: &str) -> Vec<u8> {
    [&[label.len() as u8], label.as_bytes(), SERVICE].concat()
}

/// A response with a PTR record for each instance.
fn response(ttl: u32, labels: &[&str]) -> Vec<u8> {
    let mut packet = vec![0, 0, 0x84, 0, 0, 0, 0, labels.len() as u8, 0, 0, 0, 0];
    for label in labels {
        let target = instance(label);
        packet.extend(SERVICE);
        packet.extend([0, 12, 0, 1]);
        packet.extend(ttl.to_be_bytes());
        packet.extend((target.len() as u16).to_be_bytes());
        packet.extend(target);
    }
    packet
}

/// Ticks, and gives the packet that was sent.
fn tick(browser: &mut Browser, cache: &Cache, now: u64) -> Option<Vec<u8>> {
    let mut out = [0; OUT_BYTES];
    let ticked = browser.tick(cache, now, &mut out).unwrap();
    assert!(!ticked.more);
    (ticked.length > 0).then(|| out[..ticked.length].to_vec())
}

fn shown(browser: &Browser, cache: &Cache, now: u64) -> Vec<Vec<u8>> {
    let instances = browser.instances(cache, now).unwrap();
    instances.map(|listed| listed.target.to_vec()).collect()
}

#[test]
fn queries_double_their_gaps() {
    let cache = Cache::default();
    let mut browser = Browser::start("_voice", "_tcp", 1000, DRAWS).unwrap();
    let mut due = 1020;
    for gap in [
        1, 2, 4, 8, 16, 32, 64, 128, 256, 512, 1024, 2048, 3600, 3600,
    ] {
        assert_eq!(browser.due(&cache, due - 1), Ok(due));
        assert_eq!(tick(&mut browser, &cache, due - 1), None);
        let query = tick(&mut browser, &cache, due).unwrap();
        assert_eq!(query.len(), 12 + SERVICE.len() + 4);
        assert_eq!(&query[12..12 + SERVICE.len()], SERVICE);
        assert_eq!(query[12 + SERVICE.len()..], [0, 12, 0, 1]);
        assert_eq!(tick(&mut browser, &cache, due), None);
        due += 1000 * gap;
    }
}

#[test]
fn what_is_known_is_listed_and_shown_once() {
    let mut cache = Cache::default();
    let mut browser = Browser::start("_voice", "_tcp", 0, DRAWS).unwrap();
    let heard = response(120, &["booth", "BOOTH", "dock"]);
    cache.take(0, PORT, &heard).unwrap();
    // letters folded, the lowest entry's spelling
    assert_eq!(
        shown(&browser, &cache, 0),
        [instance("booth"), instance("dock")]
    );
    let query = tick(&mut browser, &cache, 20).unwrap();
    let message = Message::read(&query).unwrap();
    let ttls: Vec<u32> = message
        .records(Section::Answer)
        .map(|record| record.ttl)
        .collect();
    assert_eq!(ttls, [119, 119, 119]);
    // at half the TTL they are known no more; a goodbye ends one after a second
    assert!(shown(&browser, &cache, 119_999).len() == 2);
    assert!(shown(&browser, &cache, 120_000).is_empty());
    cache.take(100, PORT, &response(0, &["dock"])).unwrap();
    assert_eq!(shown(&browser, &cache, 1100), [instance("booth")]);
}

#[test]
fn refusals() {
    let start = |service, protocol, first, refresh| {
        let draws = BrowserDraws { first, refresh };
        Browser::start(service, protocol, 0, draws).err()
    };
    assert_eq!(start("_voice", "_udp", 120, 20), None);
    assert_eq!(start("_voice", "_tcp", 19, 0), Some(Refusal::Draw));
    assert_eq!(start("_voice", "_tcp", 121, 0), Some(Refusal::Draw));
    assert_eq!(start("_voice", "_tcp", 20, 21), Some(Refusal::Draw));
    assert_eq!(start("voice", "_tcp", 20, 0), Some(Refusal::Setup));
    assert_eq!(start("_voice", "_sctp", 20, 0), Some(Refusal::Setup));
    let cache = Cache::default();
    let mut browser = Browser::start("_voice", "_tcp", 1000, DRAWS).unwrap();
    let mut out = [0; OUT_BYTES];
    assert_eq!(
        browser.tick(&cache, 999, &mut out).err(),
        Some(Refusal::Time)
    );
    assert_eq!(
        browser.tick(&cache, 1000, &mut out[1..]).err(),
        Some(Refusal::Buffer)
    );
    assert!(browser.tick(&cache, 1000, &mut out).is_ok());
}
