//! The proxy over this crate: a question in, the records of an announcement and of a cache out, and what is refused.

use kurgashel::{Asked, Cache, Message, Proxy, Refusal, Section};

/// SRV, TXT and A of one instance, and an NSEC.
const ANNOUNCEMENT: &[u8] = b"\0\0\x84\0\0\0\0\x04\0\0\0\0\
    \x05booth\x06_voice\x04_tcp\x05local\0\0\x21\x80\x01\0\0\0\x78\0\x0d\0\x01\0\x02\x0f\xa0\x04dock\xc0\x1e\
    \xc0\x0c\0\x10\x80\x01\0\0\0\x05\0\x07\x06room=3\
    \xc0\x35\0\x01\x80\x01\0\0\0\x78\0\x04\x0a\0\0\x07\
    \xc0\x35\0\x2f\x80\x01\0\0\0\x78\0\x05\xc0\x35\0\x01\x40";

const INSTANCE: &[u8] = b"\x05booth\x06_voice\x04_tcp\x04rich\x07example\0";
const HOST: &[u8] = b"\x04dock\x03ldh\x07example\0";

fn proxy() -> Proxy {
    Proxy::new(b"\x04rich\x07example\0", b"\x03ldh\x07example\0").expect("two domains")
}

#[test]
fn domains_that_are_none() {
    for (rich, ldh) in [
        (&b"\x01a\0"[..], &b"\x01A\0"[..]),
        (b"\x01a\0", b"\x01b\x01a\0"),
        (b"\0", b"\x01a\0"),
        (b"\x01a", b"\x01b\0"),
        (b"", b""),
    ] {
        assert_eq!(Proxy::new(rich, ldh), Err(Refusal::Setup));
        assert_eq!(Proxy::new(ldh, rich), Err(Refusal::Setup));
    }
}

#[test]
fn questions() {
    let asked = |name: &[u8], rtype| match proxy().question(name, rtype) {
        Ok(Asked::Name(name)) => Ok(Some(name.as_bytes().to_vec())),
        Ok(Asked::Negative) => Ok(None),
        Err(refusal) => Err(refusal),
    };
    assert_eq!(asked(HOST, 1), Ok(Some(b"\x04dock\x05local\0".to_vec())));
    assert_eq!(
        asked(INSTANCE, 33),
        Ok(Some(b"\x05booth\x06_voice\x04_tcp\x05local\0".to_vec()))
    );
    assert_eq!(
        asked(b"\x04dock\x07example\0", 6),
        Ok(Some(b"\x04dock\x07example\0".to_vec()))
    );
    for rtype in [2, 6, 43] {
        assert_eq!(asked(HOST, rtype), Ok(None));
        assert_eq!(
            asked(b"\x03ldh\x07example\0", rtype),
            Ok(Some(b"\x03ldh\x07example\0".to_vec()))
        );
    }
    assert_eq!(asked(b"\x04dock", 1), Err(Refusal::Malformed));
    let long: Vec<u8> = [&[60; 61][..]; 4].concat();
    let under = |domain: &[u8]| [&long[..], domain].concat();
    let short = Proxy::new(b"\x01a\0", b"\x01b\0").expect("two domains");
    assert!(short.question(&under(b"\x01a\0"), 1).is_ok());
    assert_eq!(
        proxy()
            .plain_record(&under(b"\x05local\0"), 16, 1, 9, b"")
            .err(),
        Some(Refusal::TooLong)
    );
    assert_eq!(Refusal::TooLong.number(), 13);
}

#[test]
fn the_records_of_an_announcement() {
    let message = Message::read(ANNOUNCEMENT).expect("well formed");
    let proxy = proxy();
    let records: Vec<_> = proxy.records(&message, Section::Answer).collect();
    let [Ok(Some(srv)), Ok(Some(txt)), Ok(Some(a)), Ok(None)] = &records[..] else {
        panic!("three records, and an NSEC that is left out");
    };
    assert_eq!(srv.owner.as_bytes(), INSTANCE);
    assert_eq!(srv.rdata(), [b"\0\x01\0\x02\x0f\xa0", HOST].concat());
    assert_eq!(
        (txt.owner.as_bytes(), txt.rdata()),
        (INSTANCE, &b"\x06room=3"[..])
    );
    assert_eq!((a.owner.as_bytes(), a.rdata()), (HOST, &[10, 0, 0, 7][..]));
    for (record, rtype, ttl) in [(srv, 33, 10), (txt, 16, 5), (a, 1, 10)] {
        assert_eq!((record.rtype, record.class, record.ttl), (rtype, 1, ttl));
    }
    assert_eq!(proxy.records(&message, Section::Additional).count(), 0);
}

#[test]
fn the_records_of_a_cache() {
    let mut cache = Cache::default();
    cache.take(1000, 5353, ANNOUNCEMENT).expect("a response");
    let proxy = proxy();
    let found = cache
        .look_up(1000, b"\x04dock\x05local\0", 1, 0)
        .expect("a good table")
        .expect("the A");
    let ttl = |now| {
        proxy
            .cached(now, &cache, found.slot)
            .map(|record| record.map(|r| (r.ttl, r.owner.as_bytes().to_vec(), r.rdata().to_vec())))
    };
    let passed = |ttl| Ok(Some((ttl, HOST.to_vec(), vec![10, 0, 0, 7])));
    assert_eq!(ttl(1000), passed(10));
    assert_eq!(ttl(111_001), passed(9));
    assert_eq!(ttl(120_999), passed(0));
    assert_eq!(ttl(121_000), Ok(None));
    assert_eq!(ttl(999), Err(Refusal::Time));
    let kinds: Vec<_> = (0..70)
        .map(|slot| proxy.cached(1000, &cache, slot).expect("taken"))
        .map(|record| record.map(|r| r.rtype))
        .collect();
    assert_eq!(kinds[..4], [Some(33), Some(16), Some(1), None]);
    assert!(kinds[4..].iter().all(Option::is_none));
}
