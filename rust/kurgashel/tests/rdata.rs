//! What rdata says, of an announcement by hand and of parts that are not as their types ask.

use kurgashel::{Cache, Data, Message, Name, Nsec, Section, Srv, Strings};

/// SRV, TXT, A and AAAA of one instance: the SRV's rdata at 47 with its target at 53, the TXT's at 72, the A's at 100, the AAAA's at 116.
const ANNOUNCEMENT: &[u8] = b"\0\0\x84\0\0\0\0\x04\0\0\0\0\
    \x05booth\x06_voice\x04_tcp\x05local\0\0\x21\x80\x01\0\0\0\x78\0\x0d\0\x01\0\x02\x0f\xa0\x04dock\xc0\x1e\
    \xc0\x0c\0\x10\x80\x01\0\0\x11\x94\0\x10\x06room=3\0\x07passreq\
    \xc0\x35\0\x01\x80\x01\0\0\0\x78\0\x04\x0a\0\0\x07\
    \xc0\x35\0\x1c\x80\x01\0\0\0\x78\0\x10\xfe\x80\0\0\0\0\0\0\0\0\0\0\0\0\0\x07";

const HOST: &[u8] = b"\x04dock\x05local\0";

#[test]
fn the_records_of_an_announcement() {
    let message = Message::read(ANNOUNCEMENT).expect("well formed");
    let records: Vec<_> = message.records(Section::Answer).collect();
    let [srv, txt, a, aaaa] = &records[..] else {
        panic!("{} records", records.len());
    };
    let Data::Srv(service) = &srv.data else {
        panic!("an SRV");
    };
    assert_eq!(
        (service.priority, service.weight, service.port),
        (1, 2, 4000)
    );
    assert_eq!(service.target.as_bytes(), HOST);
    assert_eq!(srv.data.target().map(|name| name.as_bytes()), Some(HOST));
    let Data::Txt(strings) = txt.data else {
        panic!("a TXT");
    };
    assert_eq!(
        strings.collect::<Vec<_>>(),
        [&b"room=3"[..], b"", b"passreq"]
    );
    assert!(txt.data.target().is_none());
    assert!(matches!(a.data, Data::A(address) if address.octets() == [10, 0, 0, 7]));
    assert!(matches!(aaaa.data, Data::Aaaa(address) if address.to_string() == "fe80::7"));
    assert_eq!(a.owner.as_bytes(), HOST);
    // the instance in the owner's name, and the host in a name that is a pointer to the SRV's target
    assert_eq!(
        (srv.owner.labels(), srv.owner.first_label()),
        (4, &b"booth"[..])
    );
    assert_eq!((a.owner.labels(), a.owner.first_label()), (2, &b"dock"[..]));
    assert_eq!(
        (service.target.labels(), service.target.first_label()),
        (2, &b"dock"[..])
    );
}

#[test]
fn parts_that_are_not_as_their_types_ask() {
    assert!(Srv::read(ANNOUNCEMENT, 47..60).is_some());
    for part in [47..59, 47..61, 48..60, 47..53, 47..47, 47..1000] {
        assert!(Srv::read(ANNOUNCEMENT, part.clone()).is_none());
        assert!(Data::read(33, ANNOUNCEMENT, 12, part.clone()).is_none());
        assert!(Data::read(1, ANNOUNCEMENT, 12, part).is_none());
    }
    assert!(Data::read(12, ANNOUNCEMENT, 12, 53..60).is_some());
    assert!(Data::read(12, ANNOUNCEMENT, 12, 53..59).is_none());
    assert!(Data::read(28, ANNOUNCEMENT, 12, 100..104).is_none());
    assert!(Data::read(1, ANNOUNCEMENT, 12, 116..132).is_none());
    assert!(Data::read(255, ANNOUNCEMENT, 12, 116..133).is_none());
    assert!(
        matches!(Data::read(255, ANNOUNCEMENT, 12, 100..104), Some(Data::Other(bytes)) if bytes == [10, 0, 0, 7])
    );
}

#[test]
fn rdata_of_a_cache() {
    let rdata = b"\xff\xff\0\0\x01\x02\x04dock\x05local\0";
    let Some(Data::Srv(srv)) = Data::of(33, rdata) else {
        panic!("an SRV");
    };
    assert_eq!((srv.priority, srv.weight, srv.port), (65535, 0, 258));
    assert_eq!(srv.target.as_bytes(), HOST);
    assert!(Data::of(33, &rdata[..17]).is_none());
    assert!(Data::of(12, HOST).is_some());
}

/// An NSEC of `dock.local` at 12, its next name in other letters and cut: the rdata at 34, the next name's pointer at 39, the window block at 41.
const NO_AAAA: &[u8] =
    b"\0\0\x84\0\0\0\0\x01\0\0\0\0\x04dock\x05local\0\0\x2f\x80\x01\0\0\0\x78\0\x0a\x04DOCK\xc0\x11\0\x01\x40";

#[test]
fn an_nsec_says_which_types_a_name_has() {
    let message = Message::read(NO_AAAA).expect("well formed");
    let records: Vec<_> = message.records(Section::Answer).collect();
    let Data::Nsec(nsec) = &records[0].data else {
        panic!("an NSEC of the restricted kind");
    };
    assert_eq!(nsec.next.as_bytes(), b"\x04DOCK\x05local\0");
    assert_eq!(
        (nsec.next.labels(), nsec.next.first_label()),
        (2, &b"DOCK"[..])
    );
    assert_eq!(nsec.types().collect::<Vec<_>>(), [1]);
    assert!(nsec.names(1) && !nsec.names(28) && !nsec.names(256) && !nsec.names(65535));
    // another owner, window 1, and a length of 0 or 33
    for (at, byte) in [(13, b'e'), (41, 1), (42, 0), (42, 33)] {
        let mut other = NO_AAAA.to_vec();
        other[at] = byte;
        let message = Message::read(&other).expect("stepped over");
        let records: Vec<_> = message.records(Section::Answer).collect();
        assert!(matches!(records[0].data, Data::Other(bytes) if bytes == &other[34..]));
    }
    // a byte less, and an owner elsewhere
    assert!(Nsec::read(NO_AAAA, 12, 34..43).is_none());
    assert!(Nsec::read(NO_AAAA, 17, 34..44).is_none());
    let host = b"\x04dock\x05local\0\0\x04\x40\0\0\x08";
    let Some(Data::Nsec(nsec)) = Data::of(47, host) else {
        panic!("the next name of a cached one is its owner");
    };
    assert_eq!(nsec.types().collect::<Vec<_>>(), [1, 28]);
}

#[test]
fn labels_of_names() {
    let numbers = |message: &[u8], at| {
        Name::read(message, at).map(|name| (name.labels(), name.first_label().to_vec()))
    };
    assert_eq!(numbers(b"\0", 0), Some((0, vec![])));
    assert_eq!(numbers(HOST, 0), Some((2, b"dock".to_vec())));
    assert_eq!(numbers(HOST, 5), Some((1, b"local".to_vec())));
    assert_eq!(
        numbers(&[&[1, b'a'].repeat(127)[..], &[0]].concat(), 0),
        Some((127, b"a".to_vec()))
    );
    assert_eq!(numbers(b"\x04dock", 0), None);
}

#[test]
fn the_first_label_of_what_is_found() {
    let mut cache = Cache::default();
    cache.take(1000, 5353, ANNOUNCEMENT).expect("well formed");
    let name = b"\x05BOOTH\x06_voice\x04_tcp\x05local\0";
    let found = cache
        .look_up(1000, name, 33, 0)
        .expect("a name")
        .expect("an SRV");
    assert_eq!((found.labels, found.first_label), (4, &b"booth"[..]));
}

#[test]
fn strings_end_at_one_that_runs_past() {
    assert_eq!(Strings::of(b"\x01a\x02b").collect::<Vec<_>>(), [b"a"]);
    assert_eq!(Strings::of(b"").count(), 0);
    assert_eq!(Strings::of(b"\0").collect::<Vec<_>>(), [b""]);
}
