use super::*;

const RICH: &[u8] = b"\x04rich\x07example\x00";
const LDH: &[u8] = b"\x03ldh\x07example\x00";

fn proxy() -> Proxy {
    Proxy::new(RICH, LDH).unwrap()
}

fn ask(proxy: &Proxy, name: &[u8], rtype: u16) -> Result<Asked, u8> {
    let name = Name::from_wire(name).unwrap();
    proxy.question(&name, rtype).map_err(Refusal::number)
}

fn given(owner: &[u8], rtype: u16, rdata: &[u8]) -> Given {
    Given {
        owner: owner.to_vec(),
        rtype,
        class: 0x8001,
        ttl: 120,
        rdata: rdata.to_vec(),
    }
}

/// The owner and the rdata of what is passed on.
type Passed = Option<(Vec<u8>, Vec<u8>)>;

fn passed(proxy: &Proxy, given: &Given) -> Result<Passed, u8> {
    let passed = proxy.answer(given).map_err(Refusal::number)?;
    Ok(passed.map(|passed| {
        assert_eq!((passed.class, passed.ttl), (1, 10));
        (passed.owner, passed.rdata)
    }))
}

/// A name of `length` bytes that ends in `suffix`.
fn long(length: usize, suffix: &[u8]) -> Vec<u8> {
    let mut wire = Vec::new();
    let mut left = length - suffix.len();
    while left > 0 {
        let label = match left {
            65 => 32,
            _ => left.min(64),
        };
        wire.push(label as u8 - 1);
        wire.extend(vec![b'x'; label - 1]);
        left -= label;
    }
    [&wire, suffix].concat()
}

#[test]
fn set_ups() {
    let long = long(255, LOCAL);
    let too_long = [b"\x01x", &long[..]].concat();
    for (rich, ldh, legal) in [
        (RICH, LDH, true),
        (RICH, RICH, false),
        (RICH, b"\x04RICH\x07exAmple\x00", false),
        (RICH, b"\x07example\x00", false),
        (b"\x07Example\x00", LDH, false),
        (RICH, b"\x01a\x04rich\x07example\x00", false),
        (b"\x01a\x04rich\x07example\x00", RICH, false),
        // by bytes, but not by labels
        (RICH, b"\x06a\x04rich\x07example\x00", true),
        (b"\x00", LDH, false),
        (RICH, b"\x00", false),
        (b"\x00", b"\x00", false),
        (b"", LDH, false),
        (RICH, b"\x04rich", false),
        (RICH, b"\x03ldh\xc0\x0c", false),
        (RICH, b"\x03ldh\x00\x00", false),
        (RICH, b"\x40", false),
        (LOCAL, LDH, true),
        (b"\x01\x00\x00", b"\x01.\x00", true),
        (&long, LDH, true),
        (RICH, &too_long, false),
    ] {
        let made = Proxy::new(rich, ldh).map_err(Refusal::number).err();
        assert_eq!(made, (!legal).then_some(7), "{rich:?} {ldh:?}");
    }
}

#[test]
fn questions() {
    let proxy = proxy();
    let local = |name: &[u8]| Ok(Asked::Ask(name.to_vec()));
    for rtype in [0, 1, 12, 16, 28, 33, 47, 255, 65_535] {
        assert_eq!(
            ask(&proxy, b"\x03Tea\x04_tcp\x04RICH\x07example\x00", rtype),
            local(b"\x03Tea\x04_tcp\x05local\x00")
        );
        assert_eq!(
            ask(&proxy, b"\x04desk\x03ldh\x07Example\x00", rtype),
            local(b"\x04desk\x05local\x00")
        );
    }
    for rtype in [2, 6, 43] {
        assert_eq!(
            ask(&proxy, b"\x01x\x04rich\x07example\x00", rtype),
            Ok(Asked::Negative)
        );
        assert_eq!(
            ask(&proxy, b"\x01x\x03ldh\x07example\x00", rtype),
            Ok(Asked::Negative)
        );
        // an apex and other names
        for name in [
            RICH,
            LDH,
            b"\x07example\x00",
            b"\x01x\x05local\x00",
            b"\x00",
        ] {
            assert_eq!(ask(&proxy, name, rtype), local(name));
        }
    }
    // by bytes, but not by labels
    let odd = b"\x06x\x04rich\x07example\x00";
    assert_eq!(ask(&proxy, odd, 1), local(odd));
    assert_eq!(ask(&proxy, odd, 6), local(odd));
    let short = Proxy::new(b"\x01a\x00", b"\x01b\x00").unwrap();
    for (length, refused) in [(250, false), (251, false), (252, true), (255, true)] {
        let asked = ask(&short, &long(length, b"\x01B\x00"), 1);
        match refused {
            false => assert_eq!(asked, local(&long(length + 4, LOCAL))),
            true => assert_eq!(asked, Err(13)),
        }
        assert_eq!(
            ask(&short, &long(length, b"\x01B\x00"), 2),
            Ok(Asked::Negative)
        );
    }
}

#[test]
fn records() {
    let proxy = proxy();
    let name = b"\x01x\x05LOCAL\x00";
    let rich = b"\x01x\x04rich\x07example\x00".to_vec();
    let ldh = b"\x01x\x03ldh\x07example\x00".to_vec();
    let srv = |target: &[u8]| [b"\x00\x01\x00\x02\x00\x03", target].concat();
    for (rtype, rdata, owner, out) in [
        (12, name.to_vec(), &rich, rich.clone()),
        (33, srv(name), &rich, srv(&ldh)),
        (16, b"\x05local".to_vec(), &rich, b"\x05local".to_vec()),
        (16, vec![], &rich, vec![]),
        (1, vec![1; 4], &ldh, vec![1; 4]),
        (28, vec![1; 16], &ldh, vec![1; 16]),
    ] {
        let record = given(name, rtype, &rdata);
        assert_eq!(passed(&proxy, &record), Ok(Some((owner.clone(), out))));
        // the apex and others stay
        for owner in [LOCAL, RICH, b"\x00", b"\x08x\x05local\x00\x00"] {
            let record = given(owner, rtype, &rdata);
            let stays = passed(&proxy, &record).unwrap().unwrap();
            assert_eq!(stays.0, owner);
        }
    }
    for (owner, rtype, rdata) in [
        (&name[..], 1, vec![1; 3]),
        (name, 1, vec![]),
        (name, 28, vec![1; 4]),
        (name, 16, vec![1]),
        (name, 12, vec![]),
        (name, 12, vec![0, 0]),
        (name, 12, vec![0xc0, 12]),
        (name, 33, vec![0; 6]),
        (name, 33, vec![0; 5]),
        (name, 47, name.to_vec()),
        (name, 99, vec![1; 4]),
        (b"\x01x", 1, vec![1; 4]),
        (b"", 1, vec![1; 4]),
        (b"\x01x\xc0\x0c", 1, vec![1; 4]),
        (b"\x00\x00", 1, vec![1; 4]),
    ] {
        assert_eq!(passed(&proxy, &given(owner, rtype, &rdata)), Ok(None));
    }
    let mut record = given(name, 1, &[1; 4]);
    for (class, ttl, out) in [
        (1, 9, (1, 9)),
        (0x8003, 11, (3, 10)),
        (0x8000, 0, (0, 0)),
        (0xffff, 0x7fff_ffff, (0x7fff, 10)),
        (255, 0x8000_0000, (255, 0)),
        (255, 0xffff_ffff, (255, 0)),
    ] {
        (record.class, record.ttl) = (class, ttl);
        let passed = proxy.answer(&record).unwrap().unwrap();
        assert_eq!((passed.class, passed.ttl), out);
    }
}

#[test]
fn lengths_of_records() {
    // 7 bytes of "local" become 14 of the one domain and 13 of the other
    let proxy = proxy();
    for (rtype, fits, owner) in [
        (12, 248, RICH),
        (16, 248, RICH),
        (33, 248, RICH),
        (1, 249, LDH),
    ] {
        let rdata = match rtype {
            12 => vec![0],
            33 => vec![0; 7],
            1 => vec![1; 4],
            _ => vec![],
        };
        let record = |length| given(&long(length, LOCAL), rtype, &rdata);
        let out = passed(&proxy, &record(fits)).unwrap().unwrap().0;
        assert_eq!(out, long(255, owner));
        assert_eq!(passed(&proxy, &record(fits + 1)), Err(13));
        assert_eq!(passed(&proxy, &record(255)), Err(13));
        // left out all the same
        let mut bad = record(fits + 1);
        bad.rdata.extend([2, 0]);
        assert_eq!(passed(&proxy, &bad), Ok(None));
        let other = given(&long(255, b"\x05LocaX\x00"), rtype, &rdata);
        assert_eq!(passed(&proxy, &other).unwrap().unwrap().0, other.owner);
    }
    for (length, fits) in [(248, true), (249, false)] {
        let target = given(LOCAL, 12, &long(length, LOCAL));
        assert_eq!(passed(&proxy, &target).is_ok(), fits);
        let target = [&[0; 6], &long(length + 1, LOCAL)[..]].concat();
        assert_eq!(passed(&proxy, &given(LOCAL, 33, &target)).is_ok(), fits);
    }
}

#[test]
fn out_and_back() {
    let proxy = proxy();
    for owner in [
        &b"\x01x\x05LOCAL\x00"[..],
        b"\x01x\x04rich\x07example\x05local\x00",
    ] {
        for rtype in [1, 16] {
            let rdata = vec![0; if rtype == 1 { 4 } else { 1 }];
            let out = passed(&proxy, &given(owner, rtype, &rdata)).unwrap();
            let Ok(Asked::Ask(back)) = ask(&proxy, &out.unwrap().0, rtype) else {
                panic!("a name")
            };
            assert!(back.eq_ignore_ascii_case(owner));
        }
    }
}
