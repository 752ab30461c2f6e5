use super::*;

fn offset(trace: &[u8]) -> Option<usize> {
    read(trace).err().map(|broken| broken.offset)
}

fn tick() -> Vec<u8> {
    [&[TICK][..], &5_u64.to_be_bytes()].concat()
}

/// A kind 2 or 8 with this length; the port is 5353, the draw 20.
fn head(kind: u8, length: u16) -> Vec<u8> {
    let mut bytes = [&[kind][..], &7_u64.to_be_bytes()].concat();
    if kind == RECEIVED {
        bytes.extend([0x14, 0xe9, 20]);
    }
    bytes.extend(length.to_be_bytes());
    bytes
}

fn piece(data: &[u8]) -> Vec<u8> {
    let mut bytes = vec![PIECE];
    bytes.extend(data);
    bytes.resize(17, 0);
    bytes
}

fn source(last: u8, hold_draw: u16) -> Vec<u8> {
    let mut bytes = vec![0; 17];
    bytes[0] = SOURCE;
    bytes[16] = last;
    bytes.extend(hold_draw.to_be_bytes());
    bytes
}

fn received(packet: &[u8]) -> Event {
    Event::Received(Received {
        now: 7,
        from: NO_ADDRESS,
        port: 5353,
        draw: 20,
        hold_draw: 400,
        packet: packet.to_vec(),
    })
}

/// Reads what was written of one event, and gives it.
fn written(event: &Event) -> Vec<u8> {
    let events = [event.clone()];
    let trace = write(&events, u64::MAX).unwrap();
    assert_eq!(read(&trace).unwrap(), events);
    assert_eq!(write(&events, trace.len() as u64).as_ref(), Ok(&trace));
    let short = write(&events, trace.len() as u64 - 1);
    assert_eq!(short, Err(Unwritten::Room));
    trace
}

#[test]
fn one_of_each() {
    assert_eq!(written(&Event::Tick(5)), tick());
    assert_eq!(written(&received(b"")), head(RECEIVED, 0));
    for length in [1, 15, 16, 17, 31, 32, 33, 65_535] {
        let packet: Vec<u8> = (0..length).map(|at| 1 + (at % 250) as u8).collect();
        for (event, kind) in [
            (received(&packet), RECEIVED),
            (
                Event::Txt {
                    now: 7,
                    txt: packet.clone(),
                },
                TXT,
            ),
        ] {
            let pieces = packet.chunks(16).map(piece).collect::<Vec<_>>().concat();
            let expected = [head(kind, length as u16), pieces].concat();
            assert_eq!(written(&event), expected);
        }
    }
    let claim = Event::Claim {
        last: 5000,
        claim: 1,
        state: 3,
    };
    assert_eq!(
        written(&claim),
        b"\x04\x00\x00\x00\x00\x00\x00\x13\x88\x01\x03"
    );
    assert_eq!(
        written(&Event::Stop(u64::MAX)),
        b"\x06\xff\xff\xff\xff\xff\xff\xff\xff"
    );
    assert_eq!(
        written(&Event::Port { now: 1, port: 4000 }),
        b"\x07\x00\x00\x00\x00\x00\x00\x00\x01\x0f\xa0"
    );
    for (last, hold_draw) in [(1, 400), (0, 401), (0, 0), (0, 399), (0, 65_535)] {
        let Event::Received(mut event) = received(b"") else {
            unreachable!()
        };
        event.from[15] = last;
        event.hold_draw = hold_draw;
        let expected = [source(last, hold_draw as u16), head(RECEIVED, 0)].concat();
        assert_eq!(written(&Event::Received(event)), expected);
    }
    assert_eq!(read(b""), Ok(vec![]));
    assert_eq!(write(&[], 0), Ok(vec![]));
}

#[test]
fn broken_traces() {
    let packet = [head(RECEIVED, 17), piece(&[1; 16]), piece(&[1])].concat();
    assert_eq!(offset(&packet), None);
    // every cut, and what is owed at the end
    for cut in 1..packet.len() {
        let expected = [14, 31]
            .into_iter()
            .rev()
            .find(|end| *end <= cut)
            .unwrap_or(0);
        assert_eq!(offset(&packet[..cut]), Some(expected), "cut at {cut}");
    }
    let behind = |record: &[u8]| offset(&[&tick(), record].concat());
    for kind in [0, 9, 10, 0x81, 0xff] {
        assert_eq!(behind(&[kind; 40]), Some(9));
    }
    assert_eq!(behind(&piece(&[])), Some(9));
    assert_eq!(behind(&source(0, 400)), Some(9));
    assert_eq!(behind(&source(0, 401)), Some(28));
    assert_eq!(behind(&[source(0, 401), source(0, 401)].concat()), Some(28));
    assert_eq!(behind(&[source(0, 401), tick()].concat()), Some(28));
    assert_eq!(behind(&[source(0, 401), piece(&[])].concat()), Some(28));
    for (claim, state, fits) in [(1, 4, true), (2, 4, false), (1, 5, false), (0, 255, false)] {
        let record = [&[CLAIM, 0, 0, 0, 0, 0, 0, 0, 0][..], &[claim, state]].concat();
        assert_eq!(behind(&record), (!fits).then_some(9));
    }
    for kind in [RECEIVED, TXT] {
        let at = 9 + head(kind, 0).len();
        let pieced =
            |length, rest: &[Vec<u8>]| behind(&[head(kind, length), rest.concat()].concat());
        assert_eq!(pieced(0, &[piece(&[])]), Some(at));
        assert_eq!(pieced(1, &[piece(&[]), piece(&[])]), Some(at + 17));
        assert_eq!(pieced(15, &[piece(&[1; 16])]), Some(at));
        assert_eq!(pieced(16, &[piece(&[1; 16])]), None);
        assert_eq!(
            pieced(17, &[piece(&[1; 16]), piece(&[1, 1])]),
            Some(at + 17)
        );
        assert_eq!(pieced(17, &[piece(&[1; 16]), tick()]), Some(at + 17));
        assert_eq!(pieced(1, &[tick()]), Some(at));
        assert_eq!(pieced(1, &[]), Some(at));
    }
}

#[test]
fn values_that_do_not_fit() {
    let refused = |event: Event| match write(&[Event::Tick(0), event], 0) {
        Err(Unwritten::Value(broken)) => Some(broken.offset),
        Err(Unwritten::Room) => None,
        Ok(_) => panic!("no room"),
    };
    let Event::Received(base) = received(b"") else {
        unreachable!()
    };
    for (port, draw, hold_draw, length, expected) in [
        (65_535, 255, 400, 65_535, None),
        (65_536, 255, 400, 0, Some(9)),
        (65_535, 256, 400, 0, Some(9)),
        (65_535, 255, 400, 65_536, Some(9)),
        (65_535, 255, 65_535, 65_535, None),
        (65_536, 255, 65_535, 0, Some(28)),
        (65_535, 255, 65_536, 0, Some(9)),
        (65_536, 256, 65_936, 0, Some(9)),
    ] {
        let event = Received {
            port,
            draw,
            hold_draw,
            packet: vec![0; length],
            ..base.clone()
        };
        assert_eq!(refused(Event::Received(event)), expected);
    }
    for (claim, state, expected) in [
        (1, 4, None),
        (2, 4, Some(9)),
        (1, 5, Some(9)),
        (256, 0, Some(9)),
    ] {
        let last = u64::MAX;
        assert_eq!(refused(Event::Claim { last, claim, state }), expected);
    }
    assert_eq!(
        refused(Event::Port {
            now: 0,
            port: 65_535
        }),
        None
    );
    assert_eq!(
        refused(Event::Port {
            now: 0,
            port: 65_536
        }),
        Some(9)
    );
    let txt = vec![0; 65_536];
    assert_eq!(refused(Event::Txt { now: 0, txt }), Some(9));
}
