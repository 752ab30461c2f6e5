//! Claims, answers and refusals, step by step.

use super::*;
use crate::setup::tests::example;
use crate::MDNS_PORT;

pub(super) const HOST: &[u8] = b"\x04dock\x05local\x00";
pub(super) const HOST_OTHER_CASE: &[u8] = b"\x04DOCK\x05lOcal\x00";
pub(super) const INSTANCE: &[u8] = b"\x05booth\x06_voice\x04_tcp\x05local\x00";
pub(super) const SERVICE: &[u8] = b"\x06_voice\x04_tcp\x05local\x00";
pub(super) const OTHER_A: &[u8] = &[10, 0, 0, 8];
pub(super) const OWN_A: &[u8] = &[10, 0, 0, 7];

pub(super) type TestRecord<'a> = (&'a [u8], u16, u16, u32, &'a [u8]);

pub(super) fn packet(
    flags: u16,
    questions: &[(&[u8], u16, u16)],
    sections: [&[TestRecord]; 3],
) -> Vec<u8> {
    let mut bytes = vec![0, 0];
    bytes.extend(flags.to_be_bytes());
    bytes.extend((questions.len() as u16).to_be_bytes());
    for section in sections {
        bytes.extend((section.len() as u16).to_be_bytes());
    }
    for (name, rtype, class) in questions {
        bytes.extend_from_slice(name);
        bytes.extend(rtype.to_be_bytes());
        bytes.extend(class.to_be_bytes());
    }
    for (owner, rtype, class, ttl, rdata) in sections.concat() {
        bytes.extend(owner);
        bytes.extend(rtype.to_be_bytes());
        bytes.extend(class.to_be_bytes());
        bytes.extend(ttl.to_be_bytes());
        bytes.extend((rdata.len() as u16).to_be_bytes());
        bytes.extend(rdata);
    }
    bytes
}

pub(super) fn response(records: &[TestRecord]) -> Vec<u8> {
    packet(0x8400, &[], [records, &[], &[]])
}

pub(super) fn query(questions: &[(&[u8], u16, u16)], known: &[TestRecord]) -> Vec<u8> {
    packet(0, questions, [known, &[], &[]])
}

fn host_probe(records: &[TestRecord]) -> Vec<u8> {
    packet(0, &[(HOST, 255, 1)], [&[], records, &[]])
}

/// A packet that comes from port 5353 of 10.0.0.1, with the least draws.
pub(super) fn arrival(now: u64, packet: &[u8]) -> Arrival<'_> {
    let mut from = [0; 16];
    from[10..].copy_from_slice(&[0xff, 0xff, 10, 0, 0, 1]);
    Arrival {
        now,
        from,
        port: MDNS_PORT,
        draw: 20,
        hold_draw: 400,
        packet,
    }
}

/// The packets of a call, by the way they go.
pub(super) struct Packets {
    pub multicast: Option<Vec<u8>>,
    pub unicast: Option<Vec<u8>>,
}

pub(super) fn take(responder: &mut Responder, arrival: Arrival) -> Result<Packets, Refusal> {
    let (mut first, mut second) = ([0; LEAST_OUT], [0; LEAST_OUT]);
    let outs = Outs {
        multicast: &mut first,
        unicast: &mut second,
    };
    let answered = responder.receive(arrival, outs)?;
    Ok(Packets {
        multicast: answered.multicast.map(|length| first[..length].to_vec()),
        unicast: answered.unicast.map(|length| second[..length].to_vec()),
    })
}

/// Gives the packet sent by multicast, or nothing; none goes by unicast.
pub(super) fn receive(responder: &mut Responder, now: u64, packet: &[u8]) -> Option<Vec<u8>> {
    let packets = take(responder, arrival(now, packet)).unwrap();
    assert_eq!(packets.unicast, None);
    packets.multicast
}

/// The types of the records sent.
pub(super) fn answered(responder: &mut Responder, now: u64, packet: &[u8]) -> Vec<u16> {
    receive(responder, now, packet).map_or(vec![], |packet| types(&packet))
}

pub(super) fn types(packet: &[u8]) -> Vec<u16> {
    let message = Message::read(packet).unwrap();
    message.records.iter().map(|record| record.rtype).collect()
}

/// The types of the records sent, and whether more is due.
pub(super) fn tick(responder: &mut Responder, now: u64) -> Option<(Vec<u16>, bool)> {
    let mut out = [0; LEAST_OUT];
    let sent = responder.tick(now, &mut out).unwrap();
    sent.map(|sent| (types(&out[..sent.length]), sent.more))
}

/// A responder that announced at 1,000 and again at 2,000.
pub(super) fn held() -> Responder {
    let mut responder = Responder::start(250, 0, example()).unwrap();
    for now in [250, 500, 750, 1000, 2000] {
        assert!(tick(&mut responder, now).unwrap().1);
        assert!(!tick(&mut responder, now).unwrap().1);
    }
    assert_eq!(responder.host, Claim::Held { second_step: None });
    responder
}

pub(super) fn probing() -> Responder {
    let mut responder = Responder::start(0, 0, example()).unwrap();
    tick(&mut responder, 0);
    tick(&mut responder, 0);
    responder
}

#[test]
fn a_claims_life() {
    let mut responder = Responder::start(100, 50, example()).unwrap();
    assert_eq!(tick(&mut responder, 149), None);
    assert_eq!(tick(&mut responder, 150), Some((vec![16, 33], true)));
    assert_eq!(tick(&mut responder, 160), Some((vec![1], false)));
    // 250 ms after the last was sent, not after it was due
    assert_eq!(tick(&mut responder, 399), None);
    assert_eq!(tick(&mut responder, 400), Some((vec![16, 33], false)));
    assert_eq!(tick(&mut responder, 409), None);
    assert_eq!(tick(&mut responder, 410), Some((vec![1], false)));
    assert_eq!(tick(&mut responder, 700), Some((vec![16, 33], true)));
    assert_eq!(tick(&mut responder, 700), Some((vec![1], false)));
    assert_eq!(tick(&mut responder, 949), None);
    assert_eq!(tick(&mut responder, 950), Some((vec![12, 33, 16], true)));
    assert_eq!(tick(&mut responder, 950), Some((vec![1], false)));
    assert_eq!(tick(&mut responder, 1949), None);
    assert_eq!(tick(&mut responder, 1950), Some((vec![12, 33, 16], true)));
    assert_eq!(tick(&mut responder, 1950), Some((vec![1], false)));
    assert_eq!(tick(&mut responder, 1 << 40), None);
}

#[test]
fn the_second_step_leaves_out_what_was_just_sent() {
    let mut responder = Responder::start(250, 0, example()).unwrap();
    for now in [250, 500, 750, 1000] {
        tick(&mut responder, now);
        tick(&mut responder, now);
    }
    let probe = packet(
        0,
        &[(INSTANCE, 255, 1), (HOST, 255, 1)],
        [
            &[],
            &[(INSTANCE, 16, 1, 4500, b"\x00"), (HOST, 1, 1, 120, OWN_A)],
            &[],
        ],
    );
    assert_eq!(answered(&mut responder, 1249, &probe), []);
    assert_eq!(answered(&mut responder, 1250, &probe), [33, 16, 1]);
    // the host step is taken with nothing to send
    assert_eq!(tick(&mut responder, 2000), Some((vec![12], true)));
    assert_eq!(tick(&mut responder, 2000), None);
    assert_eq!(responder.host, Claim::Held { second_step: None });
}

#[test]
fn conflicts() {
    let conflict = response(&[
        (HOST_OTHER_CASE, 1, 0x8001, 120, OTHER_A),
        (HOST, 1, 1, 120, OTHER_A),
    ]);
    let mut responder = held();
    responder.start_draw = 77;
    assert_eq!(receive(&mut responder, 3000, &conflict), None);
    // one message counts once
    assert_eq!(responder.host, Claim::Waiting { due: 3077 });
    assert!(responder.instance.is_held());
    receive(&mut responder, 3001, &conflict);
    assert_eq!(responder.host, Claim::Lost);
    let mut responder = probing();
    receive(&mut responder, 1, &conflict);
    assert_eq!(responder.host, Claim::Lost);
    let mut waiting = Responder::start(0, 0, example()).unwrap();
    receive(&mut waiting, 0, &conflict);
    assert_eq!(waiting.host, Claim::Lost);
}

#[test]
fn no_conflicts() {
    for record in [
        (HOST, 1, 1, 120, OWN_A),
        (HOST, 1, 1, 0, OTHER_A),           // a goodbye
        (HOST, 1, 1, 0x8000_0001, OTHER_A), // its TTL counts as 0
        (HOST, 1, 3, 120, OTHER_A),
        (HOST, 1, 255, 120, OTHER_A),
        (HOST, 28, 1, 120, &[0; 16]), // no own record of that type
        (HOST, 16, 1, 120, b""),
        (SERVICE, 12, 1, 120, HOST),
        (INSTANCE, 1, 1, 120, OTHER_A),
    ] {
        let mut responder = held();
        receive(&mut responder, 3000, &response(&[record]));
        assert!(responder.host.is_held() && responder.instance.is_held());
    }
    // records of a query never conflict
    let mut responder = held();
    let records: &[TestRecord] = &[(HOST, 1, 1, 120, OTHER_A)];
    receive(
        &mut responder,
        3000,
        &packet(0, &[], [records, records, records]),
    );
    assert!(responder.host.is_held());
}

#[test]
fn conflicts_in_any_section_and_srv_case_counts() {
    for section in 0..3 {
        let record: &[TestRecord] = &[(HOST, 1, 1, 1, OTHER_A)];
        let mut sections: [&[TestRecord]; 3] = [&[]; 3];
        sections[section] = record;
        let mut responder = held();
        receive(&mut responder, 3000, &packet(0x8000, &[], sections));
        assert_eq!(responder.host, Claim::Waiting { due: 3000 });
    }
    let srv = [&[0, 0, 0, 0, 0x0f, 0xa0], HOST_OTHER_CASE].concat();
    let mut responder = held();
    receive(
        &mut responder,
        3000,
        &response(&[(INSTANCE, 33, 0x8001, 120, &srv)]),
    );
    assert_eq!(responder.instance, Claim::Waiting { due: 3000 });
}

#[test]
fn the_tiebreak_defers_the_earlier() {
    let mut responder = probing();
    // equal, then earlier
    receive(&mut responder, 1, &host_probe(&[(HOST, 1, 1, 120, OWN_A)]));
    let earlier: TestRecord = (HOST, 1, 1, 120, &[9, 255, 255, 255]);
    receive(&mut responder, 1, &host_probe(&[earlier]));
    assert!(matches!(responder.host, Claim::Probing { .. }));
    // a question of type A makes no probe
    let later: TestRecord = (HOST_OTHER_CASE, 1, 1, 120, &[200, 0, 0, 0]);
    receive(
        &mut responder,
        1,
        &packet(0, &[(HOST, 1, 1)], [&[], &[later], &[]]),
    );
    assert!(matches!(responder.host, Claim::Probing { .. }));
    receive(&mut responder, 2, &host_probe(&[later]));
    assert_eq!(responder.host, Claim::Deferred { due: 1002 });
    assert!(matches!(responder.instance, Claim::Probing { .. }));
    // a probe does nothing to a deferred claim
    receive(&mut responder, 3, &host_probe(&[later]));
    assert_eq!(responder.host, Claim::Deferred { due: 1002 });
    tick(&mut responder, 1002);
    tick(&mut responder, 1002);
    let sent = ProbesSent::One;
    assert_eq!(responder.host, Claim::Probing { sent, due: 1252 });
}

#[test]
fn known_answers_at_half_the_ttl() {
    let ask_a: &[(&[u8], u16, u16)] = &[(HOST, 1, 1)];
    for (ttl, expected) in [(59, vec![1]), (60, vec![]), (0x8000_0078, vec![1])] {
        let known = (HOST_OTHER_CASE, 1, 0x8001, ttl, OWN_A);
        assert_eq!(
            answered(&mut held(), 3000, &query(ask_a, &[known])),
            expected
        );
    }
    let ask_ptr: &[(&[u8], u16, u16)] = &[(SERVICE, 12, 1)];
    for (ttl, expected) in [(2249, Some(3020)), (2250, None)] {
        let mut responder = held();
        let known = (SERVICE, 12, 1, ttl, INSTANCE);
        receive(&mut responder, 3000, &query(ask_ptr, &[known]));
        assert_eq!(responder.reply, expected);
    }
}

#[test]
fn questions() {
    for (name, rtype, class, expected) in [
        (HOST, 1, 1, vec![1]),
        (HOST_OTHER_CASE, 255, 255, vec![1]),
        (HOST, 1, 255, vec![1]),
        (HOST, 1, 3, vec![]),
        (HOST, 28, 1, vec![47]),
        (HOST_OTHER_CASE, 28, 0x80ff, vec![47]),
        (HOST, 28, 3, vec![]),
        (HOST, 47, 255, vec![47]),
        (HOST, 16, 1, vec![47]),
        (HOST, 0, 1, vec![47]),
        (HOST, 256, 1, vec![47]),
        (HOST, 65_535, 1, vec![47]),
        (INSTANCE, 255, 1, vec![33, 16]),
        (INSTANCE, 16, 1, vec![16]),
        (INSTANCE, 12, 1, vec![47]),
        (INSTANCE, 1, 1, vec![47]),
        (INSTANCE, 47, 1, vec![47]),
        (INSTANCE, 33 + 256, 1, vec![47]),
        (SERVICE, 255, 1, vec![]),
        (SERVICE, 12, 1, vec![]),
    ] {
        let mut responder = held();
        let questions: &[(&[u8], u16, u16)] = &[(name, rtype, class), (name, rtype, class)];
        assert_eq!(
            answered(&mut responder, 3000, &query(questions, &[])),
            expected
        );
        assert_eq!(responder.reply.is_some(), name == SERVICE);
    }
}

#[test]
fn multicast_gaps() {
    let ask: &[(&[u8], u16, u16)] = &[(HOST, 1, 1)];
    assert_eq!(answered(&mut held(), 2999, &query(ask, &[])), []);
    assert_eq!(answered(&mut held(), 3000, &query(ask, &[])), [1]);
    let probe = host_probe(&[(HOST, 99, 3, 0, b"")]);
    assert_eq!(answered(&mut held(), 2249, &probe), []);
    assert_eq!(answered(&mut held(), 2250, &probe), [1]);
}

#[test]
fn nsec_has_gaps_and_known_answers_of_its_own() {
    const HOST_RDATA: &[u8] = b"\x04dock\x05local\x00\x00\x01\x40";
    let ask: &[(&[u8], u16, u16)] = &[(HOST, 28, 1), (INSTANCE, 28, 1)];
    // never multicast yet: the gaps of the other records are not its own
    let mut responder = held();
    assert_eq!(answered(&mut responder, 2000, &query(ask, &[])), [47, 47]);
    assert_eq!(answered(&mut responder, 2999, &query(ask, &[])), []);
    assert_eq!(answered(&mut responder, 3000, &query(ask, &[])), [47, 47]);
    assert_eq!(
        answered(&mut responder, 3000, &query(&[(HOST, 1, 1)], &[])),
        [1]
    );
    // a probe for the host, with a question for what the host doesn't have
    let questions: &[(&[u8], u16, u16)] = &[(HOST, 255, 1), (HOST, 28, 1), (INSTANCE, 28, 1)];
    let rival: &[TestRecord] = &[(HOST, 1, 1, 120, OWN_A)];
    let probe = packet(0, questions, [&[], rival, &[]]);
    assert_eq!(answered(&mut responder, 3249, &probe), []);
    assert_eq!(answered(&mut responder, 3250, &probe), [1, 47]);
    for (record, expected) in [
        ((HOST, 47, 1, 60, HOST_RDATA), vec![]),
        ((HOST, 47, 0x8001, 60, HOST_RDATA), vec![]),
        ((HOST_OTHER_CASE, 47, 1, 60, HOST_RDATA), vec![]),
        ((HOST, 47, 1, 59, HOST_RDATA), vec![47]),
        ((HOST, 47, 3, 60, HOST_RDATA), vec![47]),
        (
            (HOST, 47, 1, 60, b"\x04Dock\x05local\x00\x00\x01\x40"),
            vec![47],
        ),
        (
            (HOST, 47, 1, 60, b"\x04dock\x05local\x00\x00\x02\x40\x00"),
            vec![47],
        ),
    ] {
        let message = query(&[(HOST, 28, 1)], &[record]);
        assert_eq!(answered(&mut held(), 3000, &message), expected);
    }
}

#[test]
fn nsec_never_conflicts() {
    let mut responder = held();
    let other: &[u8] = b"\x04dock\x05local\x00\x00\x01\x60";
    receive(
        &mut responder,
        3000,
        &response(&[(HOST, 47, 1, 120, other)]),
    );
    assert!(responder.host.is_held());
    receive(
        &mut responder,
        3000,
        &response(&[(HOST, 1, 1, 120, OTHER_A)]),
    );
    assert_eq!(
        answered(&mut responder, 3000, &query(&[(HOST, 28, 1)], &[])),
        []
    );
}

#[test]
fn nsec_in_a_tiebreak() {
    // of the restricted form or another, it is a record more than ours
    for rdata in [&b"\xc0\x0c\x00\x01\x40"[..], b""] {
        let rival: &[TestRecord] = &[(HOST, 1, 1, 120, OWN_A), (HOST, 47, 1, 120, rdata)];
        let mut responder = probing();
        receive(&mut responder, 1, &host_probe(rival));
        assert_eq!(responder.host, Claim::Deferred { due: 1001 });
    }
}

#[test]
fn the_ptr_reply() {
    let ask: &[(&[u8], u16, u16)] = &[(SERVICE, 12, 1)];
    let mut responder = held();
    receive(&mut responder, 3000, &query(ask, &[]));
    receive(&mut responder, 3010, &query(ask, &[]));
    assert_eq!(responder.reply, Some(3020));
    assert_eq!(tick(&mut responder, 3019), None);
    assert_eq!(tick(&mut responder, 3020), Some((vec![12], false)));
    assert_eq!(responder.reply, None);
    // dropped when the claim is not held
    let mut responder = held();
    receive(&mut responder, 3000, &query(ask, &[]));
    receive(
        &mut responder,
        3001,
        &response(&[(INSTANCE, 16, 1, 1, b"\x01a")]),
    );
    responder.instance = Claim::Lost;
    assert_eq!(tick(&mut responder, 3020), None);
    assert_eq!(responder.reply, None);
}

#[test]
fn refusals_in_order() {
    let mut out = [0; LEAST_OUT];
    let mut responder = held();
    let kept = format!("{responder:?}");
    let malformed = packet(0, &[(&[0xc0, 12], 1, 1)], [&[], &[], &[]]);
    let of_response = packet(0x8000, &[(&[0xc0, 12], 1, 1)], [&[], &[], &[]]);
    let opcode = packet(0x0800, &[(&[0xc0, 12], 1, 1)], [&[], &[], &[]]);
    for (now, port, draws, message, rooms, number) in [
        (1999, 1, (19, 400), &[0; 11][..], [0, 0], 1),
        (MOST_TIME + 1, 1, (19, 400), &[0; 11], [0, 0], 1),
        (2000, 1, (19, 400), &[0; 11], [0, 0], 2),
        (2000, 1, (121, 400), &[0; 11], [0, 0], 2),
        (2000, 1, (20, 399), &[0; 11], [0, 0], 2),
        (2000, 1, (120, 501), &[0; 11], [0, 0], 2),
        (2000, 1, (20, 400), &[0; 11], [1451, 1452], 3),
        (2000, 1, (20, 400), &[0; 11], [1452, 1451], 3),
        (2000, 1, (120, 500), &[0; 11], [1452, 1452], 4),
        (2000, 1, (20, 400), &of_response, [1452, 1452], 5),
        (2000, 1, (20, 400), &opcode, [1452, 1452], 5),
        (2000, 1, (20, 400), &malformed, [1452, 1452], 6),
        (2000, MDNS_PORT, (20, 400), &opcode, [1452, 1452], 5),
        (2000, MDNS_PORT, (20, 400), &malformed, [1452, 1452], 6),
    ] {
        let arrival = Arrival {
            port,
            draw: draws.0,
            hold_draw: draws.1,
            ..arrival(now, message)
        };
        let outs = Outs {
            multicast: &mut out[..rooms[0]],
            unicast: &mut [0; LEAST_OUT][..rooms[1]],
        };
        let refused = responder.receive(arrival, outs);
        assert_eq!(refused.map_err(Refusal::number), Err(number));
    }
    for (now, room, number) in [(1999, 0, 1), (2000, 1451, 3)] {
        let refused = responder.tick(now, &mut out[..room]);
        assert_eq!(refused.map_err(Refusal::number), Err(number));
    }
    assert_eq!(format!("{responder:?}"), kept);
    responder.start_draw = 251;
    assert_eq!(responder.tick(2000, &mut out), Err(Refusal::Setup));
    responder.reply = Some(MOST_KEPT_TIME + 1);
    assert_eq!(responder.tick(2000, &mut out), Err(Refusal::Time));
    let mut responder = held();
    let truncated = packet(0x0200, &[], [&[], &[], &[]]);
    assert_eq!(receive(&mut responder, 2000, &truncated), None);
    responder.holds[0].due = MOST_KEPT_TIME;
    assert_eq!(responder.tick(2000, &mut out), Ok(None));
    responder.holds[0].due += 1;
    assert_eq!(responder.tick(2000, &mut out), Err(Refusal::Time));
}
