//! A query with TC as a Rust caller meets it: held, added to by its address, and answered at its step, as the independent reference program says.

use std::net::{IpAddr, Ipv4Addr, Ipv6Addr, SocketAddr};

use kurgashel::{Arrival, Claim, Draws, OutBuffers, Received, Refusal, Responder, Setup};
use kurgashel::{OUT_BYTES, PORT, STATE_BYTES};
use reference::responder::holds::Address;
use reference::responder::{Arrival as ReferenceArrival, Outs, Responder as Reference};

const ASKER: IpAddr = IpAddr::V4(Ipv4Addr::new(10, 0, 0, 9));
const DRAWS: Draws = Draws {
    reply: 20,
    hold: 450,
};

/// Questions for the service's PTR, for all of the instance, for the host's A and for its AAAA, which it lacks.
const PTR: &[u8] = b"\x06_voice\x04_tcp\x05local\0\0\x0c\0\x01";
const INSTANCE: &[u8] = b"\x05booth\x06_voice\x04_tcp\x05local\0\0\xff\0\x01";
const A: &[u8] = b"\x04dock\x05local\0\0\x01\0\x01";
const AAAA: &[u8] = b"\x04dock\x05local\0\0\x1c\0\x01";
/// Known answers: the service's PTR, with a pointer to its own owner, and the host's A.
const KNOWN_PTR: &[u8] =
    b"\x06_voice\x04_tcp\x05local\0\0\x0c\0\x01\0\0\x11\x94\0\x08\x05booth\xc0\x0c";
const KNOWN_A: &[u8] = b"\x04dock\x05local\0\0\x01\0\x01\0\0\0\x78\0\x04\x0a\0\0\x07";

/// A query of questions and of known answers, cut short or not.
fn query(is_cut: bool, questions: &[&[u8]], known: &[&[u8]]) -> Vec<u8> {
    let flags = if is_cut { 2 } else { 0 };
    let counts = [questions.len() as u8, 0, known.len() as u8];
    let mut packet = vec![0, 0, flags, 0, 0];
    packet.extend(counts);
    packet.extend([0; 4]);
    packet.extend(questions.concat());
    packet.extend(known.concat());
    packet
}

/// The proved responder and the reference program's, at one time.
struct Both {
    now: u64,
    proved: Responder,
    reference: Reference,
}

impl Both {
    /// Both hold their names, and have multicast nothing for long.
    fn settled() -> Both {
        let txt = b"\x06room=3";
        let a = [10, 0, 0, 7];
        let setup = Setup::new("booth", "_voice", "_tcp", "dock", 4000, txt, a, None);
        let theirs = reference::setup::Setup {
            instance: b"booth".to_vec(),
            service: b"_voice".to_vec(),
            protocol: b"_tcp".to_vec(),
            host: b"dock".to_vec(),
            domain: b"local".to_vec(),
            port: 4000,
            txt: txt.to_vec(),
            a,
            aaaa: None,
        };
        let mut both = Both {
            now: 0,
            proved: Responder::start(&setup, 0, 0).unwrap(),
            reference: Reference::start(0, 0, theirs).unwrap(),
        };
        for now in (0..5000).step_by(50) {
            while both.tick(now).1 {}
        }
        assert_eq!(both.proved.instance(), Claim::Held);
        assert_eq!(both.proved.due(), None);
        both.now = 5000;
        both
    }

    fn same_due(&self) -> Option<u64> {
        let due = self.proved.due();
        assert_eq!(due, self.reference.dues().min());
        due
    }

    /// The packet that both send, and whether both say that more is due.
    fn tick(&mut self, now: u64) -> (Vec<u8>, bool) {
        let (mut ours, mut theirs) = ([0; OUT_BYTES], [0; OUT_BYTES]);
        let sent = self.proved.tick(now, &mut ours).unwrap();
        let expected = self.reference.tick(now, &mut theirs).unwrap();
        let expected = expected.map_or((0, false), |sent| (sent.length, sent.more));
        assert_eq!((sent.length, sent.more), expected);
        assert_eq!(ours, theirs);
        self.same_due();
        (ours[..sent.length].to_vec(), sent.more)
    }

    /// The packet that both send to all, for one that comes `after` ms after they settled.
    fn hear(&mut self, after: u64, from: IpAddr, draws: Draws, packet: &[u8]) -> Vec<u8> {
        let (mut ours, mut to_sender) = ([0; OUT_BYTES], [0; OUT_BYTES]);
        let (mut theirs, mut their_reply) = ([0; OUT_BYTES], [0; OUT_BYTES]);
        let now = self.now + after;
        let arrival = Arrival {
            now,
            from: SocketAddr::new(from, PORT),
            draws,
            packet,
        };
        let out = OutBuffers {
            to_all: &mut ours,
            to_sender: &mut to_sender,
        };
        let sent = self.proved.receive(arrival, out).unwrap();
        let arrival = ReferenceArrival {
            now,
            from: sixteen(from),
            port: PORT.into(),
            draw: draws.reply,
            hold_draw: draws.hold,
            packet,
        };
        let outs = Outs {
            multicast: &mut theirs,
            unicast: &mut their_reply,
        };
        let expected = self.reference.receive(arrival, outs).unwrap();
        assert_eq!(sent.to_all, expected.multicast.unwrap_or(0));
        assert_eq!((sent.to_sender, expected.unicast), (0, None));
        assert_eq!((ours, to_sender), (theirs, their_reply));
        self.same_due();
        ours[..sent.to_all].to_vec()
    }
}

fn sixteen(address: IpAddr) -> Address {
    match address {
        IpAddr::V4(address) => {
            let mut bytes = [0; 16];
            bytes[10..12].fill(0xff);
            bytes[12..].copy_from_slice(&address.octets());
            bytes
        }
        IpAddr::V6(address) => address.octets(),
    }
}

/// The types of a response's Answer records.
fn types(packet: &[u8]) -> Vec<u16> {
    let message = kurgashel::Message::read(packet).unwrap();
    let records = message.records(kurgashel::Section::Answer);
    records.map(|record| record.rtype).collect()
}

#[test]
fn a_held_query_is_answered_in_one_packet_at_its_step() {
    let mut both = Both::settled();
    let cut = query(true, &[PTR, INSTANCE, A, AAAA], &[]);
    assert!(both.hear(0, ASKER, DRAWS, &cut).is_empty());
    assert_eq!(both.proved.due(), Some(5450));
    assert!(both.tick(5449).0.is_empty());
    let (packet, more) = both.tick(5450);
    assert_eq!((types(&packet), more), (vec![12, 33, 16, 1, 47], false));
    assert_eq!(both.proved.due(), None);
}

#[test]
fn known_answers_of_later_packets_leave_records_out() {
    let mut both = Both::settled();
    both.hear(0, ASKER, DRAWS, &query(true, &[PTR, A, AAAA], &[]));
    both.hear(20, ASKER, DRAWS, &query(true, &[], &[KNOWN_PTR]));
    both.hear(40, ASKER, DRAWS, &query(false, &[], &[KNOWN_A]));
    assert_eq!(types(&both.tick(5450).0), [47]);

    let mut both = Both::settled();
    both.hear(0, ASKER, DRAWS, &query(true, &[PTR], &[]));
    both.hear(449, ASKER, DRAWS, &query(false, &[], &[KNOWN_PTR]));
    assert_eq!(both.tick(5450), (vec![], false));
    assert_eq!(both.proved.due(), None);
}

#[test]
fn an_address_is_the_same_in_both_forms() {
    let mapped = IpAddr::V6(Ipv6Addr::new(0, 0, 0, 0, 0, 0xffff, 0x0a00, 9));
    let other = IpAddr::V6(Ipv6Addr::new(0, 0, 0, 0, 0, 0, 0x0a00, 9));
    for (first, second, is_same) in [
        (ASKER, ASKER, true),
        (ASKER, mapped, true),
        (mapped, ASKER, true),
        (ASKER, other, false),
        (other, mapped, false),
    ] {
        let mut both = Both::settled();
        both.hear(0, first, DRAWS, &query(true, &[A], &[]));
        both.hear(1, second, DRAWS, &query(false, &[], &[KNOWN_A]));
        assert_eq!(both.tick(5450).0.is_empty(), is_same, "{first} {second}");
    }
}

#[test]
fn four_are_held_and_a_fifth_is_answered_at_once() {
    let mut both = Both::settled();
    let (cut, last) = (query(true, &[A], &[]), query(true, &[AAAA], &[]));
    for number in 1..=4 {
        let from = Ipv4Addr::new(10, 0, 0, number).into();
        let packet = if number == 4 { &last } else { &cut };
        assert!(both.hear(0, from, DRAWS, packet).is_empty());
    }
    assert_eq!(types(&both.hear(1, ASKER, DRAWS, &cut)), [1]);
    assert_eq!(types(&both.tick(5450).0), [47]);
    assert_eq!(both.proved.due(), None);
}

#[test]
fn a_state_that_is_kept_keeps_what_is_held() {
    let mut both = Both::settled();
    both.hear(0, ASKER, DRAWS, &query(true, &[A, AAAA], &[]));
    let bytes: [u8; STATE_BYTES] = *both.proved.bytes();
    both.proved = Responder::from_bytes(bytes);
    both.hear(1, ASKER, DRAWS, &query(false, &[], &[KNOWN_A]));
    assert_eq!(types(&both.tick(5450).0), [47]);
}

#[test]
fn both_draws_are_tested_whatever_the_packet() {
    let Both { proved, now, .. } = Both::settled();
    let response = [0, 0, 0x84, 0, 0, 0, 0, 0, 0, 0, 0, 0];
    for packet in [&query(true, &[A], &[])[..], &response, &[]] {
        for (reply, hold) in [(20, 399), (20, 501), (19, 400), (121, 500), (20, u64::MAX)] {
            let mut responder = proved.clone();
            let (mut to_all, mut to_sender) = ([7; OUT_BYTES], [7; OUT_BYTES]);
            let arrival = Arrival {
                now,
                from: SocketAddr::new(ASKER, PORT),
                draws: Draws { reply, hold },
                packet,
            };
            let out = OutBuffers {
                to_all: &mut to_all,
                to_sender: &mut to_sender,
            };
            assert_eq!(responder.receive(arrival, out), Err(Refusal::Draw));
            assert_eq!(responder.bytes(), proved.bytes());
            assert_eq!((to_all, to_sender), ([7; OUT_BYTES], [7; OUT_BYTES]));
        }
    }
    for hold in [400, 500] {
        let mut both = Both::settled();
        let draws = Draws { reply: 120, hold };
        both.hear(0, ASKER, draws, &query(true, &[A], &[]));
        assert_eq!(both.proved.due(), Some(now + hold));
    }
}

#[test]
fn each_answer_is_in_the_buffer_of_its_name() {
    let mut both = Both::settled();
    let packet = query(false, &[A], &[]);
    let mut ask = |port| {
        let (mut to_all, mut to_sender) = ([7; OUT_BYTES], [7; OUT_BYTES]);
        let arrival = Arrival {
            now: 5000,
            from: SocketAddr::new(ASKER, port),
            draws: DRAWS,
            packet: &packet,
        };
        let out = OutBuffers {
            to_all: &mut to_all,
            to_sender: &mut to_sender,
        };
        let received = both.proved.receive(arrival, out).unwrap();
        (received, to_all, to_sender)
    };
    let (received, to_all, to_sender) = ask(1024);
    assert_eq!((received.to_all, to_all), (0, [7; OUT_BYTES]));
    assert_eq!(types(&to_sender[..received.to_sender]), [1]);
    assert!(to_sender[received.to_sender..]
        .iter()
        .all(|&byte| byte == 7));
    let (received, to_all, to_sender) = ask(PORT);
    assert_eq!((received.to_sender, to_sender), (0, [7; OUT_BYTES]));
    assert_eq!(types(&to_all[..received.to_all]), [1]);
    assert!(to_all[received.to_all..].iter().all(|&byte| byte == 7));
    assert_eq!(ask(PORT).0, Received::default());
}

#[test]
fn one_query_may_be_answered_both_ways() {
    let mut both = Both::settled();
    // the host's A by a question with the unicast bit, and its AAAA by one without, with an ID
    const A_BY_UNICAST: &[u8] = b"\x04dock\x05local\0\0\x01\x80\x01";
    let mut packet = query(false, &[A_BY_UNICAST, AAAA], &[]);
    packet[..2].copy_from_slice(&[0x12, 0x34]);
    let (mut to_all, mut to_sender) = ([7; OUT_BYTES], [7; OUT_BYTES]);
    let arrival = Arrival {
        now: 5000,
        from: SocketAddr::new(ASKER, PORT),
        draws: DRAWS,
        packet: &packet,
    };
    let out = OutBuffers {
        to_all: &mut to_all,
        to_sender: &mut to_sender,
    };
    let sent = both.proved.receive(arrival, out).unwrap();
    assert_eq!(types(&to_all[..sent.to_all]), [47]);
    assert_eq!(types(&to_sender[..sent.to_sender]), [1]);
    assert_eq!(
        (&to_all[..2], &to_sender[..2]),
        (&[0, 0][..], &[0x12, 0x34][..])
    );
}
