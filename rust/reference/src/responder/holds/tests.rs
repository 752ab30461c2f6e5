//! Holding, adding and deciding, by examples made by hand.

use super::super::tests::*;
use super::super::{Arrival, Claim, Responder};
use super::*;

const TRUNCATED: u16 = 0x0200;

type Question<'a> = (&'a [u8], u16, u16);

fn truncated(questions: &[Question], known: &[TestRecord]) -> Vec<u8> {
    packet(TRUNCATED, questions, [known, &[], &[]])
}

fn address(last: u8) -> Address {
    let mut address = [0; 16];
    address[15] = last;
    address
}

/// The types of the records sent at once to a packet from an address.
fn from(responder: &mut Responder, last: u8, draw: u64, now: u64, packet: &[u8]) -> Vec<u16> {
    let arrival = Arrival {
        from: address(last),
        hold_draw: draw,
        ..arrival(now, packet)
    };
    let sent = take(responder, arrival).unwrap().multicast;
    sent.map_or(vec![], |packet| types(&packet))
}

fn held_from(responder: &Responder) -> Vec<(u8, u64)> {
    let holds = responder.holds.iter();
    holds.map(|hold| (hold.from[15], hold.due)).collect()
}

const ALL: &[Question] = &[
    (SERVICE, 12, 1),
    (INSTANCE, 255, 1),
    (HOST, 255, 1),
    (HOST, 28, 1),
    (INSTANCE, 28, 1),
];

#[test]
fn what_is_asked_for_goes_in_one_packet_when_it_is_due() {
    let mut responder = held();
    assert_eq!(from(&mut responder, 1, 450, 3000, &truncated(ALL, &[])), []);
    assert_eq!(held_from(&responder), [(1, 3450)]);
    assert_eq!(responder.reply, None);
    assert_eq!(tick(&mut responder, 3449), None);
    let all = vec![12, 33, 16, 1, 47, 47];
    assert_eq!(tick(&mut responder, 3450), Some((all, false)));
    assert_eq!(held_from(&responder), []);
    assert_eq!(tick(&mut responder, 4450), None);
}

#[test]
fn known_answers_of_later_queries_are_added() {
    let ptr = |ttl| -> TestRecord { (SERVICE, 12, 1, ttl, INSTANCE) };
    let own_a: TestRecord = (HOST, 1, 1, 60, OWN_A);
    for (flags, sender, record, expected) in [
        (0, 1, ptr(2250), vec![1]),
        (TRUNCATED, 1, ptr(2250), vec![1]),
        (0, 1, ptr(2249), vec![12, 1]),
        (0, 1, own_a, vec![12]),
        (0, 2, own_a, vec![12, 1]),
        (0x8400, 1, own_a, vec![12, 1]),
        (0, 1, (HOST, 1, 3, 120, OWN_A), vec![12, 1]),
        (0, 1, (HOST, 1, 1, 120, OTHER_A), vec![12, 1]),
    ] {
        let mut responder = held();
        let asked = &[(SERVICE, 12, 1), (HOST, 1, 1)];
        from(&mut responder, 1, 400, 3000, &truncated(asked, &[]));
        let more = packet(flags, &[], [&[record], &[], &[]]);
        from(&mut responder, sender, 400, 3100, &more);
        let sent = tick(&mut responder, 3400);
        assert_eq!(sent.map(|(types, _)| types), Some(expected));
    }
}

#[test]
fn a_later_query_of_the_address_is_judged_at_once_by_its_own_answers() {
    let mut responder = held();
    let own_a: &[TestRecord] = &[(HOST, 1, 1, 120, OWN_A)];
    from(&mut responder, 1, 400, 3000, &truncated(&[], own_a));
    // what the first knows is nothing to the second
    let again = truncated(&[(HOST, 1, 1), (SERVICE, 12, 1)], &[]);
    assert_eq!(from(&mut responder, 1, 500, 3001, &again), [1]);
    assert_eq!(responder.reply, Some(3021));
    assert_eq!(held_from(&responder), [(1, 3400)]);
    // a due hold that is not taken yet keeps its place
    assert_eq!(from(&mut responder, 1, 400, 3500, &again), []);
    assert_eq!(held_from(&responder), [(1, 3400)]);
    assert_eq!(tick(&mut responder, 3500), Some((vec![12], true)));
    // one with nothing to send is passed
    assert_eq!(tick(&mut responder, 3500), None);
    assert_eq!(held_from(&responder), []);
    assert_eq!(from(&mut responder, 1, 400, 5000, &again), []);
    assert_eq!(held_from(&responder), [(1, 5400)]);
}

#[test]
fn a_fifth_is_judged_as_if_without_tc() {
    let mut responder = held();
    let ask = truncated(&[(HOST, 1, 1)], &[]);
    for sender in 1..=4 {
        assert_eq!(from(&mut responder, sender, 400, 3000, &ask), []);
    }
    let known = truncated(&[(HOST, 1, 1)], &[(HOST, 1, 1, 60, OWN_A)]);
    assert_eq!(from(&mut responder, 5, 400, 3000, &known), []);
    assert_eq!(from(&mut responder, 5, 400, 3000, &ask), [1]);
    assert_eq!(responder.holds.len(), MOST_HOLDS);
    // all four were asked for what went out less than 1,000 ms ago
    assert_eq!(tick(&mut responder, 3400), None);
    assert_eq!(held_from(&responder), []);
}

#[test]
fn due_holds_go_by_arrival_and_not_by_due_time() {
    let mut responder = held();
    for (sender, draw, question) in [
        (3, 500, (HOST, 1, 1)),
        (1, 400, (SERVICE, 255, 1)),
        (2, 450, (INSTANCE, 16, 1)),
        (4, 451, (HOST, 99, 1)),
    ] {
        from(
            &mut responder,
            sender,
            draw,
            3000,
            &truncated(&[question], &[]),
        );
    }
    let mut early = responder.clone();
    assert_eq!(tick(&mut early, 3449), Some((vec![12], false)));
    assert_eq!(tick(&mut early, 3450), Some((vec![16], false)));
    assert_eq!(held_from(&early), [(3, 3500), (4, 3451)]);
    for (types, more) in [(1, true), (12, true), (16, true), (47, false)] {
        assert_eq!(tick(&mut responder, 3500), Some((vec![types], more)));
    }
    assert_eq!(tick(&mut responder, 3500), None);
}

#[test]
fn a_hold_is_the_last_step_and_a_ptr_reply_stays_set() {
    let mut responder = held();
    from(&mut responder, 1, 400, 3000, &truncated(ALL, &[]));
    let ask = query(&[(SERVICE, 12, 1)], &[]);
    let arrival = Arrival {
        draw: 100,
        ..arrival(3300, &ask)
    };
    take(&mut responder, arrival).unwrap();
    let mut later = responder.clone();
    assert_eq!(tick(&mut responder, 3400), Some((vec![12], true)));
    let rest = vec![33, 16, 1, 47, 47];
    assert_eq!(tick(&mut responder, 3400), Some((rest, false)));
    later.reply = Some(3401);
    assert_eq!(tick(&mut later, 3400).unwrap().0.len(), 6);
    assert_eq!(later.reply, Some(3401));
    assert_eq!(tick(&mut later, 3401), None);
    assert_eq!(later.reply, None);
}

#[test]
fn claims_and_gaps_are_those_of_then() {
    // lost in between
    let mut responder = held();
    from(&mut responder, 1, 400, 3000, &truncated(ALL, &[]));
    receive(
        &mut responder,
        3001,
        &response(&[(HOST, 1, 1, 120, OTHER_A)]),
    );
    responder.host = Claim::Lost;
    let rest = vec![12, 33, 16, 47];
    assert_eq!(tick(&mut responder, 3400), Some((rest, false)));
    // won in between: asked is kept of a claim that is not held
    let mut responder = held();
    responder.host = Claim::Lost;
    from(
        &mut responder,
        1,
        400,
        3000,
        &truncated(&[(HOST, 1, 1)], &[]),
    );
    responder.host = Claim::Held { second_step: None };
    assert_eq!(tick(&mut responder, 3400), Some((vec![1], false)));
    // multicast 999 and 1,000 ms before the step
    for (draw, expected) in [(499, None), (500, Some((vec![1], false)))] {
        let mut responder = held();
        from(
            &mut responder,
            1,
            draw,
            2500,
            &truncated(&[(HOST, 1, 1)], &[]),
        );
        assert_eq!(tick(&mut responder, 2500 + draw), expected);
    }
}

#[test]
fn probes_and_queries_from_other_ports_are_not_held() {
    let rival: &[TestRecord] = &[(HOST, 1, 1, 120, &[200, 0, 0, 0])];
    let probe = packet(TRUNCATED, &[(HOST, 255, 1)], [&[], rival, &[]]);
    let mut responder = held();
    assert_eq!(from(&mut responder, 1, 400, 2250, &probe), [1]);
    let mut responder = probing();
    from(&mut responder, 1, 400, 1, &probe);
    assert_eq!(responder.host, Claim::Deferred { due: 1001 });
    from(&mut responder, 1, 400, 1, &probe);
    assert_eq!(held_from(&responder), []);
    // it adds what it knows, and from another port nothing is added
    for (port, expected) in [(5353, None), (1024, Some((vec![1], false)))] {
        let mut responder = held();
        from(
            &mut responder,
            1,
            400,
            2900,
            &truncated(&[(HOST, 1, 1)], &[]),
        );
        let known: &[TestRecord] = &[(HOST, 1, 1, 120, OWN_A)];
        let message = packet(TRUNCATED, &[(HOST, 255, 1)], [known, rival, &[]]);
        let arrival = Arrival {
            from: address(1),
            port,
            ..arrival(2950, &message)
        };
        take(&mut responder, arrival).unwrap();
        assert_eq!(tick(&mut responder, 3300), expected);
    }
    let mut responder = held();
    let arrival = Arrival {
        port: 1024,
        ..arrival(2100, &probe)
    };
    assert!(take(&mut responder, arrival).unwrap().unicast.is_some());
    assert_eq!(held_from(&responder), []);
}

#[test]
fn a_query_for_nothing_of_ours_is_held_too() {
    let mut responder = held();
    from(&mut responder, 1, 400, 3000, &truncated(&[], &[]));
    from(
        &mut responder,
        2,
        400,
        3000,
        &truncated(&[(b"\x01x\x00", 1, 1)], &[]),
    );
    // a probe for a name that is not ours
    let theirs = packet(
        TRUNCATED,
        &[(b"\x01x\x00", 255, 1)],
        [&[], &[(b"\x01x\x00", 1, 1, 120, OWN_A)], &[]],
    );
    from(&mut responder, 3, 400, 3000, &theirs);
    // a probe needs a record under the name
    let question = packet(
        TRUNCATED,
        &[(HOST, 255, 1)],
        [&[], &[(INSTANCE, 1, 1, 120, OWN_A)], &[]],
    );
    from(&mut responder, 4, 400, 3000, &question);
    assert_eq!(responder.holds.len(), 4);
    assert_eq!(tick(&mut responder, 3400), Some((vec![1], false)));
    // a truncated response is a response
    let mut responder = held();
    receive(&mut responder, 3000, &packet(0x8600, ALL, [&[], &[], &[]]));
    assert_eq!(held_from(&responder), []);
}
