//! "Questions that want unicast": the top bit of a question's class, honoured as
//! RFC 6762, section 5.4, wants it.

use super::{write, Responder};
use crate::message::Message;
use crate::setup::{Kind, OwnRecord};
use crate::{class, compose};

/// "a quarter of its TTL", in milliseconds
fn quarter_of_ttl(kind: Kind) -> u64 {
    u64::from(kind.ttl()) * 1000 / 4
}

impl Responder {
    /// "A record or NSEC asked for from port 5353 only by questions with it goes to
    /// the asker by unicast if it was multicast less than a quarter of its TTL ago,
    /// else by multicast." One that was never multicast goes by multicast.
    pub(super) fn goes_by_unicast(&self, now: u64, query: &Message, record: &OwnRecord) -> bool {
        self.questions_for(query, record)
            .all(|question| question.wire_class & class::TOP_BIT != 0)
            && self.was_multicast_within(record.kind, quarter_of_ttl(record.kind), now)
    }

    /// "Unicast answers [...] go at once, PTR too, from a second out buffer, don't
    /// count as multicasts and have no gap."
    pub(super) fn unicast_answer(
        &self,
        query: &Message,
        records: &[OwnRecord],
        out: &mut [u8],
    ) -> Option<usize> {
        if records.is_empty() {
            return None;
        }
        let records: Vec<_> = records.iter().collect();
        let answer = compose::response_with_id(query.id, &records);
        Some(write(&answer, out))
    }
}

#[cfg(test)]
mod tests {
    use super::super::tests::*;
    use super::super::{Arrival, Claim};
    use super::*;

    /// Class 1 with the bit.
    const QU: u16 = 0x8001;

    /// The types of the records that go by multicast and by unicast.
    fn ways(responder: &mut Responder, now: u64, query: &[u8]) -> (Vec<u16>, Vec<u16>) {
        let packets = take(responder, arrival(now, query)).unwrap();
        let of = |packet: Option<Vec<u8>>| packet.map_or(vec![], |packet| types(&packet));
        (of(packets.multicast), of(packets.unicast))
    }

    fn asked(questions: &[(&[u8], u16, u16)]) -> Vec<u8> {
        query(questions, &[])
    }

    #[test]
    fn a_unicast_answer_byte_for_byte() {
        let mut query = query(
            &[
                (HOST_OTHER_CASE, 255, 0x80ff),
                (INSTANCE, 33, QU),
                (SERVICE, 12, QU),
            ],
            &[],
        );
        query[..4].copy_from_slice(&[0xbe, 0xef, 0x01, 0x10]);
        let expected = [
            &b"\xbe\xef\x84\x00\x00\x00\x00\x03\x00\x00\x00\x00"[..],
            b"\x06_voice\x04_tcp\x05local\x00\x00\x0c\x00\x01\x00\x00\x11\x94\x00\x08\x05booth\xc0\x0c",
            b"\xc0\x29\x00\x21\x80\x01\x00\x00\x00\x78\x00\x0d\x00\x00\x00\x00\x0f\xa0\x04dock\xc0\x18",
            b"\xc0\x43\x00\x01\x80\x01\x00\x00\x00\x78\x00\x04\x0a\x00\x00\x07",
        ]
        .concat();
        let mut responder = held();
        let packets = take(&mut responder, arrival(2000, &query)).unwrap();
        assert_eq!(packets.unicast, Some(expected));
        assert_eq!(packets.multicast, None);
    }

    #[test]
    fn a_quarter_of_the_ttl() {
        // multicast at 2,000, the NSEC at 3,000
        for (record, at, quarter) in [
            ((HOST, 1), 2000, 30_000),
            ((INSTANCE, 33), 2000, 30_000),
            ((INSTANCE, 16), 2000, 1_125_000),
            ((HOST, 28), 3000, 30_000),
            ((INSTANCE, 1), 3000, 30_000),
        ] {
            let ask = asked(&[(record.0, record.1, QU)]);
            let mut responder = held();
            ways(
                &mut responder,
                3000,
                &asked(&[(HOST, 99, 1), (INSTANCE, 99, 1)]),
            );
            let rtype = if at == 2000 { record.1 } else { 47 };
            let last = at + quarter;
            assert_eq!(ways(&mut responder, last - 1, &ask), (vec![], vec![rtype]));
            assert_eq!(ways(&mut responder, last, &ask), (vec![rtype], vec![]));
            assert_eq!(ways(&mut responder, last, &ask), (vec![], vec![rtype]));
        }
        let ask = asked(&[(SERVICE, 12, QU)]);
        let mut responder = held();
        assert_eq!(ways(&mut responder, 1_126_999, &ask), (vec![], vec![12]));
        assert_eq!(responder.reply, None);
        assert_eq!(ways(&mut responder, 1_127_000, &ask), (vec![], vec![]));
        assert_eq!(responder.reply, Some(1_127_020));
    }

    #[test]
    fn never_multicast_goes_by_multicast() {
        let mut responder = held();
        let ask = asked(&[(HOST, 28, QU)]);
        assert_eq!(ways(&mut responder, 2000, &ask), (vec![47], vec![]));
        assert_eq!(ways(&mut responder, 2000, &ask), (vec![], vec![47]));
        // "A kept time ahead of now counts as 0 ms ago."
        responder.multicast[Kind::A as usize] = Some(9999);
        let ask = asked(&[(HOST, 1, QU)]);
        assert_eq!(ways(&mut responder, 2000, &ask), (vec![], vec![1]));
    }

    #[test]
    fn one_question_without_the_bit_is_enough() {
        for (other, now, expected) in [
            ((HOST, 1, 1), 2999, (vec![], vec![])),
            ((HOST_OTHER_CASE, 255, 255), 3000, (vec![1], vec![])),
            // these do not ask for it
            ((HOST, 1, 3), 2999, (vec![], vec![1])),
            ((HOST, 16, 1), 2999, (vec![47], vec![1])),
            ((INSTANCE, 1, 1), 2999, (vec![47], vec![1])),
            ((INSTANCE, 16, 1), 3000, (vec![16], vec![1])),
        ] {
            for questions in [[(HOST, 1, QU), other], [other, (HOST, 1, QU)]] {
                assert_eq!(ways(&mut held(), now, &asked(&questions)), expected);
            }
        }
    }

    #[test]
    fn known_answers_leave_it_out_of_both() {
        for (ttl, now, expected) in [
            (60, 2000, (vec![], vec![])),
            (59, 2000, (vec![], vec![1])),
            (60, 32_000, (vec![], vec![])),
            (59, 32_000, (vec![1], vec![])),
        ] {
            let query = query(&[(HOST, 1, QU)], &[(HOST, 1, 1, ttl, OWN_A)]);
            assert_eq!(ways(&mut held(), now, &query), expected);
        }
    }

    #[test]
    fn nothing_but_the_last_time_changes() {
        let mut responder = held();
        let mut before = responder.clone();
        before.last = 2001;
        let all = asked(&[(SERVICE, 12, QU), (INSTANCE, 255, QU), (HOST, 255, QU)]);
        assert_eq!(
            ways(&mut responder, 2001, &all),
            (vec![], vec![12, 33, 16, 1])
        );
        assert_eq!(format!("{responder:?}"), format!("{before:?}"));
    }

    #[test]
    fn a_probe_with_the_bit_is_answered_by_unicast_at_once() {
        let rival: &[TestRecord] = &[(HOST, 1, 1, 120, OTHER_A)];
        for (class, now, expected) in [
            (1, 2249, (vec![], vec![])),
            (1, 2250, (vec![1], vec![])),
            (QU, 2000, (vec![], vec![1])),
            (QU, 2249, (vec![], vec![1])),
            (QU, 2250, (vec![], vec![1])),
            (QU, 32_000, (vec![1], vec![])),
        ] {
            let probe = packet(0, &[(HOST, 255, class)], [&[], rival, &[]]);
            assert_eq!(ways(&mut held(), now, &probe), expected);
        }
        // and nobody else answers
        let probe = packet(0, &[(HOST, 255, QU)], [&[], rival, &[]]);
        for claim in [Claim::Lost, Claim::Deferred { due: 9 }] {
            let mut responder = held();
            responder.host = claim;
            assert_eq!(ways(&mut responder, 2100, &probe), (vec![], vec![]));
        }
    }

    #[test]
    fn both_ways_in_one_call() {
        // SRV and PTR by unicast, TXT and A by multicast, PTR of another question set
        let questions = [
            (INSTANCE, 33, QU),
            (INSTANCE, 16, 1),
            (HOST, 1, QU),
            (HOST, 255, 1),
            (SERVICE, 12, QU),
        ];
        let mut responder = held();
        assert_eq!(
            ways(&mut responder, 4000, &asked(&questions)),
            (vec![16, 1], vec![12, 33])
        );
        assert_eq!(responder.multicast[Kind::Srv as usize], Some(2000));
        assert_eq!(responder.multicast[Kind::Txt as usize], Some(4000));
    }

    #[test]
    fn a_held_query_is_answered_by_multicast() {
        let mut responder = held();
        let ask = packet(0x0200, &[(HOST, 1, QU)], [&[], &[], &[]]);
        assert_eq!(ways(&mut responder, 3000, &ask), (vec![], vec![]));
        assert_eq!(responder.holds.len(), 1);
        // a later one from there is judged at once
        assert_eq!(ways(&mut responder, 3001, &ask), (vec![], vec![1]));
        assert_eq!(tick(&mut responder, 3400), Some((vec![1], false)));
    }

    #[test]
    fn other_ports_are_answered_as_plain_resolvers() {
        let ask = asked(&[(HOST, 1, QU)]);
        let arrival = Arrival {
            port: 1024,
            ..arrival(2000, &ask)
        };
        let packets = take(&mut held(), arrival).unwrap();
        assert_eq!(packets.multicast, None);
        let reply = packets.unicast.unwrap();
        let reply = Message::read(&reply).unwrap();
        assert_eq!(reply.questions.len(), 1);
        assert_eq!(reply.records[0].ttl, 10);
    }
}
