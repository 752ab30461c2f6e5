//! "Replies to plain resolvers": queries from a port other than 5353 are answered
//! as RFC 6762, section 6.7, says.

use super::{write, Responder};
use crate::compose;
use crate::message::Message;

impl Responder {
    /// "Only a query of exactly one question is answered, PTR at once too. Known
    /// answers in it are ignored. If the claim is not held, nothing is sent." The
    /// reply "neither starts nor obeys the 1,000 and 250 ms gaps", and has no NSEC.
    pub(super) fn plain_reply(&self, query: &Message, out: &mut [u8]) -> Option<usize> {
        let [question] = &query.questions[..] else {
            return None;
        };
        let mut records = self.setup.records();
        records.retain(|record| self.is_asked_for(query, record));
        if records.is_empty() {
            return None;
        }
        let records: Vec<_> = records.iter().collect();
        let reply = compose::plain_reply(query.id, question, &records);
        Some(write(&reply, out))
    }
}

#[cfg(test)]
mod tests {
    use super::super::tests::*;
    use super::super::{Arrival, Claim};
    use super::*;
    use crate::MDNS_PORT;

    /// Gives the reply to a query from port 1024, or nothing.
    fn asked(responder: &mut Responder, now: u64, query: &[u8]) -> Option<Vec<u8>> {
        let arrival = Arrival {
            port: 1024,
            ..arrival(now, query)
        };
        let packets = take(responder, arrival).unwrap();
        assert_eq!(packets.multicast, None);
        packets.unicast
    }

    fn types_of(responder: &mut Responder, query: &[u8]) -> Vec<u16> {
        asked(responder, 2000, query).map_or(vec![], |reply| types(&reply))
    }

    #[test]
    fn an_srv_reply_byte_for_byte() {
        // RFC 6762, sections 6.7 and 18.14; the name is asked for in other case
        let mut query = query(
            &[(b"\x05BOOTH\x06_voice\x04_tcp\x05local\x00", 33, 0x80ff)],
            &[],
        );
        query[..3].copy_from_slice(&[0xbe, 0xef, 0x01]);
        let expected = [
            &b"\xbe\xef\x84\x00\x00\x01\x00\x01\x00\x00\x00\x00"[..],
            b"\x05BOOTH\x06_voice\x04_tcp\x05local\x00\x00\x21\x80\xff",
            b"\x05booth\xc0\x12\x00\x21\x00\x01\x00\x00\x00\x0a\x00\x12",
            b"\x00\x00\x00\x00\x0f\xa0\x04dock\x05local\x00",
        ]
        .concat();
        assert_eq!(asked(&mut held(), 2000, &query), Some(expected));
    }

    #[test]
    fn a_ptr_reply_byte_for_byte() {
        let expected = [
            &b"\x00\x00\x84\x00\x00\x01\x00\x01\x00\x00\x00\x00"[..],
            b"\x06_voice\x04_tcp\x05local\x00\x00\x0c\x00\x01",
            b"\xc0\x0c\x00\x0c\x00\x01\x00\x00\x00\x0a\x00\x08\x05booth\xc0\x0c",
        ]
        .concat();
        let mut responder = held();
        let question = query(&[(SERVICE, 12, 1)], &[]);
        assert_eq!(asked(&mut responder, 2000, &question), Some(expected));
        assert_eq!(responder.reply, None);
    }

    #[test]
    fn all_records_of_the_instance_byte_for_byte() {
        let expected = [
            &b"\x00\x00\x84\x00\x00\x01\x00\x02\x00\x00\x00\x00"[..],
            b"\x05booth\x06_voice\x04_tcp\x05LOCAL\x00\x00\xff\x00\x01",
            // 41: no suffix stands in the question
            b"\x05booth\x06_voice\x04_tcp\x05local\x00\x00\x21\x00\x01\x00\x00\x00\x0a\x00\x12",
            b"\x00\x00\x00\x00\x0f\xa0\x04dock\x05local\x00",
            b"\xc0\x29\x00\x10\x00\x01\x00\x00\x00\x0a\x00\x01\x00",
        ]
        .concat();
        let name = b"\x05booth\x06_voice\x04_tcp\x05LOCAL\x00";
        let question = query(&[(name, 255, 1)], &[]);
        assert_eq!(asked(&mut held(), 2000, &question), Some(expected));
    }

    #[test]
    fn what_is_answered() {
        for (questions, expected) in [
            (&[(HOST, 1, 1)][..], vec![1]),
            (&[(HOST_OTHER_CASE, 255, 255)], vec![1]),
            (&[(HOST, 1, 0x8001)], vec![1]),
            (&[(HOST, 1, 3)], vec![]),
            (&[(HOST, 28, 1)], vec![]), // no NSEC
            (&[(HOST, 47, 1)], vec![]),
            (&[(INSTANCE, 255, 1)], vec![33, 16]),
            (&[(INSTANCE, 16, 1)], vec![16]),
            (&[(INSTANCE, 12, 1)], vec![]),
            (&[(SERVICE, 255, 1)], vec![12]),
            (&[], vec![]),
            (&[(HOST, 1, 1), (HOST, 1, 1)], vec![]),
        ] {
            assert_eq!(types_of(&mut held(), &query(questions, &[])), expected);
        }
        let known = query(&[(HOST, 1, 1)], &[(HOST, 1, 1, 120, OWN_A)]);
        assert_eq!(types_of(&mut held(), &known), [1]);
        for claim in [Claim::Lost, Claim::Deferred { due: 9 }] {
            let mut responder = held();
            responder.instance = claim;
            assert_eq!(
                types_of(&mut responder, &query(&[(SERVICE, 12, 1)], &[])),
                []
            );
            assert_eq!(types_of(&mut responder, &query(&[(HOST, 1, 1)], &[])), [1]);
        }
    }

    #[test]
    fn nothing_but_the_last_time_changes() {
        let later: TestRecord = (HOST, 1, 1, 120, &[200, 0, 0, 0]);
        let probe = packet(0, &[(HOST, 255, 1)], [&[], &[later], &[]]);
        for (mut responder, answers) in [(held(), true), (probing(), false)] {
            let mut before = responder.clone();
            before.last = 2100;
            assert_eq!(asked(&mut responder, 2100, &probe).is_some(), answers);
            assert_eq!(format!("{responder:?}"), format!("{before:?}"));
        }
        // a multicast right after it, and it right after a multicast
        let mut responder = held();
        let ask = query(&[(HOST, 1, 1)], &[]);
        assert!(asked(&mut responder, 3000, &ask).is_some());
        assert_eq!(answered(&mut responder, 3000, &ask), [1]);
        assert!(asked(&mut responder, 3000, &ask).is_some());
    }

    #[test]
    fn responses_from_other_ports_are_refused() {
        let mut responder = held();
        let conflict = response(&[(HOST, 1, 1, 120, OTHER_A)]);
        for port in [0, 53, MDNS_PORT - 1, MDNS_PORT + 65_536] {
            let arrival = Arrival {
                port,
                ..arrival(2100, &conflict)
            };
            let refused = take(&mut responder, arrival);
            assert_eq!(refused.err().map(|refusal| refusal.number()), Some(5));
        }
        assert_eq!(responder.last, 2000);
        assert!(responder.host.is_held());
    }
}
