//! "Goodbyes and changed data": a stop, and an update of the SRV port or the TXT
//! (RFC 6762, sections 8.4 and 10.1).

use super::{check_out, write, Claim, Responder, SECOND_STEP};
use crate::compose;
use crate::refusal::Refusal;
use crate::setup::{Kind, Setup};

/// "One before the last's time plus 6,000 ms is refused as 11".
const UPDATE_GAP: u64 = 6000;

/// New data of one record.
#[derive(Clone, Debug, PartialEq, Eq)]
pub enum Change {
    Port(u16),
    Txt(Vec<u8>),
}

impl Change {
    fn kind(&self) -> Kind {
        match self {
            Change::Port(_) => Kind::Srv,
            Change::Txt(_) => Kind::Txt,
        }
    }

    fn made_in(self, setup: &Setup) -> Setup {
        let mut setup = setup.clone();
        match self {
            Change::Port(port) => setup.port = port,
            Change::Txt(txt) => setup.txt = txt,
        }
        setup
    }
}

impl Responder {
    /// "a stop, which sends the held records with TTL 0 at once and leaves both
    /// claims lost". No multicast is kept of it, and what is set stays set.
    pub fn stop(&mut self, now: u64, out: &mut [u8]) -> Result<Option<usize>, Refusal> {
        self.check_time(now)?;
        check_out(out)?;
        self.check_setup()?;

        self.last = now;
        let mut held = self.setup.records();
        held.retain(|record| self.claim(record.kind.claim()).is_held());
        self.instance = Claim::Lost;
        self.host = Claim::Lost;
        if held.is_empty() {
            return Ok(None);
        }
        let goodbye = compose::goodbye(&held.iter().collect::<Vec<_>>());
        Ok(Some(write(&goodbye, out)))
    }

    /// "an update of SRV port or TXT"
    pub fn update(
        &mut self,
        now: u64,
        change: Change,
        out: &mut [u8],
    ) -> Result<Option<usize>, Refusal> {
        self.check_time(now)?;
        check_out(out)?;
        self.check_setup()?;
        let kind = change.kind();
        let setup = change.made_in(&self.setup);
        if !setup.is_legal() {
            return Err(Refusal::Setup);
        }
        if self.instance == Claim::Lost {
            return Err(Refusal::Lost);
        }
        if self.updated.is_some_and(|last| now < last + UPDATE_GAP) {
            return Err(Refusal::TooSoon);
        }

        self.last = now;
        self.setup = setup;
        self.updated = Some(now);
        // "Held queries forget what they knew of the record."
        for hold in &mut self.holds {
            hold.known[kind as usize] = false;
        }
        if !self.instance.is_held() {
            // "back to waiting with the new data, first probe due at now plus its
            // start draw"
            self.instance = Claim::Waiting {
                due: now + self.start_draw,
            };
            return Ok(None);
        }
        // "the updated record alone is announced at once, whatever the gaps, and the
        // claim's second step falls due anew in 1,000 ms"
        let second_step = Some(now + SECOND_STEP);
        self.instance = Claim::Held { second_step };
        let mut records = self.setup.records();
        records.retain(|record| record.kind == kind);
        Ok(self.multicast(now, &records, out))
    }
}

#[cfg(test)]
mod tests {
    use super::super::tests::*;
    use super::super::{ProbesSent, LEAST_OUT};
    use super::*;
    use crate::setup::tests::example;
    use crate::MOST_TIME;

    fn stopped(responder: &mut Responder, now: u64) -> Option<Vec<u8>> {
        let mut out = [0; LEAST_OUT];
        let sent = responder.stop(now, &mut out).unwrap();
        sent.map(|length| out[..length].to_vec())
    }

    fn updated(responder: &mut Responder, now: u64, change: Change) -> Result<Option<Vec<u8>>, u8> {
        let mut out = [0; LEAST_OUT];
        let sent = responder
            .update(now, change, &mut out)
            .map_err(Refusal::number)?;
        Ok(sent.map(|length| out[..length].to_vec()))
    }

    fn txt(text: &[u8]) -> Change {
        Change::Txt(text.to_vec())
    }

    #[test]
    fn a_goodbye_byte_for_byte() {
        let expected = [
            &b"\x00\x00\x84\x00\x00\x00\x00\x04\x00\x00\x00\x00"[..],
            b"\x06_voice\x04_tcp\x05local\x00\x00\x0c\x00\x01\x00\x00\x00\x00\x00\x08\x05booth\xc0\x0c",
            b"\xc0\x29\x00\x21\x80\x01\x00\x00\x00\x00\x00\x0d\x00\x00\x00\x00\x0f\xa0\x04dock\xc0\x18",
            b"\xc0\x29\x00\x10\x80\x01\x00\x00\x00\x00\x00\x01\x00",
            b"\xc0\x43\x00\x01\x80\x01\x00\x00\x00\x00\x00\x04\x0a\x00\x00\x07",
        ]
        .concat();
        let mut responder = held();
        let multicast = responder.multicast;
        assert_eq!(stopped(&mut responder, 2500), Some(expected));
        assert_eq!(responder.instance, Claim::Lost);
        assert_eq!(responder.host, Claim::Lost);
        assert_eq!(responder.last, 2500);
        assert_eq!(responder.multicast, multicast);
        // again, with nothing to say
        assert_eq!(stopped(&mut responder, 2500), None);
        assert_eq!(tick(&mut responder, 99_999), None);
    }

    #[test]
    fn what_is_held_gets_a_goodbye() {
        for (instance, host, expected) in [
            (true, false, &[12, 33, 16][..]),
            (false, true, &[1]),
            (false, false, &[]),
        ] {
            let mut responder = held();
            if !instance {
                responder.instance = Claim::Deferred { due: 9 };
            }
            if !host {
                responder.host = Claim::Waiting { due: 9 };
            }
            let sent = stopped(&mut responder, 3000);
            assert_eq!(sent.map_or(vec![], |packet| types(&packet)), expected);
            assert_eq!(
                (responder.instance, responder.host),
                (Claim::Lost, Claim::Lost)
            );
        }
    }

    #[test]
    fn a_reply_and_held_queries_stay_and_send_nothing() {
        let mut responder = held();
        let ask: &[(&[u8], u16, u16)] = &[(SERVICE, 12, 1), (HOST, 1, 1)];
        receive(&mut responder, 3000, &query(&ask[..1], &[]));
        receive(&mut responder, 3000, &packet(0x0200, ask, [&[], &[], &[]]));
        stopped(&mut responder, 3001);
        assert_eq!(responder.reply, Some(3020));
        assert_eq!(responder.holds.len(), 1);
        assert_eq!(tick(&mut responder, 3500), None);
        assert_eq!(responder.reply, None);
        assert_eq!(responder.holds.len(), 0);
    }

    #[test]
    fn an_update_while_held() {
        let mut responder = held();
        // right after the second announcement, and its step had been taken
        let sent = updated(&mut responder, 2000, txt(b"\x01a")).unwrap();
        let expected = [
            &b"\x00\x00\x84\x00\x00\x00\x00\x01\x00\x00\x00\x00"[..],
            b"\x05booth\x06_voice\x04_tcp\x05local\x00\x00\x10\x80\x01\x00\x00\x11\x94\x00\x02\x01a",
        ]
        .concat();
        assert_eq!(sent, Some(expected));
        let second_step = Some(3000);
        assert_eq!(responder.instance, Claim::Held { second_step });
        assert_eq!(responder.multicast[Kind::Txt as usize], Some(2000));
        assert_eq!(responder.updated, Some(2000));
        assert_eq!(tick(&mut responder, 2999), None);
        assert_eq!(tick(&mut responder, 3000), Some((vec![12, 33, 16], false)));
        let port = updated(&mut responder, 8000, Change::Port(80))
            .unwrap()
            .unwrap();
        assert_eq!(types(&port), [33]);
        assert_eq!(responder.multicast[Kind::Txt as usize], Some(3000));
        assert_eq!(responder.setup.port, 80);
        assert_eq!(responder.setup.txt, b"\x01a");
    }

    #[test]
    fn new_data_may_equal_the_old() {
        let mut responder = held();
        let sent = updated(&mut responder, 2000, txt(b"\x00")).unwrap();
        assert_eq!(types(&sent.unwrap()), [16]);
    }

    #[test]
    fn an_update_before_it_is_held_begins_anew() {
        let mut responder = Responder::start(0, 30, example()).unwrap();
        for (claim, now) in [
            (Claim::Waiting { due: 1 }, 10_000),
            (
                Claim::Probing {
                    sent: ProbesSent::Three,
                    due: 10_001,
                },
                20_000,
            ),
            (Claim::Deferred { due: 30_500 }, 30_000),
        ] {
            responder.instance = claim;
            let host = responder.host;
            assert_eq!(updated(&mut responder, now, Change::Port(7)), Ok(None));
            assert_eq!(responder.instance, Claim::Waiting { due: now + 30 });
            assert_eq!(responder.host, host);
            assert_eq!(responder.updated, Some(now));
        }
    }

    #[test]
    fn held_queries_forget_the_record_alone() {
        for held_then in [true, false] {
            let mut responder = held();
            let known: &[TestRecord] =
                &[(INSTANCE, 16, 1, 4500, b"\x00"), (HOST, 1, 1, 120, OWN_A)];
            let ask: &[(&[u8], u16, u16)] = &[(INSTANCE, 16, 1), (HOST, 1, 1)];
            receive(
                &mut responder,
                3000,
                &packet(0x0200, ask, [known, &[], &[]]),
            );
            if !held_then {
                responder.instance = Claim::Waiting { due: 9999 };
            }
            updated(&mut responder, 3001, txt(b"\x00")).unwrap();
            assert!(!responder.holds[0].known[Kind::Txt as usize]);
            assert!(responder.holds[0].known[Kind::A as usize]);
            assert!(responder.holds[0].asked[Kind::Txt as usize]);
        }
    }

    #[test]
    fn refusals_in_order() {
        let mut responder = held();
        assert!(updated(&mut responder, 10_000, Change::Port(1)).is_ok());
        let kept = format!("{responder:?}");
        let mut out = [0; LEAST_OUT];
        let long = vec![0; 401];
        for (now, text, room, number) in [
            (9_999, &long[..], 0, 1),
            (MOST_TIME + 1, &long, 0, 1),
            (15_999, &long, 1451, 3),
            (15_999, &long, 1452, 7),
            (15_999, b"", 1452, 7),
            (15_999, b"\x01", 1452, 7),
            (15_999, b"\x00", 1452, 11),
        ] {
            let refused = responder.update(now, txt(text), &mut out[..room]);
            assert_eq!(refused.map_err(Refusal::number), Err(number));
        }
        for (now, room, number) in [(9_999, 0, 1), (10_000, 1451, 3)] {
            let refused = responder.stop(now, &mut out[..room]);
            assert_eq!(refused.map_err(Refusal::number), Err(number));
        }
        assert_eq!(format!("{responder:?}"), kept);
        let mut lost = responder.clone();
        lost.instance = Claim::Lost;
        assert_eq!(updated(&mut lost, 15_999, txt(b"\x00")), Err(10));
        assert_eq!(updated(&mut lost, 15_999, txt(b"")), Err(7));
        assert!(updated(&mut responder, 16_000, txt(b"\x00")).is_ok());
        // a kept time ahead of now
        responder.updated = Some(20_000);
        assert_eq!(updated(&mut responder, 17_000, txt(b"\x00")), Err(11));
        responder.updated = Some(MOST_TIME + 2000);
        assert_eq!(updated(&mut responder, 17_000, txt(b"\x00")), Err(11));
        responder.updated = Some(MOST_TIME + 2001);
        assert_eq!(updated(&mut responder, 17_000, txt(b"\x00")), Err(1));
        responder.updated = None;
        responder.start_draw = 251;
        assert_eq!(updated(&mut responder, 17_000, txt(b"\x00")), Err(7));
        assert_eq!(responder.stop(17_000, &mut out), Err(Refusal::Setup));
    }
}
