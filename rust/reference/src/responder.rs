//! "A claim's life" and "Which answers go out": start, packet received, tick.

mod changes;
pub mod holds;
mod plain;
#[cfg(test)]
mod tests;
mod unicast;

use std::cmp::Ordering;

pub use changes::Change;

use holds::{Address, Hold, LEAST_HOLD_DRAW, MOST_HOLD_DRAW};

use crate::message::{Message, Question, Section};
use crate::order;
use crate::refusal::Refusal;
use crate::setup::{ClaimName, Kind, OwnRecord, Setup, KINDS};
use crate::{class, compose, rtype, MDNS_PORT, MOST_TIME};

pub const LEAST_OUT: usize = 1452;
/// Refusal 1: "a time kept in the state above 2^62 + 2,000"
pub const MOST_KEPT_TIME: u64 = MOST_TIME + 2000;
const MOST_START_DRAW: u64 = 250;
const LEAST_REPLY_DRAW: u64 = 20;
const MOST_REPLY_DRAW: u64 = 120;

const PROBE_GAP: u64 = 250;
const DEFERRAL: u64 = 1000;
const SECOND_STEP: u64 = 1000;
const MULTICAST_GAP: u64 = 1000;
const MULTICAST_GAP_FOR_PROBES: u64 = 250;

/// A claim's state with the time its next step is due.
#[derive(Clone, Copy, Debug, PartialEq, Eq)]
pub enum Claim {
    Waiting {
        due: u64,
    },
    Probing {
        sent: ProbesSent,
        due: u64,
    },
    Deferred {
        due: u64,
    },
    /// `second_step` is when the second announcement is due, if still to come.
    Held {
        second_step: Option<u64>,
    },
    Lost,
}

#[derive(Clone, Copy, Debug, PartialEq, Eq)]
pub enum ProbesSent {
    One,
    Two,
    Three,
}

#[derive(Clone, Debug)]
pub struct Responder {
    pub setup: Setup,
    pub start_draw: u64,
    /// The time of the last call that was not refused.
    pub last: u64,
    pub instance: Claim,
    pub host: Claim,
    /// When the PTR reply is due, if one is set.
    pub reply: Option<u64>,
    /// When each own record was last multicast, by `Kind`.
    pub multicast: [Option<u64>; KINDS],
    /// Held queries, in order of arrival.
    pub holds: Vec<Hold>,
    /// "the time of last update, or none"
    pub updated: Option<u64>,
}

/// A packet received, with its source and the two draws.
#[derive(Clone, Copy, Debug)]
pub struct Arrival<'a> {
    pub now: u64,
    pub from: Address,
    pub port: u64,
    /// For a PTR reply.
    pub draw: u64,
    /// For holding a truncated query.
    pub hold_draw: u64,
    pub packet: &'a [u8],
}

/// The lengths of the packets that answer a received one, each in the buffer of
/// its kind.
#[derive(Clone, Copy, Debug, Default, PartialEq, Eq)]
pub struct Answered {
    pub multicast: Option<usize>,
    /// To where the message came from.
    pub unicast: Option<usize>,
}

/// The two out buffers of a packet received.
#[derive(Debug)]
pub struct Outs<'a> {
    pub multicast: &'a mut [u8],
    pub unicast: &'a mut [u8],
}

/// The own records that answer a query, by the way they go.
struct Answers {
    multicast: Vec<OwnRecord>,
    unicast: Vec<OwnRecord>,
}

/// A packet that a tick sent.
#[derive(Clone, Copy, Debug, PartialEq, Eq)]
pub struct Sent {
    pub length: usize,
    /// "It says whether more is due."
    pub more: bool,
}

impl Claim {
    pub fn due(self) -> Option<u64> {
        match self {
            Claim::Waiting { due } | Claim::Probing { due, .. } | Claim::Deferred { due } => {
                Some(due)
            }
            Claim::Held { second_step } => second_step,
            Claim::Lost => None,
        }
    }

    pub fn is_held(self) -> bool {
        matches!(self, Claim::Held { .. })
    }
}

fn is_due(due: Option<u64>, now: u64) -> bool {
    due.is_some_and(|due| due <= now)
}

impl Default for Responder {
    /// The blank state before the first start; every call refuses it.
    fn default() -> Responder {
        Responder {
            setup: Setup::default(),
            start_draw: 0,
            last: 0,
            instance: Claim::Lost,
            host: Claim::Lost,
            reply: None,
            multicast: [None; KINDS],
            holds: Vec::new(),
            updated: None,
        }
    }
}

impl Responder {
    pub fn start(now: u64, draw: u64, setup: Setup) -> Result<Responder, Refusal> {
        if now > MOST_TIME {
            return Err(Refusal::Time);
        }
        if draw > MOST_START_DRAW {
            return Err(Refusal::Draw);
        }
        if !setup.is_legal() {
            return Err(Refusal::Setup);
        }
        // "Waiting: first probe due at start plus draw."
        let waiting = Claim::Waiting { due: now + draw };
        Ok(Responder {
            setup,
            start_draw: draw,
            last: now,
            instance: waiting,
            host: waiting,
            ..Responder::default()
        })
    }

    /// Takes a packet. "Receiving takes no due step." What is sent is written to
    /// the buffer of its kind.
    pub fn receive(&mut self, arrival: Arrival, outs: Outs) -> Result<Answered, Refusal> {
        let Arrival { now, draw, .. } = arrival;
        self.check_time(now)?;
        if !(LEAST_REPLY_DRAW..=MOST_REPLY_DRAW).contains(&draw)
            || !(LEAST_HOLD_DRAW..=MOST_HOLD_DRAW).contains(&arrival.hold_draw)
        {
            return Err(Refusal::Draw);
        }
        check_out(outs.multicast)?;
        check_out(outs.unicast)?;
        let message = Message::read_from(arrival.port, arrival.packet)?;
        self.check_setup()?;

        self.last = now;
        if message.is_response() {
            self.take_conflict(now, &message, ClaimName::Instance);
            self.take_conflict(now, &message, ClaimName::Host);
            return Ok(Answered::default());
        }
        if arrival.port != MDNS_PORT {
            let unicast = self.plain_reply(&message, outs.unicast);
            return Ok(Answered {
                unicast,
                ..Answered::default()
            });
        }
        self.add_known_answers(arrival.from, &message);
        if self.can_be_held(arrival.from, &message) {
            self.hold(arrival, &message);
            return Ok(Answered::default());
        }
        let answers = self.answers(now, &message);
        self.take_probe(now, &message, ClaimName::Instance);
        self.take_probe(now, &message, ClaimName::Host);
        let unicast = self.unicast_answer(&message, &answers.unicast, outs.unicast);

        // "SRV, TXT, A, AAAA go out at once in one packet", NSEC with them.
        // "PTR is set for a reply at now plus the draw, unless one is already set"
        let (ptr, at_once): (Vec<_>, Vec<_>) = answers
            .multicast
            .into_iter()
            .partition(|record| record.kind == Kind::Ptr);
        if !ptr.is_empty() {
            self.reply.get_or_insert(now + draw);
        }
        Ok(Answered {
            multicast: self.multicast(now, &at_once, outs.multicast),
            unicast,
        })
    }

    /// "A tick walks the due steps, instance, host, then PTR reply: one with
    /// nothing to send is taken and passed, the first that sends ends the tick."
    /// A due hold "is a tick's last step, oldest first".
    pub fn tick(&mut self, now: u64, out: &mut [u8]) -> Result<Option<Sent>, Refusal> {
        self.check_time(now)?;
        check_out(out)?;
        self.check_setup()?;

        self.last = now;
        let sent = self
            .claim_step(now, ClaimName::Instance, out)
            .or_else(|| self.claim_step(now, ClaimName::Host, out))
            .or_else(|| self.reply_step(now, out))
            .or_else(|| self.hold_steps(now, out));
        let more = self.dues().any(|due| due <= now);
        Ok(sent.map(|length| Sent { length, more }))
    }

    /// When the steps to come are due.
    pub fn dues(&self) -> impl Iterator<Item = u64> + '_ {
        let steps = [self.instance.due(), self.host.due(), self.reply];
        let holds = self.holds.iter().map(|hold| hold.due);
        steps.into_iter().flatten().chain(holds)
    }

    fn claim(&self, name: ClaimName) -> Claim {
        match name {
            ClaimName::Instance => self.instance,
            ClaimName::Host => self.host,
        }
    }

    fn set_claim(&mut self, name: ClaimName, claim: Claim) {
        match name {
            ClaimName::Instance => self.instance = claim,
            ClaimName::Host => self.host = claim,
        }
    }

    /// Refusal 1: "time above 2^62, or before the state's last time, [...] or a
    /// time kept in the state above 2^62 + 2,000".
    fn check_time(&self, now: u64) -> Result<(), Refusal> {
        let multicasts = self.multicast.into_iter().flatten();
        let kept_too_late = self
            .dues()
            .chain(multicasts)
            .chain(self.updated)
            .chain([self.last])
            .any(|time| time > MOST_KEPT_TIME);
        if now > MOST_TIME || now < self.last || kept_too_late {
            return Err(Refusal::Time);
        }
        Ok(())
    }

    /// Refusal 7: "names or data, in a setup or a state handed in, break the
    /// rules below, or a kept start draw is above 250".
    fn check_setup(&self) -> Result<(), Refusal> {
        if self.setup.is_legal() && self.start_draw <= MOST_START_DRAW {
            Ok(())
        } else {
            Err(Refusal::Setup)
        }
    }

    /// "A kept time ahead of now counts as 0 ms ago."
    fn was_multicast_within(&self, kind: Kind, gap: u64, now: u64) -> bool {
        self.multicast[kind as usize].is_some_and(|time| now.saturating_sub(time) < gap)
    }

    /// "A response record of any section conflicts when name, class 1 and type
    /// are the claim's, TTL is not 0 and rdata differs. [...] One message counts
    /// once per claim".
    fn take_conflict(&mut self, now: u64, response: &Message, name: ClaimName) {
        let own = self.setup.claimed_records(name);
        let conflict = response.records.iter().any(|record| {
            own.iter().any(|own| {
                record.owner.equals(&own.owner)
                    && record.class() == class::IN
                    && record.rtype == own.kind.rtype()
                    && record.ttl != 0
                    && record.rdata != own.rdata()
            })
        });
        if conflict {
            // "A held claim goes back to waiting, first probe due at now plus
            // its start draw; any other becomes lost for good."
            let next = match self.claim(name) {
                Claim::Held { .. } => Claim::Waiting {
                    due: now + self.start_draw,
                },
                _ => Claim::Lost,
            };
            self.set_claim(name, next);
        }
    }

    /// "A probe is a query with a type 255, class 1 or 255 question for the
    /// claim's name and at least one Authority record under it." Gives those
    /// records for the tiebreak, or nothing if the query is no such probe.
    fn probe_for(&self, query: &Message, name: ClaimName) -> Option<Vec<order::Entry>> {
        let claimed = self.setup.claim_name(name);
        let asked = query.questions.iter().any(|question| {
            question.name.equals(&claimed)
                && question.rtype == rtype::ANY
                && matches!(question.class(), class::IN | class::ANY)
        });
        let theirs: Vec<_> = query
            .section(Section::Authority)
            .filter(|record| record.owner.equals(&claimed))
            .map(|record| order::Entry {
                class: record.class(),
                rtype: record.rtype,
                rdata: record.rdata.clone(),
            })
            .collect();
        (asked && !theirs.is_empty()).then_some(theirs)
    }

    /// "While probing, if theirs is later, the claim is deferred: its next first
    /// probe is due in 1,000 ms. In waiting or deferred a probe does nothing."
    fn take_probe(&mut self, now: u64, query: &Message, name: ClaimName) {
        let Claim::Probing { .. } = self.claim(name) else {
            return;
        };
        let Some(theirs) = self.probe_for(query, name) else {
            return;
        };
        let ours = self
            .setup
            .claimed_records(name)
            .iter()
            .map(|record| order::Entry {
                class: class::IN,
                rtype: record.kind.rtype(),
                rdata: record.rdata(),
            })
            .collect();
        if order::compare(theirs, ours) == Ordering::Greater {
            self.set_claim(
                name,
                Claim::Deferred {
                    due: now + DEFERRAL,
                },
            );
        }
    }

    /// The own records that are due for a query and not omitted: (a) leaves a
    /// record out of both kinds of answer, (b) out of multicasts alone.
    fn answers(&self, now: u64, query: &Message) -> Answers {
        let mut due = self.setup.all_records();
        due.retain(|record| self.is_asked_for(query, record) && !is_known(query, record));
        let (unicast, mut multicast): (Vec<_>, Vec<_>) = due
            .into_iter()
            .partition(|record| self.goes_by_unicast(now, query, record));
        multicast.retain(|record| !self.is_recent(now, query, record));
        Answers { multicast, unicast }
    }

    /// "A record is due when its claim is held (PTR: the instance claim), a
    /// question of a query has its name, its type or 255, and class 1 or 255."
    fn is_asked_for(&self, query: &Message, record: &OwnRecord) -> bool {
        self.claim(record.kind.claim()).is_held() && self.is_in_question(query, record)
    }

    /// The same, whether the claim is held or not.
    fn is_in_question(&self, query: &Message, record: &OwnRecord) -> bool {
        self.questions_for(query, record).next().is_some()
    }

    /// The questions that ask for a record, whether its claim is held or not.
    fn questions_for<'a>(
        &'a self,
        query: &'a Message,
        record: &'a OwnRecord,
    ) -> impl Iterator<Item = &'a Question> {
        query.questions.iter().filter(|question| {
            question.name.equals(&record.owner)
                && self.is_asked_by(question.rtype, record)
                && matches!(question.class(), class::IN | class::ANY)
        })
    }

    /// Whether a question of this type asks for a record under the same name: a
    /// record's "type or 255"; NSEC is asked for by "a type other than 255
    /// absent there", its own too.
    fn is_asked_by(&self, rtype: u16, record: &OwnRecord) -> bool {
        if !record.kind.is_negative() {
            return rtype == record.kind.rtype() || rtype == rtype::ANY;
        }
        let claimed = self.setup.claimed_records(record.kind.claim());
        let present = claimed.iter().any(|own| own.kind.rtype() == rtype);
        rtype != rtype::ANY && !present
    }

    /// "(b) it was multicast less than 1,000 ms ago, 250 ms if the query is a
    /// probe for its claim"
    fn is_recent(&self, now: u64, query: &Message, record: &OwnRecord) -> bool {
        let gap = match self.probe_for(query, record.kind.claim()) {
            Some(_) => MULTICAST_GAP_FOR_PROBES,
            None => MULTICAST_GAP,
        };
        self.was_multicast_within(record.kind, gap, now)
    }

    /// Writes the records as one response and keeps the time; nothing if there
    /// are none.
    fn multicast(&mut self, now: u64, records: &[OwnRecord], out: &mut [u8]) -> Option<usize> {
        if records.is_empty() {
            return None;
        }
        for record in records {
            self.multicast[record.kind as usize] = Some(now);
        }
        let response = compose::response(&records.iter().collect::<Vec<_>>());
        Some(write(&response, out))
    }

    /// Takes the step of a claim, if one is due.
    fn claim_step(&mut self, now: u64, name: ClaimName, out: &mut [u8]) -> Option<usize> {
        let claim = self.claim(name);
        if !is_due(claim.due(), now) {
            return None;
        }
        let probing = |sent| Claim::Probing {
            sent,
            due: now + PROBE_GAP,
        };
        let mut records = self.setup.records();
        records.retain(|record| record.kind.claim() == name);
        match claim {
            // "three probes, each due 250 ms after the last was sent"
            Claim::Waiting { .. } | Claim::Deferred { .. } => {
                self.set_claim(name, probing(ProbesSent::One));
                Some(write(&compose::probe(&self.setup, name), out))
            }
            Claim::Probing {
                sent: ProbesSent::One,
                ..
            } => {
                self.set_claim(name, probing(ProbesSent::Two));
                Some(write(&compose::probe(&self.setup, name), out))
            }
            Claim::Probing {
                sent: ProbesSent::Two,
                ..
            } => {
                self.set_claim(name, probing(ProbesSent::Three));
                Some(write(&compose::probe(&self.setup, name), out))
            }
            // "that step sends the first announcement, all its records whatever
            // was sent before"
            Claim::Probing {
                sent: ProbesSent::Three,
                ..
            } => {
                let second_step = Some(now + SECOND_STEP);
                self.set_claim(name, Claim::Held { second_step });
                self.multicast(now, &records, out)
            }
            // "A second step [...] sends those not multicast less than 1,000 ms ago."
            Claim::Held { .. } => {
                self.set_claim(name, Claim::Held { second_step: None });
                records
                    .retain(|record| !self.was_multicast_within(record.kind, MULTICAST_GAP, now));
                self.multicast(now, &records, out)
            }
            Claim::Lost => None,
        }
    }

    /// "at its step it is dropped if the claim is not held or it was multicast
    /// less than 1,000 ms ago"
    fn reply_step(&mut self, now: u64, out: &mut [u8]) -> Option<usize> {
        if !is_due(self.reply, now) {
            return None;
        }
        self.reply = None;
        if !self.instance.is_held() || self.was_multicast_within(Kind::Ptr, MULTICAST_GAP, now) {
            return None;
        }
        let mut records = self.setup.records();
        records.retain(|record| record.kind == Kind::Ptr);
        self.multicast(now, &records, out)
    }
}

pub fn check_out(out: &[u8]) -> Result<(), Refusal> {
    if out.len() < LEAST_OUT {
        return Err(Refusal::OutBuffer);
    }
    Ok(())
}

/// "Out bytes beyond a written packet are also kept."
pub fn write(packet: &[u8], out: &mut [u8]) -> usize {
    out[..packet.len()].copy_from_slice(packet);
    packet.len()
}

/// "(a) an Answer record in the query has equal name, class, type and rdata and
/// twice its TTL is at least our own TTL"
fn is_known(query: &Message, record: &OwnRecord) -> bool {
    query.section(Section::Answer).any(|known| {
        known.owner.equals(&record.owner)
            && known.class() == class::IN
            && known.rtype == record.kind.rtype()
            && known.rdata == record.rdata()
            && 2 * u64::from(known.ttl) >= u64::from(record.kind.ttl())
    })
}
