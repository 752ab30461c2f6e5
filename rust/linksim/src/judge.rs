//! Demand 3's two conclusions, judged by the packets alone, from the specification, 'A claim's life'. Nothing here asks the console.
//! A responder is known by the number of its start among the accepted ones.

mod contention;

use std::cmp::Ordering;
use std::fmt;

use contention::Contention;
pub use contention::Counts as Contentions;

use reference::message::{Message, Question, Record, Section};
use reference::name::Name;
use reference::order::{self, Entry};
use reference::responder::Change;
use reference::setup::{ClaimName, Setup};
use reference::{class, rtype};

use crate::describe::text_of;
use crate::entry::Packet;

/// "a dock holds each of its two names 1,200 ms after its start at the latest"
const HOLDING_TIME: u64 = 1200;
/// "for at most 100 ms after a holder's update, another dock with different data may hold, or come to hold, that name"
const EXCUSED: u64 = 100;

#[derive(Default)]
pub struct Judge {
    responders: Vec<Responder>,
    /// How often the 1,200 ms were asked of a claim.
    pub asked: u64,
    /// Of groups that are joined, from then on.
    joined: Option<Joined>,
    /// After how many entries two held one name with different data, in the time after an update.
    pub excused: u64,
    contention: Contention,
}

/// What was sent to all since groups were joined, and who heard of whom.
#[derive(Default)]
struct Joined {
    sent: Vec<(usize, Packet)>,
    /// Who heard, of whom, and of which claim.
    heard: Vec<(usize, usize, usize)>,
}

struct Responder {
    setup: Setup,
    runs: bool,
    /// Instance, host.
    claims: [Claim; 2],
}

/// A name with what one responder would have it mean, and what happened to it so far.
pub struct Claim {
    name: Name,
    /// Class, type and rdata: "Its types and data are its setup's", and "a dock's data are those after its last update taken".
    records: Vec<Entry>,
    holds: bool,
    /// From when the 1,200 ms run: its start, or an update taken while it was not held.
    begin: u64,
    /// The 1,200 ms are over.
    past: bool,
    /// A conflicting response or a probe with later records was heard since then.
    opposed: bool,
    started: u64,
    /// When a probe with later records was heard last.
    later: Option<u64>,
    /// A holder of the name was asked for since then.
    answered: bool,
    /// When a record under it went to all last.
    multicast: Option<u64>,
    /// A probe was heard that this very call has to answer.
    challenged: bool,
    /// The times and types of the updates that were taken while it was held.
    updates: Vec<(u64, u16)>,
}

#[derive(Clone, Debug, PartialEq, Eq)]
pub enum Violation {
    /// "no two docks hold the same name at once with different data in a record type both carry"
    TwoHolders {
        name: String,
        one: usize,
        other: usize,
    },
    /// "a dock holds each of its two names 1,200 ms after its start at the latest"
    NotInTime { name: String, responder: usize },
    /// "From the first moment that one of them takes a multicast, sent since the joining, of a differing record, TTL not 0, from the
    /// other, the two never again hold that name together with different data."
    BothAgain {
        name: String,
        heard: usize,
        other: usize,
    },
    /// A name that is left alone is held by nobody, though this responder wants it since 1,200 ms, and no probe with later records was
    /// heard by it, or none for 1,950 ms.
    Unheld {
        name: String,
        responder: usize,
        later: bool,
    },
    /// One who held a name that is left alone does so no longer.
    GivenUp { name: String, responder: usize },
    /// A call was refused that the table of refusals lets pass, or the other way round, or by another number.
    Refusal {
        expected: Option<u8>,
        given: Option<u8>,
    },
    /// A packet of a responder that the reference program's reader refuses.
    Unreadable { responder: usize },
}

impl Claim {
    pub fn new(time: u64, setup: &Setup, name: ClaimName) -> Claim {
        Claim {
            name: setup.claim_name(name),
            records: records(setup, name),
            holds: false,
            begin: time,
            past: false,
            opposed: false,
            started: time,
            later: None,
            answered: false,
            multicast: None,
            challenged: false,
            updates: Vec::new(),
        }
    }

    /// An update that was taken: new data of this type.
    fn update(&mut self, time: u64, setup: &Setup, rtype: u16) {
        self.records = records(setup, ClaimName::Instance);
        if self.holds {
            self.updates.push((time, rtype));
        } else {
            // "they and their premise run from the last update taken before it is held"
            self.begin = time;
            self.past = false;
            self.opposed = false;
        }
    }

    /// An update of this type, taken while the name was held, is at most 100 ms ago.
    fn is_excused(&self, time: u64, rtype: u16) -> bool {
        let mut updates = self.updates.iter();
        updates.any(|(at, of)| *of == rtype && time <= at + EXCUSED)
    }

    /// "A response record of any section conflicts when name, class 1 and type are the claim's, TTL is not 0 and rdata differs."
    fn conflicts(&self, message: &Message) -> bool {
        let conflicting = |record: &Record| {
            let own = self.records.iter().find(|own| own.rtype == record.rtype);
            record.owner.equals(&self.name)
                && record.class() == class::IN
                && record.ttl != 0
                && own.is_some_and(|own| own.rdata != record.rdata)
        };
        message.is_response() && message.records.iter().any(conflicting)
    }

    /// "A probe is a query with a type 255, class 1 or 255 question for the claim's name and at least one Authority record under it."
    fn is_probe(&self, message: &Message) -> bool {
        let asks = |question: &Question| {
            question.name.equals(&self.name)
                && question.rtype == rtype::ANY
                && matches!(question.class(), class::IN | class::ANY)
        };
        !message.is_response()
            && message.questions.iter().any(asks)
            && !self.theirs(message).is_empty()
    }

    fn theirs(&self, message: &Message) -> Vec<Entry> {
        let authority = message.section(Section::Authority);
        authority
            .filter(|record| record.owner.equals(&self.name))
            .map(|record| Entry {
                class: record.class(),
                rtype: record.rtype,
                rdata: record.rdata.clone(),
            })
            .collect()
    }

    /// A probe for the name whose records are later than ours.
    fn is_later(&self, message: &Message) -> bool {
        self.is_probe(message)
            && order::compare(self.theirs(message), self.records.clone()) == Ordering::Greater
    }

    /// "a response with a record under it"; "demand 3 and L13 speak only of SRV, TXT, A and AAAA"
    fn is_answered_by(&self, message: &Message) -> bool {
        let types = [rtype::SRV, rtype::TXT, rtype::A, rtype::AAAA];
        let under =
            |record: &Record| record.owner.equals(&self.name) && types.contains(&record.rtype);
        message.is_response() && message.records.iter().any(under)
    }

    /// "a multicast [...] of a differing record, TTL not 0": a response that says, in one of these types, what we have.
    fn tells(&self, message: &Message, types: &[u16]) -> bool {
        let tells = |record: &Record| {
            let own = self.records.iter().find(|own| own.rtype == record.rtype);
            types.contains(&record.rtype)
                && record.owner.equals(&self.name)
                && record.class() == class::IN
                && record.ttl != 0
                && own.is_some_and(|own| own.rdata == record.rdata)
        };
        message.is_response() && message.records.iter().any(tells)
    }

    fn hear(&mut self, time: u64, message: &Message) {
        if self.conflicts(message) {
            self.holds = false;
            self.opposed = true;
        }
        if self.is_later(message) {
            self.opposed = true;
            self.later = Some(time);
            self.answered = false;
        }
    }

    /// Same name, and different data in these types of both.
    fn differs_from(&self, other: &Claim) -> Vec<u16> {
        let unlike = |own: &&Entry| {
            let mut theirs = other.records.iter();
            theirs.any(|theirs| own.rtype == theirs.rtype && own.rdata != theirs.rdata)
        };
        if !self.name.equals(&other.name) {
            return Vec::new();
        }
        let differing = self.records.iter().filter(unlike);
        differing.map(|own| own.rtype).collect()
    }
}

/// What a claim's name would mean by this set-up.
fn records(setup: &Setup, name: ClaimName) -> Vec<Entry> {
    let own = setup.records().into_iter();
    own.filter(|record| record.kind.is_claimed() && record.kind.claim() == name)
        .map(|record| Entry {
            class: class::IN,
            rtype: record.kind.rtype(),
            rdata: record.rdata(),
        })
        .collect()
}

impl Judge {
    /// An accepted start; gives the responder's number.
    pub fn start(&mut self, time: u64, setup: &Setup) -> usize {
        let names = [ClaimName::Instance, ClaimName::Host];
        let claims = names.map(|name| Claim::new(time, setup, name));
        for claim in &claims {
            self.contention.want(time, &claim.name);
        }
        self.responders.push(Responder {
            setup: setup.clone(),
            runs: true,
            claims,
        });
        self.responders.len() - 1
    }

    /// "A power cut ends a dock: from then on it holds nothing"; "a stop taken ends holding".
    pub fn end(&mut self, responder: usize) {
        self.responders[responder].runs = false;
        for claim in &mut self.responders[responder].claims {
            claim.holds = false;
            self.contention.disturb(&claim.name);
        }
    }

    /// An update that was taken, before what the call wrote.
    pub fn update(&mut self, time: u64, responder: usize, change: &Change) {
        let Responder { setup, claims, .. } = &mut self.responders[responder];
        let rtype = match change {
            Change::Port(port) => {
                setup.port = *port;
                rtype::SRV
            }
            Change::Txt(txt) => {
                setup.txt = txt.clone();
                rtype::TXT
            }
        };
        claims[0].update(time, setup, rtype);
        self.contention.disturb(&claims[0].name);
    }

    pub fn join(&mut self) {
        self.joined = Some(Joined::default());
    }

    /// How many pairs hold one name with different data.
    pub fn pairs(&self) -> u64 {
        let mut pairs = 0;
        for (at, one) in self.responders.iter().enumerate() {
            for other in &self.responders[at + 1..] {
                for (claim, others) in one.claims.iter().zip(&other.claims) {
                    let both = claim.holds && others.holds;
                    pairs += u64::from(both && !claim.differs_from(others).is_empty());
                }
            }
        }
        pairs
    }

    /// How many pairs of which one has heard the other.
    pub fn met(&self) -> u64 {
        let joined = self.joined.as_ref();
        joined.map_or(0, |joined| joined.heard.len() as u64)
    }

    /// How often a name that is left alone was asked to be held, and how long it was not.
    pub fn contentions(&self) -> Contentions {
        self.contention.counts()
    }

    /// A packet by unicast.
    pub fn send_back(&mut self, packet: &Packet) {
        self.contention.send(packet);
    }

    /// A packet that went to all.
    pub fn send(&mut self, responder: usize, packet: &Packet) {
        self.contention.send(packet);
        if let Some(joined) = &mut self.joined {
            joined.sent.push((responder, packet.clone()));
        }
    }

    /// A packet that was taken, of groups that are joined: does it say what another has, who sent it to all?
    pub fn meet(&mut self, responder: usize, packet: &Packet, message: &Message) {
        let Some(joined) = &mut self.joined else {
            return;
        };
        let mut senders: Vec<usize> = Vec::new();
        for (sender, sent) in &joined.sent {
            if *sender != responder && sent == packet && !senders.contains(sender) {
                senders.push(*sender);
            }
        }
        for sender in senders {
            for at in 0..2 {
                let (own, theirs) = (
                    &self.responders[responder].claims[at],
                    &self.responders[sender].claims[at],
                );
                let pair = (responder, sender, at);
                if theirs.tells(message, &own.differs_from(theirs)) && !joined.heard.contains(&pair)
                {
                    joined.heard.push(pair);
                }
            }
        }
    }

    /// After an entry, of groups that are joined: two who hold one name with different data though one has heard the other.
    pub fn both_again(&self) -> Option<Violation> {
        let joined = self.joined.as_ref()?;
        for (heard, other, at) in &joined.heard {
            let claim = &self.responders[*heard].claims[*at];
            let others = &self.responders[*other].claims[*at];
            if claim.holds && others.holds && !claim.differs_from(others).is_empty() {
                return Some(Violation::BothAgain {
                    name: text_of(&claim.name),
                    heard: *heard,
                    other: *other,
                });
            }
        }
        None
    }

    pub fn hear(&mut self, time: u64, responder: usize, message: &Message) {
        for claim in &mut self.responders[responder].claims {
            claim.hear(time, message);
        }
    }

    /// Gives how many holdings began.
    pub fn write(&mut self, responder: usize, message: &Message) -> u64 {
        let mut began = 0;
        for claim in &mut self.responders[responder].claims {
            if claim.is_answered_by(message) && !claim.holds {
                claim.holds = true;
                self.contention.hold(&claim.name);
                began += 1;
            }
        }
        began
    }

    /// Before an entry at this time: the 1,200 ms that are over now, "that last millisecond included", of those who still run.
    pub fn not_in_time(&mut self, time: u64) -> Option<Violation> {
        let mut found = None;
        for (number, responder) in self.responders.iter_mut().enumerate() {
            let runs = responder.runs;
            for claim in &mut responder.claims {
                if claim.past || time <= claim.begin + HOLDING_TIME {
                    continue;
                }
                claim.past = true;
                if !runs || claim.opposed {
                    continue;
                }
                self.asked += 1;
                if !claim.holds {
                    found = Some(Violation::NotInTime {
                        name: text_of(&claim.name),
                        responder: number,
                    });
                }
            }
        }
        found
    }

    /// After an entry, and again at the time of the next: two who hold one name with different data in a type of both. An update of
    /// that very type, by one of the two while it held, excuses it for 100 ms.
    pub fn two_holders(&mut self, time: u64) -> Option<Violation> {
        let holdings: Vec<(usize, &Claim)> = self
            .responders
            .iter()
            .enumerate()
            .flat_map(|(number, responder)| {
                responder.claims.iter().map(move |claim| (number, claim))
            })
            .filter(|(_, claim)| claim.holds)
            .collect();
        let mut excused = false;
        for (at, (one, claim)) in holdings.iter().enumerate() {
            for (other, others) in &holdings[at + 1..] {
                if one == other {
                    continue;
                }
                for rtype in claim.differs_from(others) {
                    if claim.is_excused(time, rtype) || others.is_excused(time, rtype) {
                        excused = true;
                        continue;
                    }
                    return Some(Violation::TwoHolders {
                        name: text_of(&claim.name),
                        one: *one,
                        other: *other,
                    });
                }
            }
        }
        self.excused += u64::from(excused);
        None
    }
}

impl Violation {
    pub fn same_kind(&self, other: &Violation) -> bool {
        std::mem::discriminant(self) == std::mem::discriminant(other)
    }

    pub fn is_of_contention(&self) -> bool {
        matches!(self, Violation::Unheld { .. } | Violation::GivenUp { .. })
    }
}

impl fmt::Display for Violation {
    fn fmt(&self, f: &mut fmt::Formatter) -> fmt::Result {
        match self {
            Violation::TwoHolders { name, one, other } => write!(
                f,
                "responders {one} and {other} hold {name} at once with different data"
            ),
            Violation::NotInTime { name, responder } => write!(
                f,
                "responder {responder} does not hold {name} 1,200 ms after its start, or its update"
            ),
            Violation::BothAgain { name, heard, other } => write!(
                f,
                "responders {heard} and {other} hold {name} again with different data, though {heard} heard {other} since the joining"
            ),
            Violation::Unheld {
                name,
                responder,
                later: false,
            } => write!(
                f,
                "nobody holds {name} 1,200 ms after the start of responder {responder}, which heard no later probe"
            ),
            Violation::Unheld {
                name, responder, ..
            } => write!(
                f,
                "nobody holds {name} 1,950 ms after the last later probe that responder {responder} heard"
            ),
            Violation::GivenUp { name, responder } => write!(
                f,
                "responder {responder} held {name}, which is left alone, and gives it up"
            ),
            Violation::Refusal { expected, given } => {
                write!(f, "refusal {given:?}, expected {expected:?}")
            }
            Violation::Unreadable { responder } => {
                write!(f, "responder {responder} sent a packet that can't be read")
            }
        }
    }
}

#[cfg(test)]
mod tests {
    use super::*;
    use crate::hostile::{Draft, Record};
    use reference::compose;

    pub fn setup(host: &str, a: [u8; 4], aaaa: Option<[u8; 16]>) -> Setup {
        Setup {
            instance: b"booth".to_vec(),
            service: b"_voice".to_vec(),
            protocol: b"_tcp".to_vec(),
            host: host.as_bytes().to_vec(),
            domain: b"local".to_vec(),
            port: 4000,
            txt: vec![0],
            a,
            aaaa,
        }
    }

    pub fn plain() -> Setup {
        setup("dock", [10, 0, 0, 7], None)
    }

    fn read(bytes: &[u8]) -> Message {
        Message::read(bytes).unwrap()
    }

    pub fn announcement(setup: &Setup) -> Message {
        let records = setup.records();
        read(&compose::response(&records.iter().collect::<Vec<_>>()))
    }

    pub fn host_probe(setup: &Setup) -> Message {
        read(&compose::probe(setup, ClaimName::Host))
    }

    fn host() -> Claim {
        Claim::new(0, &plain(), ClaimName::Host)
    }

    /// An A record of dock.local with other data, changed, in a section of a message.
    fn message(flags: u16, section: usize, change: fn(&mut Record)) -> Message {
        let mut record = Record {
            owner: host().name.into_wire(),
            rtype: rtype::A,
            class: 0x8001,
            ttl: 120,
            rdata: vec![10, 0, 0, 8],
        };
        change(&mut record);
        let mut draft = Draft::new(flags);
        draft.sections[section].push(record);
        read(&draft.bytes())
    }

    #[test]
    fn other_data_conflicts_in_every_section_of_a_response() {
        for section in 0..3 {
            assert!(host().conflicts(&message(0x8400, section, |_| ())));
            assert!(!host().conflicts(&message(0, section, |_| ())));
        }
        let recased = |record: &mut Record| record.owner.make_ascii_uppercase();
        assert!(host().conflicts(&message(0x8400, 0, recased)));
    }

    #[test]
    fn what_never_conflicts() {
        let harmless: [fn(&mut Record); 6] = [
            |record| record.rdata = vec![10, 0, 0, 7],
            |record| record.ttl = 0,
            |record| record.ttl = 0x8000_0078,
            |record| record.class = 3,
            |record| (record.rtype, record.rdata) = (rtype::AAAA, vec![0; 16]),
            |record| record.owner = b"\x04desk\x05local\x00".to_vec(),
        ];
        for change in harmless {
            assert!(!host().conflicts(&message(0x8400, 0, change)));
        }
    }

    #[test]
    fn later_by_unsigned_bytes_and_by_length() {
        let ours = Claim::new(
            0,
            &setup("dock", [169, 254, 99, 200], None),
            ClaimName::Host,
        );
        let theirs = |a, aaaa| host_probe(&setup("DOCK", a, aaaa));
        assert!(ours.is_later(&theirs([169, 254, 200, 50], None)));
        assert!(!ours.is_later(&theirs([169, 254, 99, 200], None)));
        assert!(!ours.is_later(&theirs([169, 254, 99, 199], Some([9; 16]))));
        assert!(ours.is_later(&theirs([169, 254, 99, 200], Some([9; 16]))));
    }

    #[test]
    fn a_probe_needs_its_question_and_an_authority_record_under_the_name() {
        let probe = |change: fn(&mut Draft)| {
            let mut draft = Draft::new(0);
            let name = host().name.into_wire();
            draft
                .questions
                .push((name.clone(), rtype::ANY, 0x8000 | class::ANY));
            draft.sections[1].push(Record {
                owner: name,
                rtype: rtype::A,
                class: 1,
                ttl: 0,
                rdata: vec![10, 0, 0, 8],
            });
            change(&mut draft);
            host().is_later(&read(&draft.bytes()))
        };
        assert!(probe(|_| ()));
        assert!(!probe(|draft| draft.questions[0].1 = rtype::A));
        assert!(!probe(|draft| draft.questions[0].2 = 3));
        assert!(!probe(|draft| draft.questions.clear()));
        assert!(!probe(|draft| draft.sections.swap(0, 1)));
        assert!(!probe(|draft| draft.sections[1][0].owner = vec![0]));
        assert!(!probe(|draft| draft.flags = 0x8400));
    }

    #[test]
    fn holding_begins_with_a_response_and_ends_with_a_conflict_or_a_cut() {
        let mut judge = Judge::default();
        let one = judge.start(0, &plain());
        let other = judge.start(0, &setup("Dock", [10, 0, 0, 8], None));
        assert_eq!(judge.write(one, &host_probe(&plain())), 0);
        assert_eq!(judge.write(one, &announcement(&plain())), 2);
        assert_eq!(judge.two_holders(0), None);
        let theirs = announcement(&setup("Dock", [10, 0, 0, 8], None));
        judge.write(other, &theirs);
        // both names: SRV of the instance has another target
        assert!(matches!(
            judge.two_holders(0),
            Some(Violation::TwoHolders { .. })
        ));
        judge.hear(0, one, &theirs);
        assert_eq!(judge.two_holders(0), None);
        judge.write(one, &announcement(&plain()));
        assert!(judge.two_holders(0).is_some());
        judge.end(other);
        assert_eq!(judge.two_holders(0), None);
    }

    #[test]
    fn equal_data_in_the_types_of_both_may_be_held_by_two() {
        let mut judge = Judge::default();
        for aaaa in [None, Some([1; 16])] {
            let setup = setup("dock", [10, 0, 0, 7], aaaa);
            let number = judge.start(0, &setup);
            judge.write(number, &announcement(&setup));
        }
        assert_eq!(judge.two_holders(0), None);
        let other = setup("dock", [10, 0, 0, 7], Some([2; 16]));
        let number = judge.start(0, &other);
        judge.write(number, &announcement(&other));
        assert!(judge.two_holders(0).is_some());
    }

    /// Two of equal instance data that hold the name, and one of them has another port from 1,000 on.
    fn updated_twins() -> Judge {
        let mut judge = Judge::default();
        for _ in 0..2 {
            let number = judge.start(0, &plain());
            judge.write(number, &announcement(&plain()));
        }
        judge.update(1000, 1, &Change::Port(80));
        judge
    }

    #[test]
    fn an_update_excuses_two_holders_for_100_ms() {
        let mut judge = updated_twins();
        for time in [1000, 1100] {
            assert_eq!(judge.two_holders(time), None);
        }
        assert_eq!(judge.excused, 2);
        assert!(judge.two_holders(1101).is_some());
        // who hears of it in time does not hold any more
        let mut twin = plain();
        twin.port = 80;
        judge.hear(0, 0, &announcement(&twin));
        assert_eq!(judge.two_holders(1101), None);
    }

    #[test]
    fn an_update_of_another_type_or_while_not_holding_excuses_nothing() {
        let mut judge = updated_twins();
        judge.update(1050, 0, &Change::Txt(vec![1, b'x']));
        assert_eq!(judge.two_holders(1100), None);
        assert!(judge.two_holders(1101).is_some());
        let mut judge = Judge::default();
        for _ in 0..2 {
            judge.start(0, &plain());
        }
        judge.write(0, &announcement(&plain()));
        judge.update(1000, 1, &Change::Port(80));
        let mut twin = plain();
        twin.port = 80;
        judge.write(1, &announcement(&twin));
        assert!(judge.two_holders(1000).is_some());
    }

    #[test]
    fn an_update_while_not_holding_begins_the_1200_ms_anew_for_the_instance() {
        let later = |judge: &mut Judge, number| {
            judge.hear(0, number, &host_probe(&setup("dock", [10, 0, 0, 8], None)));
            judge.update(500, number, &Change::Port(80));
        };
        assert_eq!(unheld(1301, later), None);
        assert_eq!(unheld(1700, later), None);
        let Some(Violation::NotInTime { name, .. }) = unheld(1701, later) else {
            panic!("the instance name is not held");
        };
        assert_eq!(name, "booth._voice._tcp.local");
        // one while holding begins nothing
        let mut judge = Judge::default();
        let number = judge.start(0, &plain());
        judge.write(number, &announcement(&plain()));
        assert_eq!(judge.not_in_time(1201), None);
        judge.update(2000, number, &Change::Port(80));
        judge.hear(
            0,
            number,
            &announcement(&setup("dock", [10, 0, 0, 9], None)),
        );
        assert_eq!(judge.not_in_time(4000), None);
        assert_eq!(judge.asked, 2);
    }

    #[test]
    fn a_stop_ends_a_holding_and_the_1200_ms() {
        let mut judge = updated_twins();
        judge.end(1);
        assert_eq!(judge.two_holders(5000), None);
        assert_eq!(judge.not_in_time(5000), None);
    }

    #[test]
    fn who_heard_the_other_since_the_joining_never_holds_with_it_again() {
        let theirs = setup("dock", [10, 0, 0, 8], None);
        let mut judge = Judge::default();
        for setup in [plain(), theirs.clone()] {
            let number = judge.start(0, &setup);
            judge.write(number, &announcement(&setup));
        }
        let records = theirs.records();
        let bytes: Packet = compose::response(&records.iter().collect::<Vec<_>>()).into();
        let said = announcement(&theirs);
        // sent before the joining
        judge.send(1, &bytes);
        judge.join();
        assert_eq!(judge.pairs(), 1);
        judge.meet(0, &bytes, &said);
        assert_eq!((judge.met(), judge.both_again()), (0, None));
        // and since
        judge.send(1, &bytes);
        judge.meet(0, &bytes, &said);
        assert_eq!(judge.met(), 1);
        assert!(judge.both_again().is_some());
        judge.hear(0, 0, &said);
        assert_eq!(judge.both_again(), None);
        judge.write(0, &announcement(&plain()));
        assert!(judge.both_again().is_some());
    }

    #[test]
    fn a_goodbye_or_what_both_have_tells_nothing() {
        let theirs = Claim::new(
            0,
            &setup("dock", [10, 0, 0, 8], Some([9; 16])),
            ClaimName::Host,
        );
        let types = theirs.differs_from(&host());
        assert_eq!(types, [rtype::A]);
        assert!(theirs.tells(&message(0x8400, 0, |_| ()), &types));
        let silent: [fn(&mut Record); 4] = [
            |record| record.ttl = 0,
            |record| record.class = 3,
            |record| record.rdata = vec![10, 0, 0, 9],
            |record| (record.rtype, record.rdata) = (rtype::AAAA, vec![9; 16]),
        ];
        for change in silent {
            assert!(!theirs.tells(&message(0x8400, 0, change), &types));
        }
        assert!(!theirs.tells(&message(0, 0, |_| ()), &types));
    }

    #[test]
    fn a_ptr_alone_begins_no_holding() {
        let mut judge = Judge::default();
        let number = judge.start(0, &plain());
        let ptr = read(&compose::response(&[&plain().records()[0]]));
        assert_eq!(judge.write(number, &ptr), 0);
    }

    /// A responder started at 100 that wrote nothing; what the entry at the time given finds.
    fn unheld(time: u64, before: impl Fn(&mut Judge, usize)) -> Option<Violation> {
        let mut judge = Judge::default();
        let number = judge.start(100, &plain());
        before(&mut judge, number);
        judge.not_in_time(time)
    }

    #[test]
    fn the_1200_ms_are_asked_at_a_later_entry() {
        assert_eq!(unheld(1300, |_, _| ()), None);
        assert!(matches!(
            unheld(1301, |_, _| ()),
            Some(Violation::NotInTime { .. })
        ));
    }

    #[test]
    fn the_1200_ms_are_not_asked_after_a_cut_or_against_opposition() {
        assert_eq!(unheld(1301, |judge, number| judge.end(number)), None);
        let held = |judge: &mut Judge, number| {
            judge.write(number, &announcement(&plain()));
        };
        assert_eq!(unheld(1301, held), None);
        // the host name is contested, the instance name is still asked for
        let host = |judge: &mut Judge, number| {
            let theirs = setup("dock", [10, 0, 0, 8], None);
            judge.hear(0, number, &host_probe(&theirs));
        };
        let Some(Violation::NotInTime { name, .. }) = unheld(1301, host) else {
            panic!("the instance name is not held");
        };
        assert_eq!(name, "booth._voice._tcp.local");
        let earlier = |judge: &mut Judge, number| {
            let theirs = setup("dock", [10, 0, 0, 6], None);
            judge.hear(0, number, &host_probe(&theirs));
        };
        let Some(Violation::NotInTime { name, .. }) = unheld(1301, earlier) else {
            panic!("earlier records do not excuse");
        };
        assert_eq!(name, "dock.local");
    }
}
