//! "whatever other devices send": packets aimed at the names of one set-up, harmless ones among them, and damaged or stale copies of what was seen.

use reference::compose;
use reference::setup::{ClaimName, OwnRecord, Setup};
use reference::{class, rtype};

use crate::entry::Packet;
use crate::random::Random;

/// A message to be; names are uncompressed.
pub struct Draft {
    pub flags: u16,
    /// Name, type, class.
    pub questions: Vec<(Vec<u8>, u16, u16)>,
    /// Answer, Authority, Additional.
    pub sections: [Vec<Record>; 3],
}

#[derive(Clone)]
pub struct Record {
    pub owner: Vec<u8>,
    pub rtype: u16,
    pub class: u16,
    pub ttl: u32,
    pub rdata: Vec<u8>,
}

const QUERY: u16 = 0;
const TRUNCATED: u16 = 0x0200;
const RESPONSE: u16 = 0x8400;
const ANSWER: usize = 0;
const AUTHORITY: usize = 1;

impl Draft {
    pub fn new(flags: u16) -> Draft {
        Draft {
            flags,
            questions: Vec::new(),
            sections: [Vec::new(), Vec::new(), Vec::new()],
        }
    }

    pub fn bytes(&self) -> Vec<u8> {
        let mut bytes = vec![0, 0];
        let mut counts = vec![self.flags, self.questions.len() as u16];
        counts.extend(self.sections.iter().map(|section| section.len() as u16));
        for number in counts {
            bytes.extend(number.to_be_bytes());
        }
        for (name, rtype, class) in &self.questions {
            bytes.extend(name);
            bytes.extend(rtype.to_be_bytes());
            bytes.extend(class.to_be_bytes());
        }
        for record in self.sections.iter().flatten() {
            bytes.extend(&record.owner);
            bytes.extend(record.rtype.to_be_bytes());
            bytes.extend(record.class.to_be_bytes());
            bytes.extend(record.ttl.to_be_bytes());
            bytes.extend((record.rdata.len() as u16).to_be_bytes());
            bytes.extend(&record.rdata);
        }
        bytes
    }
}

/// A packet for a responder with this set-up, whatever the sender may have seen on the link.
pub fn packet(random: &mut Random, target: &Setup, seen: &[Packet]) -> Vec<u8> {
    match random.up_to(99) {
        0..=19 => probe(random, target),
        20..=39 => response(random, target),
        40..=64 => query(random, target),
        65..=74 => of_another(random, target),
        75..=84 => replay(random, seen),
        85..=95 => {
            let copy = replay(random, seen);
            damaged(random, copy)
        }
        _ => (0..random.up_to(60))
            .map(|_| random.number() as u8)
            .collect(),
    }
}

/// The same, with no responses but copies of what was seen.
pub fn query_or_copy(random: &mut Random, target: &Setup, seen: &[Packet]) -> Vec<u8> {
    match random.up_to(99) {
        0..=49 => probe(random, target),
        50..=79 => query(random, target),
        _ => replay(random, seen),
    }
}

fn claim(random: &mut Random) -> ClaimName {
    random.pick(&[ClaimName::Instance, ClaimName::Host])
}

fn claimed(target: &Setup, name: ClaimName) -> Vec<OwnRecord> {
    let mut records = target.records();
    records.retain(|record| record.kind.is_claimed() && record.kind.claim() == name);
    records
}

/// A spoofed probe: the target's records, some altered, left out, doubled or added, in any order.
fn probe(random: &mut Random, target: &Setup) -> Vec<u8> {
    let name = claim(random);
    let owner = target.claim_name(name).into_wire();
    let mut draft = Draft::new(random.pick(&[QUERY, QUERY, QUERY, TRUNCATED]));
    let asked = random.pick(&[rtype::ANY, rtype::ANY, rtype::ANY, rtype::SRV]);
    let class = random.pick(&[1, 1, 255, 0x8001, 0x80ff, 3]);
    draft.questions.push((random.recase(&owner), asked, class));
    for own in claimed(target, name) {
        let mut record = copy(random, &own);
        record.class = random.pick(&[1, 1, 1, 0x8001, 3, 0]);
        if random.chance(30) {
            record.rdata = altered(random, record.rtype, &record.rdata);
        }
        for _ in 0..random.pick(&[0, 1, 1, 1, 1, 2]) {
            let at = random.place(draft.sections[AUTHORITY].len() + 1);
            draft.sections[AUTHORITY].insert(at, record.clone());
        }
    }
    if random.chance(20) {
        draft.sections[AUTHORITY].push(Record {
            owner,
            rtype: random.pick(&[47, 99, rtype::ANY]),
            class: 1,
            ttl: 120,
            rdata: vec![random.number() as u8],
        });
    }
    // known answers in a probe may silence a defence
    if random.chance(20) {
        draft.sections[ANSWER] = known(random, target);
    }
    draft.bytes()
}

/// A response under one of the target's names: conflicting, equal, a goodbye, of another class.
fn response(random: &mut Random, target: &Setup) -> Vec<u8> {
    let own = random.pick(&target.records());
    let mut record = copy(random, &own);
    if random.chance(60) {
        record.rdata = altered(random, record.rtype, &record.rdata);
    }
    record.class = random.pick(&[1, 0x8001, 0x8001, 0x8001, 3]);
    record.ttl = random.pick(&[120, 120, 1, 0, 0x8000_0078]);
    let mut draft = Draft::new(RESPONSE);
    draft.sections[random.pick(&[0, 0, 0, 1, 2])].push(record);
    draft.bytes()
}

/// Questions for any of the five records or all, with known answers now and then, truncated or not.
fn query(random: &mut Random, target: &Setup) -> Vec<u8> {
    let flags = random.pick(&[QUERY, TRUNCATED]);
    query_with(random, flags, target)
}

/// The same, truncated.
pub fn truncated(random: &mut Random, target: &Setup) -> Vec<u8> {
    query_with(random, TRUNCATED, target)
}

/// All records of one of the target's names, without the bit.
pub fn question(random: &mut Random, target: &Setup) -> Vec<u8> {
    let mut draft = Draft::new(QUERY);
    let name = target.claim_name(claim(random)).into_wire();
    draft.questions.push((name, rtype::ANY, class::IN));
    draft.bytes()
}

fn query_with(random: &mut Random, flags: u16, target: &Setup) -> Vec<u8> {
    let mut draft = Draft::new(flags);
    for _ in 0..random.pick(&[0, 1, 1, 2, 3]) {
        let own = random.pick(&target.records());
        let name = random.recase(own.owner.wire());
        let asked = random.pick(&[own.kind.rtype(), rtype::ANY]);
        let class = random.pick(&[1, 1, 0x8001, 255]);
        draft.questions.push((name, asked, class));
    }
    if random.chance(30) {
        draft.sections[ANSWER] = known(random, target);
    }
    draft.bytes()
}

/// Known answers at, above and below half of the TTL.
fn known(random: &mut Random, target: &Setup) -> Vec<Record> {
    let mut records = Vec::new();
    for own in target.records() {
        if random.chance(50) {
            let mut record = copy(random, &own);
            let half = own.kind.ttl() / 2;
            record.ttl = random.pick(&[half, half - 1, own.kind.ttl(), 0]);
            records.push(record);
        }
    }
    records
}

/// A probe or an announcement as a responder with altered data writes it, compressed.
fn of_another(random: &mut Random, target: &Setup) -> Vec<u8> {
    let mut setup = target.clone();
    setup.port = setup.port.wrapping_add(random.pick(&[0, 1, 0xffff]));
    setup.a[3] = setup.a[3].wrapping_add(random.pick(&[0, 1, 0xff]));
    setup.host = random.recase(&setup.host);
    if random.chance(50) {
        return compose::probe(&setup, claim(random));
    }
    let mut records = setup.records();
    records.retain(|_| random.chance(70));
    compose::response(&records.iter().collect::<Vec<_>>())
}

fn replay(random: &mut Random, seen: &[Packet]) -> Vec<u8> {
    match seen {
        [] => vec![0; 12],
        _ => random.pick(seen).to_vec(),
    }
}

/// Bytes changed, cut off or added.
pub fn damaged(random: &mut Random, mut bytes: Vec<u8>) -> Vec<u8> {
    for _ in 0..=random.up_to(1) {
        let at = random.place(bytes.len().max(1));
        match random.up_to(5) {
            0 => bytes.truncate(at),
            1 => bytes.insert(at.min(bytes.len()), random.number() as u8),
            2 => bytes.extend([0; 3]),
            _ if at < bytes.len() => bytes[at] ^= 1 << random.up_to(7),
            _ => (),
        }
    }
    bytes
}

/// An own record, its owner often in other case.
fn copy(random: &mut Random, own: &OwnRecord) -> Record {
    let owner = own.owner.wire();
    Record {
        owner: if random.chance(30) {
            random.recase(owner)
        } else {
            owner.to_vec()
        },
        rtype: own.kind.rtype(),
        class: class::IN,
        ttl: own.kind.ttl(),
        rdata: own.rdata(),
    }
}

/// Other rdata that is legal for its type: earlier or later, longer or shorter, or a name in other case.
fn altered(random: &mut Random, rtype: u16, rdata: &[u8]) -> Vec<u8> {
    let mut other = rdata.to_vec();
    match rtype {
        rtype::SRV if random.chance(30) => {
            let target = random.recase(&rdata[6..]);
            other[6..].copy_from_slice(&target);
        }
        rtype::SRV => other[random.place(6)] ^= 1 << random.up_to(7),
        rtype::TXT => match random.up_to(2) {
            0 => other.push(0),
            1 => other = Vec::new(),
            _ => other = vec![1, random.number() as u8],
        },
        rtype::PTR => other = random.recase(rdata),
        _ => {
            let at = random.place(other.len());
            other[at] ^= 1 << random.up_to(7);
        }
    }
    other
}

#[cfg(test)]
mod tests {
    use super::*;
    use crate::setups;
    use reference::message::Message;

    #[test]
    fn what_is_written_on_purpose_can_be_read() {
        let mut random = Random::new(1);
        for _ in 0..2000 {
            let target = setups::draw(&mut random);
            for make in [probe, response, query, of_another] {
                let bytes = make(&mut random, &target);
                assert!(Message::read(&bytes).is_ok());
            }
        }
    }

    #[test]
    fn damage_and_noise_are_read_or_not() {
        let mut random = Random::new(2);
        let target = setups::draw(&mut random);
        let seen = [Packet::from(probe(&mut random, &target))];
        let readable = (0..5000)
            .filter(|_| Message::read(&packet(&mut random, &target, &seen)).is_ok())
            .count();
        assert!((3000..4990).contains(&readable));
    }
}
