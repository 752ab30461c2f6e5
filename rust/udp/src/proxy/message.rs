//! Unicast DNS messages (RFC 1035, with EDNS by RFC 6891): a client's query, and what is written in answer to it.

use kurgashel::{Message, Refusal, Section};

use crate::name;

const HEADER: usize = 12;
const RESPONSE: u16 = 0x8000;
const AUTHORITATIVE: u16 = 0x0400;
const TRUNCATED: u16 = 0x0200;
/// What an answer repeats of a query's flags: the opcode, and whether recursion is desired.
const REPEATED: u16 = 0x7900;
/// A pointer to the question's name, to which its offset there is added.
const POINTER: usize = 0xc000 + HEADER;
const OPT: u16 = 41;
const OPT_BYTES: usize = 11;
/// The most bytes of an answer by UDP to a client that says nothing of it, and to one that takes more: so that no packet is cut up on its way.
const LEAST_UDP: usize = 512;
const MOST_UDP: usize = 1232;
/// The most bytes of an answer by TCP.
pub const MOST_TCP: usize = 65535;

/// Types of which the rdata is one name, which may be compressed (RFC 3597 section 4).
const NAME_ALONE: [u16; 3] = [2, 5, 12];

#[derive(Clone, Copy, Debug, PartialEq, Eq)]
pub enum Rcode {
    NoError = 0,
    Malformed = 1,
    Failed = 2,
    NotImplemented = 4,
    Refused = 5,
    BadVersion = 16,
}

/// A query: one question, and how the client wants its answer.
#[derive(Clone, Debug, PartialEq, Eq)]
pub struct Query {
    id: u16,
    flags: u16,
    pub name: Vec<u8>,
    pub rtype: u16,
    pub class: u16,
    edns: Option<Edns>,
}

#[derive(Clone, Copy, Debug, PartialEq, Eq)]
struct Edns {
    most: u16,
    version: u8,
}

/// A record in an answer; names are uncompressed.
#[derive(Clone, Debug, PartialEq, Eq)]
pub struct Resource {
    pub owner: Vec<u8>,
    pub rtype: u16,
    pub class: u16,
    pub ttl: u32,
    pub rdata: Vec<u8>,
}

#[derive(Clone, Debug, PartialEq, Eq)]
pub struct Answer {
    pub rcode: Rcode,
    pub answers: Vec<Resource>,
    pub authority: Vec<Resource>,
}

impl Answer {
    pub fn empty(rcode: Rcode) -> Answer {
        Answer {
            rcode,
            answers: Vec::new(),
            authority: Vec::new(),
        }
    }
}

/// What a client sent.
#[derive(Clone, Debug, PartialEq, Eq)]
pub enum Heard {
    Query(Query),
    /// No query that can be answered, and the bytes that say so.
    Fault(Vec<u8>),
    /// No query at all: it gets no answer.
    Nothing,
}

/// Reads what a client sent.
pub fn read(bytes: &[u8]) -> Heard {
    if bytes.len() < HEADER || bytes[2] & 0x80 != 0 {
        return Heard::Nothing;
    }
    let message = match Message::read(bytes) {
        Ok(message) => message,
        Err(Refusal::Header) => return fault(bytes, Rcode::NotImplemented),
        Err(_) => return fault(bytes, Rcode::Malformed),
    };
    let mut questions = message.questions();
    let (Some(question), None) = (questions.next(), questions.next()) else {
        return fault(bytes, Rcode::Malformed);
    };
    let mut options = message
        .records(Section::Additional)
        .filter(|record| record.rtype == OPT);
    let edns = options.next().map(|option| Edns {
        most: option.class,
        version: (option.ttl >> 16) as u8,
    });
    if options.next().is_some() {
        return fault(bytes, Rcode::Malformed);
    }
    Heard::Query(Query {
        id: message.id(),
        flags: message.flags(),
        name: question.name.as_bytes().to_vec(),
        rtype: question.rtype,
        class: question.class,
        edns,
    })
}

/// The header alone of an answer that only says what is wrong.
fn fault(bytes: &[u8], rcode: Rcode) -> Heard {
    let flags = u16::from_be_bytes([bytes[2], bytes[3]]) & REPEATED | RESPONSE | rcode as u16;
    let mut answer = vec![0; HEADER];
    answer[..2].copy_from_slice(&bytes[..2]);
    answer[2..4].copy_from_slice(&flags.to_be_bytes());
    Heard::Fault(answer)
}

impl Query {
    /// The most bytes that this client takes by UDP.
    pub fn most_by_udp(&self) -> usize {
        let most = self.edns.map_or(LEAST_UDP, |edns| edns.most.into());
        most.clamp(LEAST_UDP, MOST_UDP)
    }

    /// Whether the client speaks another version of EDNS than 0.
    pub fn is_of_other_version(&self) -> bool {
        self.edns.is_some_and(|edns| edns.version != 0)
    }

    /// An answer's bytes, at most so many: records from the first on that fit, and the TC bit where one doesn't, so that the client asks again by TCP.
    pub fn reply(&self, answer: &Answer, most: usize) -> Vec<u8> {
        let mut reply = vec![0; HEADER];
        reply.extend(&self.name);
        reply.extend(self.rtype.to_be_bytes());
        reply.extend(self.class.to_be_bytes());
        let most = most - self.edns.map_or(0, |_| OPT_BYTES);
        let answers = self.append(&mut reply, &answer.answers, most);
        let mut authority = 0;
        if answers == answer.answers.len() {
            authority = self.append(&mut reply, &answer.authority, most);
        }
        let is_cut = answers + authority < answer.answers.len() + answer.authority.len();
        if self.edns.is_some() {
            reply.extend(opt(answer.rcode));
        }
        let mut flags = self.flags & REPEATED | RESPONSE | answer.rcode as u16 & 15;
        if answer.rcode == Rcode::NoError {
            flags |= AUTHORITATIVE;
        }
        if is_cut {
            flags |= TRUNCATED;
        }
        let counts = [1, answers, authority, usize::from(self.edns.is_some())];
        let numbers = [self.id, flags].into_iter();
        let numbers = numbers.chain(counts.map(|count| count as u16));
        for (number, place) in numbers.zip(reply.chunks_exact_mut(2)) {
            place.copy_from_slice(&number.to_be_bytes());
        }
        reply
    }

    /// Appends records up to the first that doesn't fit, and counts them.
    fn append(&self, reply: &mut Vec<u8>, resources: &[Resource], most: usize) -> usize {
        for (count, resource) in resources.iter().enumerate() {
            let bytes = self.resource_bytes(resource);
            if reply.len() + bytes.len() > most {
                return count;
            }
            reply.extend(bytes);
        }
        resources.len()
    }

    fn resource_bytes(&self, resource: &Resource) -> Vec<u8> {
        let mut bytes = compressed(&resource.owner, &self.name);
        bytes.extend(resource.rtype.to_be_bytes());
        bytes.extend(resource.class.to_be_bytes());
        bytes.extend(resource.ttl.to_be_bytes());
        let rdata = if NAME_ALONE.contains(&resource.rtype) {
            compressed(&resource.rdata, &self.name)
        } else {
            resource.rdata.clone()
        };
        bytes.extend((rdata.len() as u16).to_be_bytes());
        bytes.extend(rdata);
        bytes
    }
}

/// The OPT record of an answer: the size taken here, and the high bits of the number.
fn opt(rcode: Rcode) -> [u8; OPT_BYTES] {
    let mut bytes = [0; OPT_BYTES];
    bytes[1..3].copy_from_slice(&OPT.to_be_bytes());
    bytes[3..5].copy_from_slice(&(MOST_UDP as u16).to_be_bytes());
    bytes[5] = (rcode as u16 >> 4) as u8;
    bytes
}

/// A name behind the question: its longest ending that the question's name has too, byte for byte, gives way to a pointer.
fn compressed(bytes: &[u8], question: &[u8]) -> Vec<u8> {
    let mut at = 0;
    for label in name::labels(bytes) {
        let ending = &bytes[at..];
        if let Some(found) = starts(question).find(|&start| question[start..] == *ending) {
            let mut short = bytes[..at].to_vec();
            short.extend(((POINTER + found) as u16).to_be_bytes());
            return short;
        }
        at += 1 + label.len();
    }
    bytes.to_vec()
}

/// Where the labels of a name begin.
fn starts(bytes: &[u8]) -> impl Iterator<Item = usize> + '_ {
    let mut at = 0;
    name::labels(bytes).into_iter().map(move |label| {
        let start = at;
        at += 1 + label.len();
        start
    })
}

#[cfg(test)]
mod tests {
    use super::*;
    use crate::name::from_labels;

    const QUESTION: &[u8] =
        b"\x12\x34\x01\x20\0\x01\0\0\0\0\0\0\x04dock\x03lab\x07example\0\0\x01\0\x01";

    fn query(bytes: &[u8]) -> Query {
        match read(bytes) {
            Heard::Query(query) => query,
            heard => panic!("{heard:?}"),
        }
    }

    /// The question with an OPT record of this size and version behind it.
    fn with_edns(most: u16, version: u8) -> Vec<u8> {
        let mut bytes = QUESTION.to_vec();
        bytes[11] = 1;
        bytes.extend(b"\0\0\x29");
        bytes.extend(most.to_be_bytes());
        bytes.extend([0, version, 0x80, 0, 0, 0]);
        bytes
    }

    fn a(address: [u8; 4]) -> Resource {
        Resource {
            owner: from_labels(&[b"dock", b"lab", b"example"]),
            rtype: 1,
            class: 1,
            ttl: 10,
            rdata: address.to_vec(),
        }
    }

    fn with(answers: Vec<Resource>) -> Answer {
        Answer {
            answers,
            ..Answer::empty(Rcode::NoError)
        }
    }

    #[test]
    fn an_answer() {
        let query = query(QUESTION);
        assert_eq!(query.name, a([0; 4]).owner);
        assert_eq!((query.rtype, query.class), (1, 1));
        let reply = query.reply(&with(vec![a([10, 0, 0, 7])]), query.most_by_udp());
        let mut expected = QUESTION.to_vec();
        expected[2..4].copy_from_slice(&[0x85, 0]);
        expected[7] = 1;
        expected.extend(b"\xc0\x0c\0\x01\0\x01\0\0\0\x0a\0\x04\x0a\0\0\x07");
        assert_eq!(reply, expected);
    }

    #[test]
    fn what_does_not_fit_is_cut_and_said() {
        let answers = with((0..60).map(|last| a([10, 0, 0, last])).collect());
        for (bytes, most) in [(QUESTION.to_vec(), 512), (with_edns(700, 0), 700)] {
            let query = query(&bytes);
            assert_eq!(query.most_by_udp(), most);
            let reply = query.reply(&answers, most);
            assert!(reply.len() <= most && reply.len() + 16 > most);
            assert_eq!(reply[2] & 2, 2);
            let whole = query.reply(&answers, MOST_TCP);
            assert_eq!((whole[2] & 2, whole[7]), (0, 60));
        }
        assert_eq!(query(&with_edns(100, 0)).most_by_udp(), 512);
        assert_eq!(query(&with_edns(4096, 0)).most_by_udp(), 1232);
    }

    #[test]
    fn edns_is_answered() {
        let reply = query(&with_edns(4096, 0)).reply(&with(Vec::new()), 512);
        assert!(reply.ends_with(b"\0\0\x29\x04\xd0\0\0\0\0\0\0"));
        let other = query(&with_edns(4096, 1));
        assert!(other.is_of_other_version());
        let reply = other.reply(&Answer::empty(Rcode::BadVersion), 512);
        assert!(reply.ends_with(b"\0\0\x29\x04\xd0\x01\0\0\0\0\0"));
        assert_eq!(reply[3], 0);
    }

    #[test]
    fn names_are_compressed_to_the_question() {
        let question = from_labels(&[b"_voice", b"_tcp", b"lab", b"example"]);
        let target = from_labels(&[b"booth", b"_voice", b"_tcp", b"lab", b"example"]);
        assert_eq!(compressed(&target, &question), b"\x05booth\xc0\x0c");
        let apex = from_labels(&[b"lab", b"example"]);
        assert_eq!(compressed(&apex, &question), b"\xc0\x18");
        let other = from_labels(&[b"lab", b"Example"]);
        assert_eq!(compressed(&other, &question), other);
        assert_eq!(compressed(&[0], &question), [0]);
    }

    #[test]
    fn what_is_no_query_of_one_question() {
        assert_eq!(read(&QUESTION[..11]), Heard::Nothing);
        let mut response = QUESTION.to_vec();
        response[2] |= 0x80;
        assert_eq!(read(&response), Heard::Nothing);
        let mut update = QUESTION.to_vec();
        update[2] |= 5 << 3;
        let said = b"\x12\x34\xa9\x04\0\0\0\0\0\0\0\0";
        assert_eq!(read(&update), Heard::Fault(said.to_vec()));
        let said = b"\x12\x34\x81\x01\0\0\0\0\0\0\0\0";
        assert_eq!(
            read(&QUESTION[..QUESTION.len() - 1]),
            Heard::Fault(said.to_vec())
        );
        let mut none = QUESTION[..HEADER].to_vec();
        none[5] = 0;
        assert_eq!(read(&none), Heard::Fault(said.to_vec()));
    }
}
