//! "Writing a packet": responses, goodbyes, unicast answers, replies to plain
//! resolvers and probes, with their names compressed.

use crate::message::{Question, HEADER};
use crate::name::Name;
use crate::responder::LEAST_OUT;
use crate::setup::{srv_numbers, ClaimName, Data, Kind, OwnRecord, Setup};
use crate::{class, rtype};

const RESPONSE_FLAGS: u16 = 0x8400;
const PROBE_FLAGS: u16 = 0;
const QUERY_FLAGS: u16 = 0;
const TRUNCATED: u16 = 0x0200;
/// "ID 0"
const NO_ID: u16 = 0;
/// The TTL of a reply to a plain resolver.
const PLAIN_TTL: u32 = 10;
const GOODBYE_TTL: u32 = 0;
const POINTER: u16 = 0xC000;
/// "until one would pass 1,452 bytes"
const MOST_QUERY: usize = LEAST_OUT;

/// A PTR record of the cache, as a browser lists it in a query.
#[derive(Clone, Debug)]
pub struct KnownAnswer {
    pub slot: usize,
    pub owner: Name,
    pub ttl: u32,
    pub target: Name,
}

/// A browser's packet, and the slot of the known answer that did not fit.
pub struct Query {
    pub packet: Vec<u8>,
    pub stopped: Option<usize>,
}

struct Packet {
    bytes: Vec<u8>,
    /// Each suffix that stands in a name written so far, with its offset, by
    /// rising offset. Only labels count: an offset that holds a pointer is
    /// never the smallest, since its target reads the same.
    suffixes: Vec<(usize, Vec<u8>)>,
    /// Whether an SRV target is cut as other names are.
    cuts_targets: bool,
}

impl Packet {
    fn new(id: u16, flags: u16, counts: [usize; 4]) -> Packet {
        let mut packet = Packet {
            bytes: Vec::new(),
            suffixes: Vec::new(),
            cuts_targets: true,
        };
        packet.u16(id);
        packet.u16(flags);
        for count in counts {
            packet.u16(count as u16);
        }
        debug_assert_eq!(packet.bytes.len(), HEADER);
        packet
    }

    fn u16(&mut self, number: u16) {
        self.bytes.extend(number.to_be_bytes());
    }

    /// "cut at its longest suffix of whole labels that stands earlier byte for
    /// byte in a name of the packet [...] and points to the smallest such
    /// offset; the root alone is never pointed to"
    fn name(&mut self, name: &Name) {
        let start = self.bytes.len();
        let mut written = Vec::new();
        let mut pointer = None;
        for (at, suffix) in name.suffixes() {
            let earlier = self.suffixes.iter().find(|(_, known)| known == suffix);
            if let Some((offset, _)) = earlier {
                pointer = Some((at, *offset));
                break;
            }
            written.push((start + at, suffix.to_vec()));
        }
        match pointer {
            Some((cut, offset)) => {
                self.bytes.extend(&name.wire()[..cut]);
                self.u16(POINTER | offset as u16);
            }
            None => self.bytes.extend(name.wire()),
        }
        self.suffixes.extend(written);
    }

    /// Writes a name in full; what stands in it can be pointed to.
    fn whole_name(&mut self, name: &Name) {
        let start = self.bytes.len();
        let suffixes = name.suffixes();
        let written = suffixes.map(|(at, suffix)| (start + at, suffix.to_vec()));
        self.suffixes.extend(written);
        self.bytes.extend(name.wire());
    }

    fn question(&mut self, name: &Name, rtype: u16, wire_class: u16) {
        self.name(name);
        self.u16(rtype);
        self.u16(wire_class);
    }

    fn known_answer(&mut self, answer: &KnownAnswer) {
        self.name(&answer.owner);
        self.u16(rtype::PTR);
        self.u16(class::IN);
        self.bytes.extend(answer.ttl.to_be_bytes());
        let length_at = self.bytes.len();
        self.u16(0);
        self.name(&answer.target);
        self.set_length(length_at);
    }

    /// Sets the length of the rdata, which ends here, behind its length field.
    fn set_length(&mut self, length_at: usize) {
        let length = (self.bytes.len() - length_at - 2) as u16;
        self.bytes[length_at..length_at + 2].copy_from_slice(&length.to_be_bytes());
    }

    fn record(&mut self, record: &OwnRecord, wire_class: u16, ttl: u32) {
        self.name(&record.owner);
        self.u16(record.kind.rtype());
        self.u16(wire_class);
        self.bytes.extend(ttl.to_be_bytes());
        let length_at = self.bytes.len();
        self.u16(0);
        match &record.data {
            Data::Pointer(name) => self.name(name),
            Data::Service { port, target } => {
                self.bytes.extend(srv_numbers(*port));
                if self.cuts_targets {
                    self.name(target);
                } else {
                    self.whole_name(target);
                }
            }
            Data::Bytes(bytes) => self.bytes.extend(bytes),
            Data::Negative { next, window } => {
                self.name(next);
                self.bytes.extend(window);
            }
        }
        self.set_length(length_at);
    }
}

/// A question of type PTR and class 1, or none, and known answers "in entry order
/// until one would pass 1,452 bytes. Then TC is set".
pub fn query(question: Option<&Name>, known: &[KnownAnswer]) -> Query {
    let mut packet = Packet::new(NO_ID, QUERY_FLAGS, [question.iter().len(), 0, 0, 0]);
    if let Some(name) = question {
        packet.question(name, rtype::PTR, class::IN);
    }
    let mut listed: u16 = 0;
    let mut stopped = None;
    for answer in known {
        let length = packet.bytes.len();
        packet.known_answer(answer);
        if packet.bytes.len() > MOST_QUERY {
            packet.bytes.truncate(length);
            packet.bytes[2..4].copy_from_slice(&TRUNCATED.to_be_bytes());
            stopped = Some(answer.slot);
            break;
        }
        listed += 1;
    }
    packet.bytes[6..8].copy_from_slice(&listed.to_be_bytes());
    Query {
        packet: packet.bytes,
        stopped,
    }
}

/// "Records in responses go in the order PTR, SRV, TXT, A, AAAA; class 0x8001,
/// PTR 1.", NSEC after AAAA. `records` are in that order.
pub fn response(records: &[&OwnRecord]) -> Vec<u8> {
    response_with_id(NO_ID, records)
}

/// "Unicast answers carry the query's ID (section 18.1)", and are responses otherwise.
pub fn response_with_id(id: u16, records: &[&OwnRecord]) -> Vec<u8> {
    let mut packet = Packet::new(id, RESPONSE_FLAGS, [0, records.len(), 0, 0]);
    for record in records {
        packet.record(record, class_in_response(record), record.kind.ttl());
    }
    packet.bytes
}

/// The records of a response "with TTL 0".
pub fn goodbye(records: &[&OwnRecord]) -> Vec<u8> {
    let mut packet = Packet::new(NO_ID, RESPONSE_FLAGS, [0, records.len(), 0, 0]);
    for record in records {
        packet.record(record, class_in_response(record), GOODBYE_TTL);
    }
    packet.bytes
}

fn class_in_response(record: &OwnRecord) -> u16 {
    match record.kind {
        Kind::Ptr => class::IN,
        _ => class::IN | class::TOP_BIT,
    }
}

/// "its ID and question bytes repeated, TTL 10, the records' top class bit clear,
/// an SRV target uncompressed". The first question of a message holds no pointer,
/// so its bytes are its name's.
pub fn plain_reply(id: u16, question: &Question, records: &[&OwnRecord]) -> Vec<u8> {
    let mut packet = Packet::new(id, RESPONSE_FLAGS, [1, records.len(), 0, 0]);
    packet.cuts_targets = false;
    packet.question(&question.name, question.rtype, question.wire_class);
    for record in records {
        packet.record(record, class::IN, PLAIN_TTL);
    }
    packet.bytes
}

/// "A probe is one question (type 255, class 1) with the claim's records in
/// Authority, by rising type, class 1." "Our own probes now set the bit".
pub fn probe(setup: &Setup, claim: ClaimName) -> Vec<u8> {
    let mut records = setup.claimed_records(claim);
    records.sort_by_key(|record| record.kind.rtype());
    let mut packet = Packet::new(NO_ID, PROBE_FLAGS, [1, 0, records.len(), 0]);
    let wants_unicast = class::IN | class::TOP_BIT;
    packet.question(&setup.claim_name(claim), rtype::ANY, wants_unicast);
    for record in &records {
        packet.record(record, class::IN, record.kind.ttl());
    }
    packet.bytes
}

#[cfg(test)]
mod tests {
    use super::*;
    use crate::message::Message;
    use crate::setup::tests::example;

    fn all(setup: &Setup) -> Vec<u8> {
        let records = setup.all_records();
        response(&records.iter().collect::<Vec<_>>())
    }

    #[test]
    fn the_38_byte_announcement() {
        let records = example().records();
        let expected = [
            &b"\x00\x00\x84\x00\x00\x00\x00\x01\x00\x00\x00\x00\x04dock\x05local\x00"[..],
            &b"\x00\x01\x80\x01\x00\x00\x00\x78\x00\x04\x0a\x00\x00\x07"[..],
        ]
        .concat();
        assert_eq!(expected.len(), 38);
        assert_eq!(response(&[&records[3]]), expected);
    }

    #[test]
    fn the_44_byte_probe() {
        let expected = [
            &b"\x00\x00\x00\x00\x00\x01\x00\x00\x00\x01\x00\x00\x04dock\x05local\x00"[..],
            &b"\x00\xff\x80\x01\xc0\x0c\x00\x01\x00\x01\x00\x00\x00\x78\x00\x04\x0a\x00\x00\x07"[..],
        ]
        .concat();
        assert_eq!(expected.len(), 44);
        assert_eq!(probe(&example(), ClaimName::Host), expected);
    }

    #[test]
    fn what_is_written_reads_back() {
        let mut setup = example();
        setup.aaaa = Some([9; 16]);
        let records = setup.all_records();
        let read = Message::read(&all(&setup)).unwrap();
        assert_eq!(read.records.len(), 7);
        for (read, own) in read.records.iter().zip(&records) {
            assert_eq!(read.owner.wire(), own.owner.wire());
            assert_eq!(read.rtype, own.kind.rtype());
            assert_eq!(read.ttl, own.kind.ttl());
            assert_eq!(read.rdata, own.rdata());
            assert_eq!(read.is_cache_flush(), own.kind != Kind::Ptr);
        }
        let read = Message::read(&probe(&setup, ClaimName::Instance)).unwrap();
        let types: Vec<_> = read.records.iter().map(|record| record.rtype).collect();
        assert_eq!(types, [rtype::TXT, rtype::SRV]);
    }

    #[test]
    fn the_instance_announcement_byte_for_byte() {
        let records = example().records();
        let expected = [
            &b"\x00\x00\x84\x00\x00\x00\x00\x03\x00\x00\x00\x00"[..],
            // 12: service name; its PTR rdata at 41 is "booth" and a pointer
            &b"\x06_voice\x04_tcp\x05local\x00\x00\x0c\x00\x01\x00\x00\x11\x94\x00\x08\x05booth\xc0\x0c"[..],
            &b"\xc0\x29\x00\x21\x80\x01\x00\x00\x00\x78\x00\x0d\x00\x00\x00\x00\x0f\xa0\x04dock\xc0\x18"[..],
            &b"\xc0\x29\x00\x10\x80\x01\x00\x00\x11\x94\x00\x01\x00"[..],
        ]
        .concat();
        let first = &records[..3];
        assert_eq!(response(&first.iter().collect::<Vec<_>>()), expected);
    }

    #[test]
    fn suffixes_are_whole_labels_and_case_counts() {
        // the instance label holds the bytes of "local." but not as a label (a
        // set-up with it is refused, but a writer should be right of itself)
        let mut setup = example();
        setup.instance = b"\x05local\x00".to_vec();
        let probe = probe(&setup, ClaimName::Instance);
        assert_eq!(&probe[12..20], b"\x07\x05local\x00");
        let target = &probe[probe.len() - 7..];
        assert_eq!(target[..5], *b"\x04dock");
        assert!(u16::from_be_bytes([target[5], target[6]]) > 0xC000 + 20);

        // host "_TCP" is no suffix of the service name, "_tcp" is
        let mut setup = example();
        setup.host = b"_TCP".to_vec();
        assert!(all(&setup)
            .windows(7)
            .any(|part| part == b"\x04_TCP\xc0\x18"));
        setup.host = b"_tcp".to_vec();
        let packet = all(&setup);
        assert!(packet
            .windows(8)
            .any(|part| part == b"\x00\x00\x00\x00\x0f\xa0\xc0\x13"));
    }

    #[test]
    fn the_longest_packet_fits() {
        let setup = Setup {
            instance: vec![b'i'; 63],
            service: b"_abcdefghijklmno".to_vec(),
            host: vec![b'h'; 63],
            txt: vec![0; 400],
            aaaa: Some([0; 16]),
            ..example()
        };
        assert!(setup.is_legal());
        assert_eq!(all(&setup).len(), 657 + 21 + 20);
        // nor do its names have to be cut
        let names: usize = setup
            .all_records()
            .iter()
            .map(|own| own.owner.wire().len() + 10 + own.rdata().len())
            .sum();
        assert_eq!(12 + names, 1009 + 203 + 158);
        assert!(12 + names <= 1452);
    }

    #[test]
    fn nsec_byte_for_byte() {
        let mut setup = example();
        let written = |setup: &Setup, chosen: &[Kind]| {
            let mut records = setup.all_records();
            records.retain(|record| chosen.contains(&record.kind));
            response(&records.iter().collect::<Vec<_>>())
        };
        let host = [
            &b"\x00\x00\x84\x00\x00\x00\x00\x01\x00\x00\x00\x00\x04dock\x05local\x00"[..],
            &b"\x00\x2f\x80\x01\x00\x00\x00\x78\x00\x05\xc0\x0c\x00\x01\x40"[..],
        ]
        .concat();
        assert_eq!(written(&setup, &[Kind::HostNsec]), host);
        let both = [
            &b"\x00\x00\x84\x00\x00\x00\x00\x02\x00\x00\x00\x00"[..],
            &b"\x05booth\x06_voice\x04_tcp\x05local\x00\x00\x2f\x80\x01\x00\x00\x00\x78"[..],
            &b"\x00\x09\xc0\x0c\x00\x05\x00\x00\x80\x00\x40"[..],
            &b"\x04dock\xc0\x1e\x00\x2f\x80\x01\x00\x00\x00\x78"[..],
            &b"\x00\x08\xc0\x38\x00\x04\x40\x00\x00\x08"[..],
        ]
        .concat();
        setup.aaaa = Some([9; 16]);
        assert_eq!(written(&setup, &[Kind::InstanceNsec, Kind::HostNsec]), both);
    }
}
