//! "Reading a message": the whole message is checked, refusals 4, 5 and 6 in
//! that order. `check` only validates; `Message::read` gives owned structures.

use crate::name::{name_end, Labels, Name};
use crate::refusal::Refusal;
use crate::{class, rtype, txt, MDNS_PORT};

pub const HEADER: usize = 12;
pub const MOST_MESSAGE: usize = 8972;

const RESPONSE_BIT: u16 = 0x8000;
const TRUNCATED_BIT: u16 = 0x0200;
const OPCODE_AND_RCODE: u16 = 0x780F;
/// Type, class, TTL and rdata length.
const FIXED_PART: usize = 10;
/// Priority, weight and port before an SRV target.
const SRV_NUMBERS: usize = 6;
/// The bitmap of a restricted NSEC: "one window block, types under 256".
const WINDOW: u8 = 0;
const MOST_BITMAP: u8 = 32;

#[derive(Clone, Copy, Debug, PartialEq, Eq)]
pub enum Section {
    Answer,
    Authority,
    Additional,
}

#[derive(Clone, Debug)]
pub struct Question {
    pub name: Name,
    pub rtype: u16,
    /// As it lies on the wire, with its top bit.
    pub wire_class: u16,
}

#[derive(Clone, Debug)]
pub struct Record {
    pub section: Section,
    pub owner: Name,
    pub rtype: u16,
    /// As it lies on the wire, with its top bit.
    pub wire_class: u16,
    /// As it counts: "A TTL with its top bit set counts as 0 everywhere."
    pub ttl: u32,
    /// The names in PTR, SRV and restricted NSEC expanded.
    pub rdata: Vec<u8>,
    /// The labels of the target of PTR and SRV, and of the next name of
    /// restricted NSEC; another NSEC has none.
    pub target: Option<Labels>,
}

#[derive(Clone, Debug)]
pub struct Message {
    pub id: u16,
    pub flags: u16,
    pub questions: Vec<Question>,
    pub records: Vec<Record>,
}

impl Question {
    /// The unicast bit is ignored.
    pub fn class(&self) -> u16 {
        class::low_bits(self.wire_class)
    }
}

impl Record {
    pub fn class(&self) -> u16 {
        class::low_bits(self.wire_class)
    }

    pub fn is_cache_flush(&self) -> bool {
        self.wire_class & class::TOP_BIT != 0
    }

    /// "The reader and cache take this form as a sixth type, other NSEC as unknown".
    pub fn is_one_of_the_six(&self) -> bool {
        rtype::is_one_of_the_five(self.rtype) || self.is_restricted_nsec()
    }

    pub fn is_restricted_nsec(&self) -> bool {
        self.rtype == rtype::NSEC && self.target.is_some()
    }
}

#[inline]
fn u16_at(message: &[u8], at: usize) -> u16 {
    u16::from_be_bytes([message[at], message[at + 1]])
}

/// Refusals 4 and 5, without the source port.
fn check_header(message: &[u8]) -> Result<(), Refusal> {
    if !(HEADER..=MOST_MESSAGE).contains(&message.len()) {
        return Err(Refusal::MessageLength);
    }
    if u16_at(message, 2) & OPCODE_AND_RCODE != 0 {
        return Err(Refusal::Header);
    }
    Ok(())
}

/// The fixed part of a record and the place of its rdata in the message.
struct Place {
    rtype: u16,
    wire_class: u16,
    ttl: u32,
    start: usize,
    end: usize,
}

/// Reads what follows a record's owner at `at`.
#[inline]
fn place(message: &[u8], at: usize) -> Result<Place, Refusal> {
    let fixed = message.get(at..at + FIXED_PART).ok_or(Refusal::Malformed)?;
    let start = at + FIXED_PART;
    let end = start + usize::from(u16_at(fixed, 8));
    if end > message.len() {
        return Err(Refusal::Malformed);
    }
    let ttl = u32::from_be_bytes([fixed[4], fixed[5], fixed[6], fixed[7]]);
    Ok(Place {
        rtype: u16_at(fixed, 0),
        wire_class: u16_at(fixed, 2),
        ttl: if ttl >> 31 == 0 { ttl } else { 0 },
        start,
        end,
    })
}

fn well_formed(yes: bool) -> Result<(), Refusal> {
    if yes {
        Ok(())
    } else {
        Err(Refusal::Malformed)
    }
}

/// "A needs 4 bytes, AAAA 16. PTR is one name, SRV is 6 bytes and one name,
/// each ending exactly at the rdata's end. TXT strings fill the rdata exactly
/// [...] Other types are stepped over."
#[inline]
fn check_rdata(message: &[u8], place: &Place) -> Result<(), Refusal> {
    let Place { start, end, .. } = *place;
    well_formed(match place.rtype {
        rtype::A => end - start == 4,
        rtype::AAAA => end - start == 16,
        rtype::PTR => name_end(message, start)? == end,
        rtype::SRV => name_end(message, start + SRV_NUMBERS)? == end,
        rtype::TXT => txt::is_well_formed(&message[start..end]),
        _ => true,
    })
}

/// Whether a bitmap has the bit of NSEC itself.
fn has_nsec_bit(bitmap: &[u8]) -> bool {
    let bit = usize::from(rtype::NSEC);
    bitmap
        .get(bit / 8)
        .is_some_and(|byte| byte & (0x80 >> (bit % 8)) != 0)
}

/// What stands behind the next name of a restricted NSEC: the number of one
/// window block, a length and so many bytes, without the NSEC bit.
fn is_restricted_window(bytes: &[u8]) -> bool {
    let [window, length, bitmap @ ..] = bytes else {
        return false;
    };
    *window == WINDOW
        && (1..=MOST_BITMAP).contains(length)
        && bitmap.len() == usize::from(*length)
        && !has_nsec_bit(bitmap)
}

/// The rdata of a restricted NSEC (RFC 6762, section 6.1) with its next name
/// expanded, and that name's labels. Any other rdata is none, one with a bad
/// name too: it is stepped over.
fn read_nsec(message: &[u8], place: &Place, owner: &Name) -> Option<(Vec<u8>, Labels)> {
    let (next, next_end) = Name::read(message, place.start).ok()?;
    let window = message.get(next_end..place.end)?;
    let restricted = next.equals(owner) && is_restricted_window(window);
    restricted.then(|| ([next.wire(), window].concat(), next.labels()))
}

/// The same, with the names in PTR, SRV and restricted NSEC expanded, and their
/// labels.
fn read_rdata(
    message: &[u8],
    place: &Place,
    owner: &Name,
) -> Result<(Vec<u8>, Option<Labels>), Refusal> {
    let Place { start, end, .. } = *place;
    if place.rtype == rtype::NSEC {
        if let Some((rdata, next)) = read_nsec(message, place, owner) {
            return Ok((rdata, Some(next)));
        }
    }
    match place.rtype {
        rtype::PTR => {
            let (target, name_end) = Name::read(message, start)?;
            well_formed(name_end == end)?;
            let labels = target.labels();
            Ok((target.into_wire(), Some(labels)))
        }
        rtype::SRV => {
            let (target, name_end) = Name::read(message, start + SRV_NUMBERS)?;
            well_formed(name_end == end)?;
            let rdata = [&message[start..start + SRV_NUMBERS], target.wire()].concat();
            Ok((rdata, Some(target.labels())))
        }
        _ => {
            check_rdata(message, place)?;
            Ok((message[start..end].to_vec(), None))
        }
    }
}

/// Validates a whole message: refusals 4, 5 (opcode, RCODE) and 6, in order.
pub fn check(message: &[u8]) -> Result<(), Refusal> {
    check_header(message)?;
    let mut at = HEADER;
    for _ in 0..u16_at(message, 4) {
        at = name_end(message, at)? + 4;
        well_formed(at <= message.len())?;
    }
    for count_at in [6, 8, 10] {
        for _ in 0..u16_at(message, count_at) {
            let place = place(message, name_end(message, at)?)?;
            check_rdata(message, &place)?;
            at = place.end;
        }
    }
    Ok(())
}

impl Message {
    /// Reads a whole message that came without a port.
    pub fn read(message: &[u8]) -> Result<Message, Refusal> {
        check_header(message)?;
        Message::read_sections(message)
    }

    /// Reads a message from a source port: "Refusal 5 for the port is now given
    /// only to responses."
    pub fn read_from(port: u64, message: &[u8]) -> Result<Message, Refusal> {
        check_header(message)?;
        if port != MDNS_PORT && u16_at(message, 2) & RESPONSE_BIT != 0 {
            return Err(Refusal::Header);
        }
        Message::read_sections(message)
    }

    fn read_sections(message: &[u8]) -> Result<Message, Refusal> {
        let mut at = HEADER;
        let mut questions = Vec::new();
        for _ in 0..u16_at(message, 4) {
            let (name, fixed) = Name::read(message, at)?;
            at = fixed + 4;
            well_formed(at <= message.len())?;
            questions.push(Question {
                name,
                rtype: u16_at(message, fixed),
                wire_class: u16_at(message, fixed + 2),
            });
        }
        let mut records = Vec::new();
        for (section, count_at) in [
            (Section::Answer, 6),
            (Section::Authority, 8),
            (Section::Additional, 10),
        ] {
            for _ in 0..u16_at(message, count_at) {
                let (owner, fixed) = Name::read(message, at)?;
                let place = place(message, fixed)?;
                let (rdata, target) = read_rdata(message, &place, &owner)?;
                records.push(Record {
                    section,
                    owner,
                    rtype: place.rtype,
                    wire_class: place.wire_class,
                    ttl: place.ttl,
                    rdata,
                    target,
                });
                at = place.end;
            }
        }
        Ok(Message {
            id: u16_at(message, 0),
            flags: u16_at(message, 2),
            questions,
            records,
        })
    }

    pub fn is_response(&self) -> bool {
        self.flags & RESPONSE_BIT != 0
    }

    /// TC: more known answers follow.
    pub fn is_truncated(&self) -> bool {
        self.flags & TRUNCATED_BIT != 0
    }

    pub fn section(&self, section: Section) -> impl Iterator<Item = &Record> {
        self.records
            .iter()
            .filter(move |record| record.section == section)
    }
}

#[cfg(test)]
mod tests {
    use super::*;

    fn message(flags: u16, counts: [u16; 4], body: &[u8]) -> Vec<u8> {
        let mut bytes = vec![0, 7];
        bytes.extend(flags.to_be_bytes());
        for count in counts {
            bytes.extend(count.to_be_bytes());
        }
        bytes.extend(body);
        bytes
    }

    fn record(rtype: u16, rdata: &[u8]) -> Vec<u8> {
        let mut bytes = vec![0];
        bytes.extend(rtype.to_be_bytes());
        bytes.extend([0x80, 1, 0, 0, 0, 120]);
        bytes.extend((rdata.len() as u16).to_be_bytes());
        bytes.extend(rdata);
        bytes
    }

    /// Both entry points give the same refusal.
    fn refusal(bytes: &[u8]) -> u8 {
        let checked = check(bytes).err();
        assert_eq!(checked, Message::read(bytes).err());
        checked.map_or(0, Refusal::number)
    }

    fn one(rtype: u16, rdata: &[u8]) -> u8 {
        refusal(&message(0x8400, [0, 1, 0, 0], &record(rtype, rdata)))
    }

    #[test]
    fn lengths() {
        for (length, number) in [(0, 4), (11, 4), (12, 0), (8972, 0), (8973, 4)] {
            assert_eq!(refusal(&vec![0; length]), number);
        }
    }

    #[test]
    fn opcode_and_rcode_before_malformed() {
        for bit in 0..16 {
            let expected = if (1 << bit) & OPCODE_AND_RCODE != 0 {
                5
            } else {
                6
            };
            assert_eq!(refusal(&message(1 << bit, [1, 0, 0, 0], &[])), expected);
        }
        let plain = message(0, [0; 4], &[]);
        assert!(Message::read_from(5353, &plain).is_ok());
        assert_eq!(
            Message::read_from(5354, &message(0x8000, [1, 0, 0, 0], &[])).err(),
            Some(Refusal::Header)
        );
    }

    #[test]
    fn counts_and_trailing_bytes() {
        let body = record(99, b"abc");
        assert_eq!(refusal(&message(0, [0, 1, 0, 0], &body)), 0);
        assert_eq!(refusal(&message(0, [0, 2, 0, 0], &body)), 6);
        assert_eq!(refusal(&message(0, [0xffff; 4], &body)), 6);
        let trailing = [&body[..], b"\xff\xff"].concat();
        assert_eq!(refusal(&message(0, [0, 0, 0, 1], &trailing)), 0);
        for cut in 0..body.len() {
            assert_eq!(refusal(&message(0, [0, 0, 1, 0], &body[..cut])), 6);
        }
        let question = [0, 0, 1, 0, 1];
        for cut in 0..5 {
            assert_eq!(refusal(&message(0, [1, 0, 0, 0], &question[..cut])), 6);
        }
        assert_eq!(refusal(&message(0, [1, 0, 0, 0], &question)), 0);
    }

    #[test]
    fn rdata_lengths() {
        for length in 0..20 {
            let rdata = vec![0; length];
            assert_eq!(one(rtype::A, &rdata), if length == 4 { 0 } else { 6 });
            assert_eq!(one(rtype::AAAA, &rdata), if length == 16 { 0 } else { 6 });
            assert_eq!(one(rtype::PTR, &rdata), if length == 1 { 0 } else { 6 });
            assert_eq!(one(rtype::SRV, &rdata), if length == 7 { 0 } else { 6 });
            assert_eq!(one(rtype::TXT, &rdata), 0);
            assert_eq!(one(rtype::ANY, &rdata), 0);
        }
        assert_eq!(one(rtype::TXT, &[2, 0]), 6);
        assert_eq!(one(rtype::TXT, &[1, 0]), 0);
    }

    #[test]
    fn pointer_at_12_to_12() {
        let body = [0xc0, 12, 0, 1, 0, 1];
        assert_eq!(refusal(&message(0, [1, 0, 0, 0], &body)), 6);
    }

    #[test]
    fn srv_is_expanded_and_the_ttl_counts() {
        let mut body = b"\x04dock\x05local\x00\x00\x01\x80\x01".to_vec(); // question
        body.extend([0xc0, 12, 0, 33, 0x80, 1, 0x80, 0, 0, 1, 0, 8]);
        body.extend([0, 0, 0, 0, 0x0f, 0xa0, 0xc0, 12]);
        let read = Message::read(&message(0, [1, 1, 0, 0], &body)).unwrap();
        assert_eq!(read.id, 7);
        assert_eq!((read.questions[0].rtype, read.questions[0].class()), (1, 1));
        let record = &read.records[0];
        assert_eq!(record.owner.wire(), b"\x04dock\x05local\x00");
        assert_eq!((record.class(), record.is_cache_flush()), (1, true));
        assert_eq!(record.ttl, 0);
        assert_eq!(
            record.rdata,
            b"\x00\x00\x00\x00\x0f\xa0\x04dock\x05local\x00"
        );
        assert_eq!(record.owner.labels(), Labels { count: 2, first: 4 });
        assert_eq!(record.target, Some(record.owner.labels()));
    }

    /// Reads an NSEC of dock.local at 12, which is then behind a question for it;
    /// gives its rdata and whether it was taken as a restricted one.
    fn nsec(rdata: &[u8]) -> (Vec<u8>, bool) {
        let mut body = b"\x04dock\x05local\x00\x00\x01\x00\x01".to_vec();
        body.extend([0xc0, 12, 0, 47, 0, 3, 0, 0, 0, 120, 0, rdata.len() as u8]);
        body.extend(rdata);
        let bytes = message(0x8400, [1, 0, 1, 0], &body);
        assert_eq!(check(&bytes), Ok(()));
        let read = Message::read(&bytes).unwrap();
        let record = &read.records[0];
        let restricted = record.is_restricted_nsec();
        assert_eq!(restricted, record.is_one_of_the_six());
        let labels = restricted.then_some(Labels { count: 2, first: 4 });
        assert_eq!(record.target, labels);
        (record.rdata.clone(), restricted)
    }

    #[test]
    fn restricted_nsec() {
        const OWN: &[u8] = b"\x04dock\x05local\x00";
        let full = [1; 34];
        let mut long = [0xff; 34];
        (long[0], long[1], long[7]) = (0, 32, 0xfe);
        for (next, expanded) in [
            (OWN, OWN),
            (b"\xc0\x0c", OWN),
            (b"\x04dock\xc0\x11", OWN),
            (b"\x04DOCK\xc0\x11", b"\x04DOCK\x05local\x00"),
        ] {
            for window in [
                &b"\x00\x01\x40"[..],
                b"\x00\x04\x40\x00\x00\x08",
                b"\x00\x01\x00",
                b"\x00\x06\x40\x00\x00\x08\x00\x00",
                b"\x00\x06\x40\x00\x00\x08\x00\xfe",
                &long,
            ] {
                let read = nsec(&[next, window].concat());
                assert_eq!(read, ([expanded, window].concat(), true));
            }
        }
        for window in [
            &b""[..],
            b"\x00",
            b"\x00\x00",
            b"\x01\x01\x40",
            b"\xff\x01\x40",
            b"\x00\x01",
            b"\x00\x01\x40\x00",
            b"\x00\x02\x40",
            b"\x00\x06\x40\x00\x00\x08\x00\x01",
            b"\x00\x01\x40\x01\x01\x40",
            &[&[0, 33], &full[..33]].concat(),
            &[&[0, 32], &full[..33]].concat(),
        ] {
            let rdata = [b"\xc0\x0c", window].concat();
            assert_eq!(nsec(&rdata), (rdata, false));
        }
        for next in [
            &b""[..],
            b"\x00",
            b"\xc0\x11",
            b"\x04deck\xc0\x11",
            b"\x01x\xc0\x0c",
            b"\xc0\x0b",
            b"\xc0\x28",
            b"\xff\xff",
            b"\x40",
            b"\x3f",
        ] {
            let rdata = [next, b"\x00\x01\x40"].concat();
            assert_eq!(nsec(&rdata), (rdata, false));
        }
    }

    #[test]
    fn an_nsec_that_its_rdata_cuts() {
        // the pointer of the next name, and a label, end behind the rdata
        for next in [&b"\xc0"[..], b"\x05dock", b""] {
            let mut body = [
                b"\x00\x00\x2f\x00\x01\x00\x00\x00\x09\x00",
                &[next.len() as u8][..],
            ]
            .concat();
            body.extend(next);
            body.extend(b"\x0c\x00\x01\x40");
            let read = Message::read(&message(0x8400, [0, 1, 0, 0], &body)).unwrap();
            assert_eq!(read.records[0].rdata, next);
            assert!(!read.records[0].is_restricted_nsec());
        }
    }
}
