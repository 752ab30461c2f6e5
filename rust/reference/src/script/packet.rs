//! Packets for scripts: drafts, their encoding with any legal compression,
//! damage, and messages at the corners of the reading rules.

use super::random::Random;
use crate::message::{HEADER, MOST_MESSAGE};
use crate::rtype;

pub const CLASSES: [u16; 12] = [
    1, 1, 1, 1, 0x8001, 0x8001, 0x8001, 255, 0x80ff, 3, 0, 0x8003,
];
pub const TYPES: [u16; 14] = [1, 12, 16, 28, 33, 255, 99, 47, 47, 0, 2, 13, 256, 0x8001];

#[derive(Clone)]
pub enum DraftData {
    Bytes(Vec<u8>),
    Name(Vec<u8>),
    Service([u8; 6], Vec<u8>),
    /// A name and what stands behind it.
    Next(Vec<u8>, Vec<u8>),
}

#[derive(Clone)]
pub struct DraftRecord {
    pub owner: Vec<u8>,
    pub rtype: u16,
    pub class: u16,
    pub ttl: u32,
    pub data: DraftData,
}

/// A message to be; names are uncompressed wire bytes.
#[derive(Clone, Default)]
pub struct Draft {
    pub id: u16,
    pub flags: u16,
    pub questions: Vec<(Vec<u8>, u16, u16)>,
    pub sections: [Vec<DraftRecord>; 3],
    /// Whether every name is cut where it can be, so that as much as can be fits.
    pub cut_all: bool,
}

impl DraftRecord {
    /// A record from expanded rdata, so that its names can be compressed again.
    pub fn new(owner: &[u8], rtype: u16, class: u16, ttl: u32, rdata: &[u8]) -> DraftRecord {
        let data = match rtype {
            rtype::PTR => DraftData::Name(rdata.to_vec()),
            rtype::SRV => {
                let (numbers, target) = rdata.split_at(6);
                DraftData::Service(numbers.try_into().expect("six bytes"), target.to_vec())
            }
            rtype::NSEC => match name_length(rdata) {
                Some(length) => DraftData::Next(rdata[..length].to_vec(), rdata[length..].to_vec()),
                None => DraftData::Bytes(rdata.to_vec()),
            },
            _ => DraftData::Bytes(rdata.to_vec()),
        };
        DraftRecord {
            owner: owner.to_vec(),
            rtype,
            class,
            ttl,
            data,
        }
    }
}

/// The length of the uncompressed name that `bytes` begin with.
fn name_length(bytes: &[u8]) -> Option<usize> {
    let mut at = 0;
    loop {
        match *bytes.get(at)? {
            0 => return Some(at + 1),
            length @ 1..64 => at += 1 + usize::from(length),
            _ => return None,
        }
    }
}

struct Encoder<'a> {
    random: &'a mut Random,
    bytes: Vec<u8>,
    /// Offsets that read as a name, pointers included.
    known: Vec<(usize, Vec<u8>)>,
    /// In percent: how often a name is cut where it can be.
    cutting: u64,
    /// Whether a name may be cut at a suffix of other case.
    caseless: bool,
    length_fields: Vec<usize>,
}

impl Encoder<'_> {
    fn u16(&mut self, number: u16) {
        self.bytes.extend(number.to_be_bytes());
    }

    fn name(&mut self, name: &[u8]) {
        let mut at = 0;
        let mut written = Vec::new();
        while name[at] != 0 {
            let suffix = &name[at..];
            let here = self.bytes.len();
            let targets: Vec<usize> = self
                .known
                .iter()
                .filter(|(_, known)| {
                    known == suffix || (self.caseless && known.eq_ignore_ascii_case(suffix))
                })
                .map(|(offset, _)| *offset)
                .filter(|offset| *offset < 0x4000)
                .collect();
            written.push((here, suffix.to_vec()));
            if !targets.is_empty() && self.random.chance(self.cutting) {
                let target = self.random.pick(&targets);
                self.u16(0xC000 | target as u16);
                self.known.extend(written);
                return;
            }
            let end = at + 1 + usize::from(name[at]);
            self.bytes.extend(&name[at..end]);
            at = end;
        }
        self.bytes.push(0);
        self.known.extend(written);
    }

    fn record(&mut self, record: &DraftRecord) {
        self.name(&record.owner);
        self.u16(record.rtype);
        self.u16(record.class);
        self.bytes.extend(record.ttl.to_be_bytes());
        let length_at = self.bytes.len();
        self.length_fields.push(length_at);
        self.u16(0);
        match &record.data {
            DraftData::Bytes(bytes) => self.bytes.extend(bytes),
            DraftData::Name(name) => self.name(name),
            DraftData::Service(numbers, target) => {
                self.bytes.extend(numbers);
                self.name(target);
            }
            DraftData::Next(next, behind) => {
                self.name(next);
                self.bytes.extend(behind);
            }
        }
        let length = (self.bytes.len() - length_at - 2) as u16;
        self.bytes[length_at..length_at + 2].copy_from_slice(&length.to_be_bytes());
    }
}

impl Draft {
    pub fn query() -> Draft {
        Draft::default()
    }

    pub fn response() -> Draft {
        Draft {
            flags: 0x8400,
            ..Draft::default()
        }
    }

    /// The message, and where its rdata length fields are.
    pub fn encode_with_fields(&self, random: &mut Random) -> (Vec<u8>, Vec<usize>) {
        let cutting = match self.cut_all {
            true => 100,
            false => random.pick(&[0, 50, 100, 100]),
        };
        let caseless = random.chance(15);
        let mut encoder = Encoder {
            random,
            bytes: Vec::new(),
            known: Vec::new(),
            cutting,
            caseless,
            length_fields: Vec::new(),
        };
        encoder.u16(self.id);
        encoder.u16(self.flags);
        encoder.u16(self.questions.len() as u16);
        for section in &self.sections {
            encoder.u16(section.len() as u16);
        }
        for (name, rtype, class) in &self.questions {
            encoder.name(name);
            encoder.u16(*rtype);
            encoder.u16(*class);
        }
        for record in self.sections.iter().flatten() {
            encoder.record(record);
        }
        (encoder.bytes, encoder.length_fields)
    }

    pub fn encode(&self, random: &mut Random) -> Vec<u8> {
        self.encode_with_fields(random).0
    }

    /// Sets bits that are ignored: the ID, AA, TC, RD, RA, Z, AD and CD.
    pub fn decorate(&mut self, random: &mut Random) {
        if random.chance(30) {
            self.id = random.number() as u16;
            self.flags ^= random.number() as u16 & 0x07f0;
        }
    }

    /// The message with something broken, or at least changed.
    pub fn damaged(&self, random: &mut Random) -> Vec<u8> {
        let (mut bytes, fields) = self.encode_with_fields(random);
        match random.below(10) {
            0 => {
                let field = random.pick(&[vec![6], fields].concat());
                let length = u16::from_be_bytes([bytes[field], bytes[field + 1]]);
                let off = if random.chance(50) {
                    length.wrapping_add(1)
                } else {
                    length.wrapping_sub(1)
                };
                bytes[field..field + 2].copy_from_slice(&off.to_be_bytes());
            }
            1 => {
                let count = 4 + 2 * random.below(4);
                bytes[count + 1] = bytes[count + 1].wrapping_add(random.pick(&[1, 255]));
            }
            2 => bytes[4 + 2 * random.below(4)] = random.pick(&[1, 255]),
            3 => bytes.truncate(random.below(bytes.len() + 1)),
            4 => bytes.truncate(bytes.len() - 1),
            5 => {
                let at = random.below(bytes.len());
                let low = random.byte();
                bytes[at] = random.pick(&[0xc0, 0xc0, 0xc1, 0xff]);
                if at + 1 < bytes.len() {
                    bytes[at + 1] = low;
                }
            }
            6 => {
                let at = random.below(bytes.len());
                bytes.insert(at, random.byte());
            }
            7 => {
                let at = random.below(bytes.len());
                bytes.remove(at);
            }
            8 => {
                let length = random.below(20);
                bytes.extend(random.bytes(length));
            }
            _ => {
                for _ in 0..random.pick(&[1, 1, 1, 2, 5]) {
                    let at = random.below(bytes.len());
                    bytes[at] ^= 1 << random.below(8);
                }
            }
        }
        bytes
    }
}

/// Labels that make an uncompressed name of `length` bytes, zero byte included.
pub fn long_name(random: &mut Random, length: usize) -> Vec<u8> {
    let mut wire = Vec::with_capacity(length);
    let mut left = length - 1;
    while left > 0 {
        let most = left.min(64);
        let mut label = if random.chance(70) {
            most
        } else {
            2 + random.below(most - 1)
        };
        if left - label == 1 {
            label -= 1;
        }
        if label < 2 {
            label = left; // two or three bytes are left
        }
        wire.push(label as u8 - 1);
        wire.extend((1..label).map(|_| random.pick(b"abcXYZ09-\x00\xff.")));
        left -= label;
    }
    wire.push(0);
    wire
}

/// A name of `count` labels, at most 127: of one byte each where more would not
/// fit, else the first one often longer.
pub fn labelled_name(random: &mut Random, count: usize) -> Vec<u8> {
    let mut wire = Vec::new();
    let room = 254 - 2 * count;
    for label in 0..count {
        let length = match label {
            0 => 1 + random.below(room.min(62) + 1),
            _ => 1,
        };
        wire.push(length as u8);
        wire.extend((0..length).map(|_| random.pick(b"abXY09")));
    }
    wire.push(0);
    wire
}

/// Well-formed TXT rdata of exactly `length` bytes.
pub fn txt_of(random: &mut Random, length: usize) -> Vec<u8> {
    let mut txt = Vec::with_capacity(length);
    while txt.len() < length {
        let left = length - txt.len();
        let string = random.below(left.min(256));
        txt.push(string as u8);
        txt.extend(random.bytes(string));
    }
    txt
}

/// What stands behind the next name of an NSEC: most times as in the restricted
/// form, else nearly so.
pub fn window_block(random: &mut Random) -> Vec<u8> {
    let length = random.pick(&[1, 1, 2, 4, 5, 5, 6, 6, 7, 31, 32, 32]);
    let mut bitmap = match random.below(4) {
        0 => vec![0; length],
        1 => vec![0xff; length],
        _ => random.bytes(length),
    };
    if let Some(byte) = bitmap.get_mut(5) {
        *byte &= 0xfe;
    }
    if random.chance(35) {
        bitmap = random
            .pick(&[
                &b"\x40"[..],
                b"\x40\x00\x00\x08",
                b"\x00\x00\x80\x00\x40",
                b"\x40\x00",
                b"\x00",
            ])
            .to_vec();
    }
    let mut block = [vec![0, bitmap.len() as u8], bitmap].concat();
    match random.below(36) {
        0 => block[0] = random.pick(&[1, 2, 128, 255]),
        1 => block[1] += 1,
        2 => block[1] -= 1,
        3 => {
            block.pop();
        }
        4 => block.push(random.pick(&[0, 0, 0x40])),
        5 => block = vec![0, 0],
        6 => {
            block.resize(2 + 33, 0x40);
            block[7] &= 0xfe;
            block[1] = 33;
        }
        7 | 8 => {
            // the bit of NSEC itself
            let length = block.len().max(8);
            block.resize(length, 0);
            block[1] = length as u8 - 2;
            block[7] |= 1;
        }
        9 => block.extend_from_within(..),
        10 => block.truncate(random.below(3)),
        _ => (),
    }
    block
}

/// Rdata of an NSEC of this owner: most times of the restricted form.
pub fn nsec_rdata(random: &mut Random, owner: &[u8]) -> Vec<u8> {
    let next = match random.below(12) {
        0 => some_name(random),
        1..=3 => random.recase(owner),
        // a name that goes on, or one that ends sooner
        4 if owner.len() < 250 => [b"\x01x", owner].concat(),
        5 if owner.len() > 1 => owner[1 + usize::from(owner[0])..].to_vec(),
        _ => owner.to_vec(),
    };
    [next, window_block(random)].concat()
}

/// Rdata that is legal for its type, expanded; of NSEC not always.
pub fn some_rdata(random: &mut Random, owner: &[u8], rtype: u16) -> Vec<u8> {
    match rtype {
        rtype::NSEC if random.chance(90) => nsec_rdata(random, owner),
        rtype::A => vec![10, random.byte() & 0x81, 0, random.byte() & 3],
        rtype::AAAA => [vec![0xfe, 0x80], random.bytes(14)].concat(),
        rtype::PTR => some_name(random),
        rtype::SRV => [random.bytes(6), some_name(random)].concat(),
        rtype::TXT => {
            let length = random.pick(&[0, 1, 2, 5, 20, 60]);
            txt_of(random, length)
        }
        _ => {
            let length = random.below(12);
            random.bytes(length)
        }
    }
}

pub fn some_name(random: &mut Random) -> Vec<u8> {
    if random.chance(4) {
        let count = random.pick(&[1, 2, 5, 63, 64, 65, 126, 127]);
        return labelled_name(random, count);
    }
    let name: &[u8] = random.pick(&[
        &b"\x00"[..],
        b"\x05local\x00",
        b"\x04desk\x05local\x00",
        b"\x03tea\x06_voice\x04_tcp\x05local\x00",
        b"\x06_voice\x04_tcp\x05local\x00",
        b"\x02[{\x02\xc3\x89\x05local\x00",
        b"\x01a\x01b\x01c\x00",
        b"\x09two\nlines\x06_voice\x04_tcp\x05local\x00",
        b"\x04\x7f\xc0\x80\xff\x05local\x00",
    ]);
    if random.chance(40) {
        return random.recase(name);
    }
    name.to_vec()
}

fn header(flags: u16, counts: [u16; 4]) -> Vec<u8> {
    let mut bytes = vec![0, 0];
    bytes.extend(flags.to_be_bytes());
    for count in counts {
        bytes.extend(count.to_be_bytes());
    }
    bytes
}

/// A message with one question whose name is `name`, placed at offset 12, then
/// a second one.
fn named(name: &[u8], second: &[u8]) -> Vec<u8> {
    let mut bytes = header(0, [2, 0, 0, 0]);
    bytes.extend(name);
    bytes.extend([0, 1, 0, 1]);
    bytes.extend(second);
    bytes.extend([0, 1, 0, 1]);
    bytes
}

/// A response with one record of the root and this rdata.
fn rooted(rtype: u16, rdata: &[u8]) -> Vec<u8> {
    let mut bytes = header(0x8400, [0, 0, 0, 0]);
    bytes[7] = 1;
    bytes.push(0);
    bytes.extend(rtype.to_be_bytes());
    bytes.extend([0, 1, 0, 0, 0, 9]);
    bytes.extend((rdata.len() as u16).to_be_bytes());
    bytes.extend(rdata);
    bytes
}

/// Whether a label, or the zero byte, starts at `at` of an uncompressed name.
fn name_starts_at(name: &[u8], at: usize) -> bool {
    let mut start = 0;
    while start < at {
        start += 1 + usize::from(name[start]);
    }
    start == at
}

/// A message at a corner of the reading rules.
pub fn corner(random: &mut Random) -> Vec<u8> {
    match random.below(22) {
        0 => {
            let length = random.pick(&[0, 1, 11, 12, 13, 8971, 8972, 8973, 9000]);
            let mut bytes = vec![0; length];
            if length > 3 && random.chance(20) {
                bytes[2] = random.byte();
                bytes[3] = random.byte();
            }
            bytes
        }
        1 => {
            // each flag bit alone, over a malformed or an empty message
            let count = random.pick(&[0, 1]);
            header(1 << random.below(16), [count, 0, 0, 0])
        }
        2 => {
            // pointers from offset 12
            let target = random.pick(&[0, 11, 12, 13, 14, 0x3fff]);
            named(&(0xC000_u16 | target).to_be_bytes(), &[0])
        }
        3 => {
            // into the own run, in the middle of a label; or out of it
            let own = named(b"\x05x\x01a\x00y\xc0\x0e", &[0]);
            let other = named(b"\x05x\x01a\x00y\x00", b"\x01b\xc0\x0e");
            random.pick(&[own, other])
        }
        4 => {
            // names of 253..257 bytes, plain
            let length = random.within(253..=257) as usize;
            let name = long_name(random, length);
            named(&name, &[0xc0, 12])
        }
        5 => {
            // and by a pointer
            let length = random.within(190..=254) as usize;
            let name = long_name(random, length);
            let more = random.within(252..=257) as usize - length.min(252);
            let label = more.clamp(2, 64) - 1;
            let mut second = vec![label as u8];
            second.extend(vec![b'p'; label]);
            second.extend([0xc0, 12]);
            named(&name, &second)
        }
        6 => {
            // label bytes 0x40..0xBF, as many bytes as they say
            let length = random.pick(&[0x3f, 0x40, 0x41, 0x7f, 0x80, 0xbf]);
            let mut name = vec![length];
            name.extend(vec![b'n'; usize::from(length)]);
            name.push(0);
            named(&name, &[0])
        }
        7 => {
            // addresses of other lengths
            let rtype = random.pick(&[rtype::A, rtype::AAAA]);
            let length = random.pick(&[0, 3, 4, 5, 15, 16, 17]);
            let rdata = random.bytes(length);
            rooted(rtype, &rdata)
        }
        8 => {
            // names in rdata that end before, at or after its end
            let rtype = random.pick(&[rtype::PTR, rtype::SRV]);
            let numbers = if rtype == rtype::SRV { 6 } else { 0 };
            let mut rdata = vec![0; numbers];
            rdata.extend(random.pick(&[
                &b""[..],
                b"\x00",
                b"\x00\x00",
                b"\x01a\x00",
                b"\x01a",
                b"\xc0\x0c",
                b"\xc0\x0c\x00",
                b"\xc0",
                b"\xc0\x0b",
                b"\xc0\x0d",
                b"\xc0\x17",
                b"\xc0\x1c",
                b"\xc0\x1d",
                b"\x01b\xc0\x0c",
            ]));
            let mut bytes = rooted(rtype, &rdata);
            bytes.extend(random.pick(&[&b""[..], b"\x00", b"\x0c\x00"]));
            bytes
        }
        9 => {
            // TXT strings that fill the rdata or don't
            let length = random.pick(&[0, 1, 2, 255, 256, 257, 500]);
            let mut rdata = txt_of(random, length);
            match random.below(4) {
                0 => rdata.push(random.pick(&[0, 1, 255])),
                1 => {
                    rdata.pop();
                }
                _ => (),
            }
            rooted(rtype::TXT, &rdata)
        }
        10 => {
            // a pointer cut off at the end of the message
            let mut bytes = header(0, [1, 0, 0, 0]);
            bytes.extend(random.pick(&[&b"\xc0"[..], b"\x01a\xc0", b"\x01a", b"\x01", b""]));
            bytes
        }
        11 => {
            // a pointer into a type field or a TXT, where a name reads well
            let mut bytes = rooted(rtype::TXT, b"\x03\x01t\x00");
            bytes[5] = 0;
            bytes[11] = 1;
            let target = random.within(10..=40) as u8;
            bytes.extend([0xc0, target, 0, 99, 0, 3, 0x80, 0, 0, 1, 0, 0]);
            bytes
        }
        12 => chain(random),
        13 => {
            // cut in the fixed part
            let mut bytes = rooted(99, b"xyz");
            bytes.truncate(random.within(12..=26) as usize);
            bytes
        }
        14 => {
            // a pointer's first byte with other top bits
            let high = random.pick(&[0xc0, 0x80, 0x40, 0xa0]);
            named(b"\x01a\x00", &[high, 12])
        }
        15 => {
            // a second pointer that leads forwards, but not past the first
            let start = (HEADER + 11) as u8;
            let second = random.pick(&[0, 2, 4, 5]);
            let rdata = [1, b'f', 0xc0, start + second, 1, b'g', 0];
            let mut bytes = rooted(99, &rdata);
            bytes[7] += 1;
            bytes.extend([0xc0, start + random.pick(&[0, 2, 4])]);
            bytes.extend([0, 99, 0, 1, 0, 0, 0, 1, 0, 0]);
            bytes
        }
        16 => {
            // names that begin with a pointer, or with a label and one, into another
            // name; the last one follows two pointers
            let count = random.pick(&[0, 1, 2, 3, 64, 126, 127, 127]);
            let first = labelled_name(random, count);
            let whole = random.chance(50);
            let starts = (0..first.len()).filter(|at| name_starts_at(&first, *at));
            let starts: Vec<usize> = starts.map(|at| HEADER + at).collect();
            let target = if whole { HEADER } else { random.pick(&starts) };
            let mut second = Vec::new();
            if !whole && random.chance(60) {
                second.extend(b"\x02st");
            }
            second.extend((0xC000 | target as u16).to_be_bytes());
            let second_at = HEADER + first.len() + 4;
            let rtype = random.pick(&[rtype::PTR, rtype::SRV]);
            let mut rdata = vec![0; if rtype == rtype::SRV { 6 } else { 0 }];
            if !whole && random.chance(60) {
                rdata.extend(b"\x05third");
            }
            rdata.extend((0xC000 | second_at as u16).to_be_bytes());
            let mut bytes = named(&first, &second);
            bytes[7] = 1;
            let owner = random.pick(&[HEADER, second_at]);
            bytes.extend((0xC000 | owner as u16).to_be_bytes());
            bytes.extend(rtype.to_be_bytes());
            bytes.extend([0, 1, 0, 0, 0, 9, 0, rdata.len() as u8]);
            bytes.extend(rdata);
            bytes
        }
        18..=20 => {
            // an NSEC of the name at 12, with bad and good names before its bitmap
            let owner = random.pick(&[&b"\x04desk\x05local\x00"[..], b"\x01a\x00", b"\x00"]);
            let rdata_at = (HEADER + owner.len() + 4 + 12) as u8;
            let own = [0xc0, rdata_at];
            let forward = [0xc0, rdata_at + 1];
            let far = [0xc0, rdata_at + 2];
            let next: &[u8] = random.pick(&[
                owner,
                owner,
                b"\xc0\x0c",
                b"\xc0\x0c",
                b"\x04desk\xc0\x11",
                b"\x04DESK\xc0\x11",
                b"\x04desk\x05LOCAL\x00",
                b"\x01A\x00",
                b"\xc0\x11",
                b"\xc0\x0b",
                b"\xc0\x00",
                b"\xc0",
                b"\xff\xff",
                &own,
                &forward,
                &far,
                b"\x40",
                b"\xbf",
                b"\x3f",
                b"\x01b\x00",
                b"",
            ]);
            let mut rdata = [next, &window_block(random)].concat();
            if random.chance(10) {
                rdata.truncate(random.below(rdata.len() + 1));
            }
            let mut bytes = header(random.pick(&[0, 0x8400]), [1, 0, 0, 0]);
            let count_at = random.pick(&[7, 7, 9, 11]);
            bytes[count_at] = 1;
            bytes.extend(owner);
            bytes.extend([0, 1, 0, 1, 0xc0, 12, 0, 47]);
            bytes.extend(random.pick(&CLASSES).to_be_bytes());
            bytes.extend([0, 0, 0, 9, 0, rdata.len() as u8]);
            bytes.extend(rdata);
            bytes
        }
        17 => {
            // class and TTL of any kind, all six types, any section
            let mut draft = Draft {
                flags: random.pick(&[0, 0x8000, 0x8400]),
                ..Draft::default()
            };
            for _ in 0..random.below(4) {
                let section = random.below(3);
                let record = some_record(random);
                draft.sections[section].push(record);
            }
            draft.encode(random)
        }
        _ => {
            let length = 12 + random.below(40);
            let mut bytes = random.bytes(length);
            bytes[2] &= 0x87;
            bytes[3] &= 0xf0;
            for count in 2..6 {
                bytes[2 * count] = 0;
                bytes[2 * count + 1] &= 1;
            }
            bytes
        }
    }
}

pub fn some_record(random: &mut Random) -> DraftRecord {
    let rtype = random.pick(&TYPES);
    let owner = some_name(random);
    let rdata = some_rdata(random, &owner, rtype);
    let class = random.pick(&CLASSES);
    let ttl = some_ttl(random);
    DraftRecord::new(&owner, rtype, class, ttl, &rdata)
}

pub fn some_ttl(random: &mut Random) -> u32 {
    random.pick(&[
        0,
        0,
        1,
        1,
        2,
        3,
        10,
        120,
        120,
        4500,
        0x7fff_ffff,
        0x8000_0000,
        0x8000_0001,
        0xffff_ffff,
    ])
}

/// Pointers that lead to each other, then a name that points to the last.
fn chain(random: &mut Random) -> Vec<u8> {
    let links = random.pick(&[1, 2, 10, 130, 2000]);
    let mut rdata = b"\x01z\x00".to_vec();
    let start = HEADER + 11;
    for link in 0..links {
        let target = match link {
            0 => start,
            _ => start + 3 + 2 * (link - 1),
        };
        rdata.extend((0xC000 | target as u16).to_be_bytes());
    }
    let last = start + rdata.len() - 2;
    let mut bytes = rooted(99, &rdata);
    bytes[7] += 1;
    let target = last + random.pick(&[0, 0, 0, 1]);
    bytes.extend((0xC000 | target as u16).to_be_bytes());
    bytes.extend([0, 99, 0, 1, 0, 0, 0, 1, 0, 0]);
    bytes
}

/// A message of nearly the greatest length, many names of 255 bytes in it.
pub fn largest(random: &mut Random) -> Vec<u8> {
    let name = long_name(random, 255);
    let mut bytes = header(random.pick(&[0, 0x8400]), [0; 4]);
    bytes.extend(&name);
    bytes.extend([0, 255, 0, 1]);
    let mut count = 0_u16;
    while bytes.len() + 14 <= MOST_MESSAGE {
        bytes.extend([0xc0, 12, 0, 12, 0, 1, 0, 0, 0, 9, 0, 2, 0xc0, 12]);
        count += 1;
    }
    bytes[5] = 1;
    let count_at = random.pick(&[6, 8, 10]);
    bytes[count_at..count_at + 2].copy_from_slice(&count.to_be_bytes());
    bytes
}
