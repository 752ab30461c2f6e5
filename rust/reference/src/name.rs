//! Names: "labels of 1..63 bytes and a zero byte, at most 255 bytes
//! uncompressed", with pointers; equality and suffixes.

use crate::refusal::Refusal;

pub const MOST_NAME: usize = 255;
const MOST_LABEL: u8 = 63;
const POINTER: u8 = 0xC0;
/// "its target must be at least 12"
const LEAST_TARGET: usize = 12;

/// An uncompressed name, length bytes and zero byte included, and its labels.
#[derive(Clone, Debug)]
pub struct Name {
    wire: Vec<u8>,
    labels: Labels,
}

/// How many labels a name has and how long its first one is; the zero byte is
/// no label, so both are 0 for the root.
#[derive(Clone, Copy, Debug, Default, PartialEq, Eq)]
pub struct Labels {
    pub count: usize,
    pub first: usize,
}

impl Labels {
    /// Counts one more label behind those counted.
    fn add(&mut self, length: usize) {
        if self.count == 0 {
            self.first = length;
        }
        self.count += 1;
    }
}

/// One step of a walk over a name.
enum Piece {
    Root,
    Label(usize),
    Pointer(usize),
}

/// What stands at `at`, where a label starts, in the run that began at `run`.
#[inline]
fn piece(message: &[u8], run: usize, at: usize) -> Result<Piece, Refusal> {
    match *message.get(at).ok_or(Refusal::Malformed)? {
        0 => Ok(Piece::Root),
        length @ 1..=MOST_LABEL => Ok(Piece::Label(usize::from(length))),
        high @ POINTER.. => {
            let low = *message.get(at + 1).ok_or(Refusal::Malformed)?;
            let target = usize::from(u16::from_be_bytes([high & !POINTER, low]));
            // "at least 12 and lie before the start of the run of labels that led to it"
            if (LEAST_TARGET..run).contains(&target) {
                Ok(Piece::Pointer(target))
            } else {
                Err(Refusal::Malformed)
            }
        }
        // "A byte 0x40..0xBF where a label starts"
        _ => Err(Refusal::Malformed),
    }
}

/// Checks the name at `start` and gives the offset just after it in place:
/// after its zero byte or its first pointer.
pub fn name_end(message: &[u8], start: usize) -> Result<usize, Refusal> {
    let (mut run, mut at) = (start, start);
    let mut end = None;
    let mut length = 1; // the zero byte
    loop {
        match piece(message, run, at)? {
            Piece::Root => return Ok(end.unwrap_or(at + 1)),
            Piece::Label(label) => {
                length += 1 + label;
                if length > MOST_NAME {
                    return Err(Refusal::Malformed);
                }
                at += 1 + label;
            }
            Piece::Pointer(target) => {
                end.get_or_insert(at + 2);
                run = target;
                at = target;
            }
        }
    }
}

impl Name {
    pub fn from_labels(labels: &[&[u8]]) -> Name {
        let mut wire = Vec::with_capacity(MOST_NAME);
        let mut counted = Labels::default();
        for label in labels {
            wire.push(label.len() as u8);
            wire.extend_from_slice(label);
            counted.add(label.len());
        }
        wire.push(0);
        Name {
            wire,
            labels: counted,
        }
    }

    /// Reads and expands the name at `start` and counts its labels, those that
    /// pointers lead to like the others; also gives its end in place.
    pub fn read(message: &[u8], start: usize) -> Result<(Name, usize), Refusal> {
        let mut wire = [0; MOST_NAME];
        let (mut run, mut at) = (start, start);
        let mut end = None;
        let mut length = 0;
        let mut labels = Labels::default();
        loop {
            match piece(message, run, at)? {
                Piece::Root => {
                    let wire = wire[..=length].to_vec();
                    return Ok((Name { wire, labels }, end.unwrap_or(at + 1)));
                }
                Piece::Label(label) => {
                    let next = length + 1 + label;
                    if next + 1 > MOST_NAME {
                        return Err(Refusal::Malformed);
                    }
                    let bytes = message.get(at..=at + label).ok_or(Refusal::Malformed)?;
                    wire[length..next].copy_from_slice(bytes);
                    labels.add(label);
                    length = next;
                    at += 1 + label;
                }
                Piece::Pointer(target) => {
                    end.get_or_insert(at + 2);
                    run = target;
                    at = target;
                }
            }
        }
    }

    /// A looked-up name: "A pointer in that name, or bytes past its zero byte,
    /// is malformed."
    pub fn from_wire(wire: &[u8]) -> Result<Name, Refusal> {
        let mut at = 0;
        let mut labels = Labels::default();
        loop {
            match *wire.get(at).ok_or(Refusal::Malformed)? {
                0 => break,
                length @ 1..=MOST_LABEL => {
                    labels.add(usize::from(length));
                    at += 1 + usize::from(length);
                }
                _ => return Err(Refusal::Malformed),
            }
        }
        if at + 1 == wire.len() && wire.len() <= MOST_NAME {
            let wire = wire.to_vec();
            Ok(Name { wire, labels })
        } else {
            Err(Refusal::Malformed)
        }
    }

    pub fn wire(&self) -> &[u8] {
        &self.wire
    }

    pub fn labels(&self) -> Labels {
        self.labels
    }

    pub fn into_wire(self) -> Vec<u8> {
        self.wire
    }

    /// "Names are equal with ASCII letters folded and nothing else." Length
    /// bytes are at most 63, below any letter, so they may be folded along.
    pub fn equals(&self, other: &Name) -> bool {
        self.wire.eq_ignore_ascii_case(&other.wire)
    }

    /// The suffixes of whole labels, longest first, each with its offset in
    /// the name; the root alone is not among them.
    pub fn suffixes(&self) -> impl Iterator<Item = (usize, &[u8])> {
        let mut at = 0;
        std::iter::from_fn(move || {
            let start = at;
            let length = self.wire[start];
            at += 1 + usize::from(length);
            (length != 0).then(|| (start, &self.wire[start..]))
        })
    }
}

#[cfg(test)]
mod tests {
    use super::*;

    /// Twelve header bytes, then `bytes`.
    fn after_header(bytes: &[u8]) -> Vec<u8> {
        [&[0; 12], bytes].concat()
    }

    fn read(bytes: &[u8], at: usize) -> Option<(Vec<u8>, usize)> {
        let message = after_header(bytes);
        let read = Name::read(&message, at);
        assert_eq!(
            read.as_ref().map(|(_, end)| *end).ok(),
            name_end(&message, at).ok()
        );
        read.ok().map(|(name, end)| (name.wire().to_vec(), end))
    }

    /// Labels that make an uncompressed name of `length` bytes, zero byte included.
    fn long(length: usize) -> Vec<u8> {
        let mut wire = Vec::new();
        let mut left = length - 1;
        while left > 0 {
            let mut label = left.min(64);
            if left - label == 1 {
                label -= 1;
            }
            wire.push(label as u8 - 1);
            wire.extend(vec![b'x'; label - 1]);
            left -= label;
        }
        wire.push(0);
        wire
    }

    #[test]
    fn plain_names_and_the_root() {
        assert_eq!(read(&[0], 12), Some((vec![0], 13)));
        assert_eq!(
            read(b"\x04dock\x05local\x00", 12),
            Some((b"\x04dock\x05local\x00".to_vec(), 24))
        );
    }

    #[test]
    fn pointers_are_followed_and_end_the_name_in_place() {
        let bytes = b"\x05local\x00\x04dock\xc0\x0c\xc0\x13";
        assert_eq!(
            read(bytes, 19),
            Some((b"\x04dock\x05local\x00".to_vec(), 26))
        );
        assert_eq!(
            read(bytes, 26),
            Some((b"\x04dock\x05local\x00".to_vec(), 28))
        );
        // pointer to pointer
        assert_eq!(read(b"\x01a\x00\xc0\x0c\xc0\x0f", 17).unwrap().1, 19);
    }

    #[test]
    fn bad_pointers() {
        // pointer at 12 to 12
        assert_eq!(read(&[0xc0, 12], 12), None);
        // below 12
        assert_eq!(read(&[0xc0, 11], 12), None);
        assert_eq!(read(&[0xc0, 0], 12), None);
        // forwards
        assert_eq!(read(&[0xc0, 14, 0], 12), None);
        // into its own run, in the middle of a label
        assert_eq!(read(&[5, 0x78, 1, 0x61, 0, 0x79, 0xc0, 0x0e, 0], 12), None);
        // one byte of pointer at the end
        assert_eq!(read(&[0, 0xc0], 13), None);
        // after a jump the run starts at the target
        assert_eq!(read(&[1, 0x61, 0xc0, 12, 0xc0, 12], 16), None);
    }

    /// The labels of the name at `at`, the same of its expanded bytes.
    fn labels(bytes: &[u8], at: usize) -> (usize, usize) {
        let name = Name::read(&after_header(bytes), at).unwrap().0;
        let plain = Name::from_wire(name.wire()).unwrap();
        assert_eq!(name.labels(), plain.labels());
        (name.labels().count, name.labels().first)
    }

    #[test]
    fn labels_are_counted_and_the_first_one_measured() {
        assert_eq!(labels(&[0], 12), (0, 0));
        assert_eq!(labels(b"\x04dock\x00", 12), (1, 4));
        assert_eq!(
            labels(&[[1, b'a'].repeat(127), vec![0]].concat(), 12),
            (127, 1)
        );
        let bytes =
            b"\x05booth\x03tea\x00\xc0\x0c\xc0\x12\xc0\x16\x02xy\xc0\x12\x01z\xc0\x1d\xc0\x1d";
        // a name that begins with a pointer has the first label of what it points to
        assert_eq!(labels(bytes, 23), (2, 5));
        // into the middle of a name, and to its zero byte
        assert_eq!(labels(bytes, 25), (1, 3));
        assert_eq!(labels(bytes, 27), (0, 0));
        // labels before and behind one pointer and two, and behind two alone
        assert_eq!(labels(bytes, 29), (2, 2));
        assert_eq!(labels(bytes, 34), (3, 1));
        assert_eq!(labels(bytes, 38), (2, 2));
        let name = Name::from_labels(&[b"dock", b"local"]).labels();
        assert_eq!((name.count, name.first), (2, 4));
    }

    #[test]
    fn label_bytes_and_overruns() {
        for length in 0x40..=0xbf_u8 {
            let mut bytes = vec![length];
            bytes.extend(vec![0; 256]);
            assert_eq!(read(&bytes, 12), None);
        }
        assert_eq!(read(&[], 12), None);
        assert_eq!(read(b"\x01", 12), None);
        assert_eq!(read(b"\x01a", 12), None);
        assert_eq!(read(b"\x05a\x00", 12), None);
    }

    #[test]
    fn at_most_255_bytes() {
        for length in 250..=255 {
            assert_eq!(long(length).len(), length);
            assert_eq!(read(&long(length), 12), Some((long(length), 12 + length)));
            assert!(Name::from_wire(&long(length)).is_ok());
        }
        for length in 256..=260 {
            assert_eq!(read(&long(length), 12), None);
            assert!(Name::from_wire(&long(length)).is_err());
        }
        // over a pointer too: 253 + 2 = 255 bytes, then 256
        let mut bytes = long(253);
        bytes.extend([1, b'a', 0xc0, 12, 2, b'a', b'b', 0xc0, 12]);
        assert_eq!(read(&bytes, 12 + 253).unwrap().0.len(), 255);
        assert_eq!(read(&bytes, 12 + 257), None);
    }

    #[test]
    fn looked_up_names() {
        assert!(Name::from_wire(&[0]).is_ok());
        assert!(Name::from_wire(&[]).is_err());
        assert!(Name::from_wire(&[0, 0]).is_err());
        assert!(Name::from_wire(&[1, b'a', 0xc0, 12]).is_err());
        assert!(Name::from_wire(&[1, b'a']).is_err());
        assert!(Name::from_wire(&[0x40, 0]).is_err());
    }

    #[test]
    fn only_ascii_letters_fold() {
        let name = |label: &[u8]| Name::from_labels(&[label]);
        assert!(name(b"Dock").equals(&name(b"dOCK")));
        assert!(!name(b"a[").equals(&name(b"a{")));
        assert!(!name(b"@").equals(&name(b"`")));
        assert!(!name("É".as_bytes()).equals(&name("é".as_bytes())));
        assert!(!name(b"a").equals(&name(b"ab")));
    }

    #[test]
    fn suffixes_leave_out_the_root() {
        let name = Name::from_labels(&[b"a", b"bc"]);
        let all: Vec<_> = name.suffixes().collect();
        assert_eq!(all, [(0, &b"\x01a\x02bc\x00"[..]), (2, &b"\x02bc\x00"[..])]);
    }
}
