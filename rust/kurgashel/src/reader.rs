//! The packet reader.

use std::mem::MaybeUninit;
use std::net::{Ipv4Addr, Ipv6Addr};
use std::ops::Range;

use crate::Refusal;

#[repr(C)]
struct Sections {
    refusal: u8,
    id: u16,
    flags: u16,
    counts: [u16; 4],
    at: [usize; 4],
    end: usize,
}

#[repr(C)]
struct QuestionAt {
    found: bool,
    rtype: u16,
    class: u16,
    name: usize,
    name_length: usize,
    name_labels: usize,
    name_first_label: usize,
    next: usize,
}

#[repr(C)]
struct RecordAt {
    found: bool,
    rtype: u16,
    class: u16,
    ttl: u32,
    owner: usize,
    owner_length: usize,
    owner_labels: usize,
    owner_first_label: usize,
    rdata: usize,
    rdata_length: usize,
    next: usize,
}

#[repr(C)]
struct FieldsAt {
    found: bool,
    rtype: u16,
    class: u16,
    ttl: u32,
    rdata: usize,
    rdata_length: usize,
    next: usize,
}

#[repr(C)]
struct AddressBytes {
    length: usize,
    bytes: [u8; 16],
}

#[repr(C)]
struct SrvAt {
    found: bool,
    priority: u16,
    weight: u16,
    port: u16,
    target: usize,
    target_length: usize,
    target_labels: usize,
    target_first_label: usize,
}

#[repr(C)]
struct NsecAt {
    found: bool,
    next: usize,
    next_length: usize,
    next_labels: usize,
    next_first_label: usize,
    block: usize,
    block_length: usize,
}

#[repr(C)]
struct StringAt {
    refusal: u8,
    found: bool,
    text: usize,
    length: usize,
    next: usize,
}

#[repr(C)]
struct NameSpan {
    end: usize,
    length: usize,
    labels: usize,
    first_label: usize,
}

/// The most bytes that a name has.
const MOST_NAME: usize = 255;

/// An uncompressed name.
#[derive(Clone, Copy)]
pub struct Name {
    length: u8,
    labels: u8,
    first_label: u8,
    bytes: [u8; MOST_NAME],
}

extern "C" {
    fn kurgashel_message(message: *const u8, message_bytes: usize) -> Sections;
    fn kurgashel_message_refusal(message: *const u8, message_bytes: usize) -> u8;
    fn kurgashel_question(message: *const u8, message_bytes: usize, at: usize) -> QuestionAt;
    fn kurgashel_record(message: *const u8, message_bytes: usize, at: usize) -> RecordAt;
    fn kurgashel_fields(message: *const u8, message_bytes: usize, end: usize) -> FieldsAt;
    fn kurgashel_address(
        message: *const u8,
        message_bytes: usize,
        rtype: u16,
        rdata: usize,
        rdata_length: usize,
    ) -> AddressBytes;
    fn kurgashel_srv(
        message: *const u8,
        message_bytes: usize,
        rdata: usize,
        rdata_length: usize,
    ) -> SrvAt;
    fn kurgashel_nsec(
        message: *const u8,
        message_bytes: usize,
        owner: usize,
        rdata: usize,
        rdata_length: usize,
    ) -> NsecAt;
    fn kurgashel_nsec_names(block: *const u8, block_bytes: usize, rtype: u16) -> bool;
    fn kurgashel_txt_string(txt: *const u8, txt_bytes: usize, at: usize) -> StringAt;
    fn kurgashel_name_into(
        message: *const u8,
        message_bytes: usize,
        at: usize,
        out: *mut u8,
        out_bytes: usize,
    ) -> NameSpan;
    fn kurgashel_name_end(message: *const u8, message_bytes: usize, at: usize) -> usize;
    fn kurgashel_name_length(message: *const u8, message_bytes: usize, at: usize) -> usize;
}

/// A message that was read: its questions and records are found without a further test.
pub struct Message<'a> {
    bytes: &'a [u8],
    sections: Sections,
}

/// A section of records.
#[derive(Clone, Copy, Debug, PartialEq, Eq)]
pub enum Section {
    /// Answers.
    Answer,
    /// Authority records.
    Authority,
    /// Additional records.
    Additional,
}

/// A question.
pub struct Question {
    /// Its name.
    pub name: Name,
    /// Its type.
    pub rtype: u16,
    /// Its class as on the wire, with the unicast bit.
    pub class: u16,
}

/// A record.
// It lies in whole cache lines, by which it is copied; and type and class, which are read one by one, lie apart, so that neither is waited for to copy both.
#[repr(C, align(64))]
pub struct Record<'a> {
    /// What the rdata says.
    pub data: Data<'a>,
    /// Its owner.
    pub owner: Name,
    /// Its type.
    pub rtype: u16,
    /// Its TTL as it counts: 0 where the top bit is set.
    pub ttl: u32,
    /// Its class as on the wire, with the cache flush bit.
    pub class: u16,
    /// Its rdata, a part of the message.
    pub rdata: &'a [u8],
}

/// What the rdata of a record says.
pub enum Data<'a> {
    /// The address of an A.
    A(Ipv4Addr),
    /// The address of an AAAA.
    Aaaa(Ipv6Addr),
    /// The name that a PTR points to.
    Ptr(Name),
    /// A TXT.
    Txt(Strings<'a>),
    /// Where a service is.
    Srv(Srv),
    /// Which types a name has: an NSEC of the restricted kind (RFC 6762 section 6.1).
    Nsec(Nsec<'a>),
    /// The bytes of another type, and of any other NSEC.
    Other(&'a [u8]),
}

/// An SRV.
#[derive(Clone, Copy)]
pub struct Srv {
    /// The target with the lowest is to be tried first.
    pub priority: u16,
    /// The share of this target among those of the same priority.
    pub weight: u16,
    /// The port of the service.
    pub port: u16,
    /// The host's name.
    pub target: Name,
}

/// An NSEC of the restricted kind.
#[derive(Clone, Copy)]
pub struct Nsec<'a> {
    /// Its next name, which is the owner's, perhaps in other letters.
    pub next: Name,
    /// Its window block: a zero byte, a length and so many bytes of bits.
    pub block: &'a [u8],
}

/// The strings of a TXT, each a part of it. A string that runs past the TXT's end, which no message that was read has, ends them.
#[derive(Clone, Copy)]
pub struct Strings<'a> {
    txt: &'a [u8],
    at: usize,
}

const A: u16 = 1;
const PTR: u16 = 12;
const TXT: u16 = 16;
const AAAA: u16 = 28;
const SRV: u16 = 33;
const NSEC: u16 = 47;

impl Name {
    /// The name at an offset of a message, uncompressed, if it is well formed.
    pub fn read(message: &[u8], at: usize) -> Option<Name> {
        let mut name = Name::none();
        (name.fill(message, at) != 0).then_some(name)
    }

    /// Its bytes on the wire: each label behind its length byte, and a zero byte.
    pub fn as_bytes(&self) -> &[u8] {
        &self.bytes[..self.length.into()]
    }

    /// How many labels it has: 0 to 127, and 0 for the root alone.
    pub fn labels(&self) -> usize {
        self.labels.into()
    }

    /// Its first label, such as the instance in the name of one: 1 to 63 bytes, and none for the root.
    pub fn first_label(&self) -> &[u8] {
        &self.as_bytes()[1..1 + usize::from(self.first_label)]
    }

    /// No name yet: its bytes are zeros, over which one is written.
    #[inline]
    fn none() -> Name {
        Name {
            length: 0,
            labels: 0,
            first_label: 0,
            bytes: [0; MOST_NAME],
        }
    }

    /// Makes it the name at an offset of a message, in place, and gives the offset past it: 0 where that is malformed, and it is then no name.
    #[inline]
    fn fill(&mut self, message: &[u8], at: usize) -> usize {
        let out = self.bytes.as_mut_ptr();
        // SAFETY: each pointer and length are those of one slice, and the message is only read; so in all calls below.
        let span =
            unsafe { kurgashel_name_into(message.as_ptr(), message.len(), at, out, MOST_NAME) };
        self.length = span.length as u8;
        self.labels = span.labels as u8;
        self.first_label = span.first_label as u8;
        span.end
    }
}

impl Srv {
    /// The SRV in the rdata that is a part of a message, if it is well formed.
    pub fn read(message: &[u8], rdata: Range<usize>) -> Option<Srv> {
        let (mut srv, target) = Srv::found(message, rdata)?;
        (srv.target.fill(message, target) != 0).then_some(srv)
    }

    /// The same without its target, and where that starts.
    #[inline]
    fn found(message: &[u8], rdata: Range<usize>) -> Option<(Srv, usize)> {
        let (bytes, length) = (message.as_ptr(), rdata.len());
        let srv = unsafe { kurgashel_srv(bytes, message.len(), rdata.start, length) };
        let found = Srv {
            priority: srv.priority,
            weight: srv.weight,
            port: srv.port,
            target: Name::none(),
        };
        srv.found.then_some((found, srv.target))
    }
}

impl<'a> Nsec<'a> {
    /// The NSEC in the rdata that is a part of a message, for the owner at an offset, if it is of the restricted kind.
    pub fn read(message: &'a [u8], owner: usize, rdata: Range<usize>) -> Option<Nsec<'a>> {
        let (mut nsec, next) = Nsec::found(message, owner, rdata)?;
        (nsec.next.fill(message, next) != 0).then_some(nsec)
    }

    /// The same without its next name, and where that starts.
    #[inline]
    fn found(message: &'a [u8], owner: usize, rdata: Range<usize>) -> Option<(Nsec<'a>, usize)> {
        let (bytes, length) = (message.as_ptr(), rdata.len());
        let nsec = unsafe { kurgashel_nsec(bytes, message.len(), owner, rdata.start, length) };
        if !nsec.found {
            return None;
        }
        let found = Nsec {
            next: Name::none(),
            block: &message[nsec.block..nsec.block + nsec.block_length],
        };
        Some((found, nsec.next))
    }

    /// Whether it says that the name has records of a type. A type that it does not name does not exist there.
    pub fn names(&self, rtype: u16) -> bool {
        unsafe { kurgashel_nsec_names(self.block.as_ptr(), self.block.len(), rtype) }
    }

    /// The types that it names, in rising order.
    pub fn types(&self) -> impl Iterator<Item = u16> + '_ {
        (0..256).filter(|&rtype| self.names(rtype))
    }
}

impl<'a> Strings<'a> {
    /// The strings of a TXT.
    pub fn of(txt: &'a [u8]) -> Strings<'a> {
        Strings { txt, at: 0 }
    }
}

impl<'a> Iterator for Strings<'a> {
    type Item = &'a [u8];

    fn next(&mut self) -> Option<&'a [u8]> {
        let string = unsafe { kurgashel_txt_string(self.txt.as_ptr(), self.txt.len(), self.at) };
        if !string.found {
            return None;
        }
        self.at = string.next;
        Some(&self.txt[string.text..string.text + string.length])
    }
}

impl<'a> Data<'a> {
    /// What the rdata of a type says that is a part of a message, if it is as its type asks, of a record whose owner stands at an offset. Strings of a TXT are
    /// read one by one.
    pub fn read(
        rtype: u16,
        message: &'a [u8],
        owner: usize,
        rdata: Range<usize>,
    ) -> Option<Data<'a>> {
        let mut data = Data::Other(&[]);
        data.fill(rtype, message, owner, rdata).then_some(data)
    }

    /// Makes it the same, in place, if the rdata is as its type asks; whether it is.
    fn fill(&mut self, rtype: u16, message: &'a [u8], owner: usize, rdata: Range<usize>) -> bool {
        let Some(part) = message.get(rdata.clone()) else {
            return false;
        };
        *self = Data::Other(part);
        match rtype {
            A => match address::<4>(rtype, message, rdata) {
                Some(address) => *self = Data::A(address.into()),
                None => return false,
            },
            AAAA => match address::<16>(rtype, message, rdata) {
                Some(address) => *self = Data::Aaaa(address.into()),
                None => return false,
            },
            PTR => {
                *self = Data::Ptr(Name::none());
                return self.fill_target(message, rdata.start) == rdata.end;
            }
            TXT => *self = Data::Txt(Strings::of(part)),
            SRV => {
                let Some((srv, target)) = Srv::found(message, rdata) else {
                    return false;
                };
                *self = Data::Srv(srv);
                return self.fill_target(message, target) != 0;
            }
            NSEC => {
                if let Some((nsec, next)) = Nsec::found(message, owner, rdata) {
                    *self = Data::Nsec(nsec);
                    return self.fill_target(message, next) != 0;
                }
            }
            _ => {}
        }
        true
    }

    /// Makes the name in it the one at an offset, and gives the offset past that, or 0.
    #[inline]
    fn fill_target(&mut self, message: &[u8], at: usize) -> usize {
        match self {
            Data::Ptr(name) => name.fill(message, at),
            Data::Srv(srv) => srv.target.fill(message, at),
            Data::Nsec(nsec) => nsec.next.fill(message, at),
            _ => 0,
        }
    }

    /// What the rdata of a type says in which names are uncompressed, such as that of a cache. The owner of an NSEC is taken to be its next name.
    pub fn of(rtype: u16, rdata: &'a [u8]) -> Option<Data<'a>> {
        Data::read(rtype, rdata, 0, 0..rdata.len())
    }

    /// The name in a PTR, an SRV or an NSEC.
    pub fn target(&self) -> Option<&Name> {
        match self {
            Data::Ptr(name) => Some(name),
            Data::Srv(srv) => Some(&srv.target),
            Data::Nsec(nsec) => Some(&nsec.next),
            _ => None,
        }
    }
}

impl<'a> Message<'a> {
    /// Reads a message, or says why it is refused. The source port is the caller's to test.
    pub fn read(bytes: &'a [u8]) -> Result<Message<'a>, Refusal> {
        let sections = unsafe { kurgashel_message(bytes.as_ptr(), bytes.len()) };
        Refusal::check(sections.refusal)?;
        Ok(Message { bytes, sections })
    }

    /// The header's ID.
    pub fn id(&self) -> u16 {
        self.sections.id
    }

    /// The header's flags.
    pub fn flags(&self) -> u16 {
        self.sections.flags
    }

    /// The offset past the last record.
    pub fn end(&self) -> usize {
        self.sections.end
    }

    /// The questions.
    #[inline]
    pub fn questions(&self) -> impl Iterator<Item = Question> + '_ {
        Walk {
            message: self.bytes,
            at: self.sections.at[0],
            left: self.sections.counts[0],
            item: MaybeUninit::uninit(),
            read: read_question,
        }
    }

    /// The records of a section.
    #[inline]
    pub fn records(&self, section: Section) -> impl Iterator<Item = Record<'a>> + '_ {
        let index = section as usize + 1;
        Walk {
            message: self.bytes,
            at: self.sections.at[index],
            left: self.sections.counts[index],
            item: MaybeUninit::uninit(),
            read: read_record,
        }
    }

    /// Where the records of a section start, and where their rdata lies.
    pub(crate) fn places(
        &self,
        section: Section,
    ) -> impl Iterator<Item = (usize, Range<usize>)> + '_ {
        let index = section as usize + 1;
        let mut at = self.sections.at[index];
        (0..self.sections.counts[index]).map_while(move |_| {
            let r = unsafe { kurgashel_record(self.bytes.as_ptr(), self.bytes.len(), at) };
            let start = std::mem::replace(&mut at, r.next);
            r.found.then(|| (start, r.rdata..r.rdata + r.rdata_length))
        })
    }

    /// The bytes that were read.
    pub(crate) fn bytes(&self) -> &'a [u8] {
        self.bytes
    }
}

/// A section that is walked: `left` items from `at` on. Each is read into one place, so that its names are expanded where they stay, and copied from there
/// once. `read` says whether one was found, and moves `at` past it.
struct Walk<'a, T, R> {
    message: &'a [u8],
    at: usize,
    left: u16,
    item: MaybeUninit<T>,
    read: R,
}

impl<'a, T, R> Iterator for Walk<'a, T, R>
where
    R: Fn(&'a [u8], &mut usize, &mut MaybeUninit<T>) -> bool,
{
    type Item = T;

    #[inline]
    fn next(&mut self) -> Option<T> {
        if self.left == 0 {
            return None;
        }
        self.left -= 1;
        if !(self.read)(self.message, &mut self.at, &mut self.item) {
            return None;
        }
        // SAFETY: it was read just now, and nothing of it is dropped.
        Some(unsafe { self.item.assume_init_read() })
    }
}

fn read_question(message: &[u8], at: &mut usize, item: &mut MaybeUninit<Question>) -> bool {
    let q = unsafe { kurgashel_question(message.as_ptr(), message.len(), *at) };
    if !q.found {
        return false;
    }
    let question = item.write(Question {
        name: Name::none(),
        rtype: q.rtype,
        class: q.class,
    });
    question.name.fill(message, q.name);
    *at = q.next;
    true
}

fn read_record<'a>(message: &'a [u8], at: &mut usize, item: &mut MaybeUninit<Record<'a>>) -> bool {
    let (start, record) = (*at, item.as_mut_ptr());
    // SAFETY: of the record each field is written before it is read.
    unsafe {
        (&raw mut (*record).owner).write(Name::none());
        let end = (*record).owner.fill(message, start);
        let fields = kurgashel_fields(message.as_ptr(), message.len(), end);
        if end == 0 || !fields.found {
            return false;
        }
        let rdata = fields.rdata..fields.rdata + fields.rdata_length;
        *at = fields.next;
        (*record).rtype = fields.rtype;
        (*record).ttl = fields.ttl;
        (*record).class = fields.class;
        (&raw mut (*record).rdata).write(&message[rdata.clone()]);
        (&raw mut (*record).data).write(Data::Other(&[]));
        (*record).data.fill(fields.rtype, message, start, rdata)
    }
}

/// The address of a type in the rdata that is a part of a message, if it has so many bytes.
fn address<const N: usize>(rtype: u16, message: &[u8], rdata: Range<usize>) -> Option<[u8; N]> {
    let (bytes, length) = (message.as_ptr(), rdata.len());
    let found = unsafe { kurgashel_address(bytes, message.len(), rtype, rdata.start, length) };
    found.bytes[..found.length].try_into().ok()
}

/// Whether a message is well formed, or why not. The source port is the caller's to test.
pub fn message_refusal(message: &[u8]) -> Result<(), Refusal> {
    Refusal::check(unsafe { kurgashel_message_refusal(message.as_ptr(), message.len()) })
}

/// The offset past the name at an offset of a message, if it is well formed.
pub fn name_end(message: &[u8], at: usize) -> Option<usize> {
    let end = unsafe { kurgashel_name_end(message.as_ptr(), message.len(), at) };
    (end != 0).then_some(end)
}

/// The uncompressed length of the name at an offset of a message, if it is well formed.
pub fn name_length(message: &[u8], at: usize) -> Option<usize> {
    let length = unsafe { kurgashel_name_length(message.as_ptr(), message.len(), at) };
    (length != 0).then_some(length)
}
