//! The name and record side of a discovery proxy (RFC 8766): names and records between a link, where names end in "local", and unicast DNS.

use crate::cache::Entry;
use crate::{Cache, Message, Name, Refusal, Section};

#[repr(C)]
struct QuestionNumbers {
    refusal: u8,
    negative: bool,
    length: usize,
    name: [u8; 255],
}

#[repr(C)]
struct RecordNumbers {
    refusal: u8,
    passed: bool,
    named: bool,
    rtype: u16,
    class: u16,
    ttl: u32,
    owner_length: usize,
    rdata_length: usize,
    owner: [u8; 255],
    rdata: [u8; 261],
}

extern "C" {
    fn kurgashel_proxy_refusal(
        rich: *const u8,
        rich_bytes: usize,
        ldh: *const u8,
        ldh_bytes: usize,
    ) -> u8;
    fn kurgashel_proxy_question(
        rich: *const u8,
        rich_bytes: usize,
        ldh: *const u8,
        ldh_bytes: usize,
        name: *const u8,
        name_bytes: usize,
        rtype: u16,
    ) -> QuestionNumbers;
    fn kurgashel_proxy_record(
        rich: *const u8,
        rich_bytes: usize,
        ldh: *const u8,
        ldh_bytes: usize,
        message: *const u8,
        message_bytes: usize,
        at: usize,
    ) -> RecordNumbers;
    #[allow(clippy::too_many_arguments)]
    fn kurgashel_proxy_plain_record(
        rich: *const u8,
        rich_bytes: usize,
        ldh: *const u8,
        ldh_bytes: usize,
        owner: *const u8,
        owner_bytes: usize,
        rtype: u16,
        class: u16,
        ttl: u32,
        rdata: *const u8,
        rdata_bytes: usize,
    ) -> RecordNumbers;
    #[allow(clippy::too_many_arguments)]
    fn kurgashel_proxy_cached(
        rich: *const u8,
        rich_bytes: usize,
        ldh: *const u8,
        ldh_bytes: usize,
        now: u64,
        entry: Entry,
        slot: *const u8,
        slot_bytes: usize,
    ) -> RecordNumbers;
}

/// What becomes of a unicast question. Nothing is allocated: a name goes by value.
#[allow(clippy::large_enum_variant)]
#[derive(Clone, Copy)]
pub enum Asked {
    /// It is asked on the link, by this name: one under a domain ends in "local" there, any other stays as it is.
    Name(Name),
    /// It is answered negatively at once, as SOA, NS and DS below a domain are.
    Negative,
}

/// A record that is passed on to unicast DNS. Its names are uncompressed.
#[derive(Clone, Copy)]
pub struct Passed<'a> {
    /// Its owner.
    pub owner: Name,
    /// Its type: A, PTR, TXT, AAAA or SRV.
    pub rtype: u16,
    /// Its class, without the cache flush bit.
    pub class: u16,
    /// Its TTL, at most 10.
    pub ttl: u32,
    /// Its rdata where that holds a name, mapped.
    mapped: [u8; 261],
    mapped_length: usize,
    /// Its rdata where that holds none: where it lies.
    lying: Option<&'a [u8]>,
}

impl Passed<'_> {
    /// Its rdata.
    pub fn rdata(&self) -> &[u8] {
        self.lying.unwrap_or(&self.mapped[..self.mapped_length])
    }
}

/// A proxy: the two domains that names under "local" go to, and that questions come for.
///
/// ```
/// use kurgashel::{Asked, Proxy};
///
/// let proxy = Proxy::new(b"\x04rich\x07example\0", b"\x03ldh\x07example\0").expect("two domains");
/// let Ok(Asked::Name(name)) = proxy.question(b"\x04dock\x03ldh\x07example\0", 1) else { panic!() };
/// assert_eq!(name.as_bytes(), b"\x04dock\x05local\0");
/// let record = proxy.plain_record(b"\x04dock\x05local\0", 1, 0x8001, 120, &[10, 0, 0, 7]).expect("it fits").expect("an A");
/// assert_eq!(record.owner.as_bytes(), b"\x04dock\x03ldh\x07example\0");
/// assert_eq!((record.class, record.ttl, record.rdata()), (1, 10, &[10, 0, 0, 7][..]));
/// ```
#[derive(Clone, Debug, PartialEq, Eq)]
pub struct Proxy {
    rich: Vec<u8>,
    ldh: Vec<u8>,
}

impl Proxy {
    /// A proxy of two domains (uncompressed, in wire form): one for rich text, one of letters, digits and hyphens. They are not equal, and neither lies under
    /// the other, else it is [`Refusal::Setup`].
    pub fn new(rich: &[u8], ldh: &[u8]) -> Result<Proxy, Refusal> {
        // SAFETY: here and below each pointer and count are those of one slice, and nothing is written.
        Refusal::check(unsafe {
            kurgashel_proxy_refusal(rich.as_ptr(), rich.len(), ldh.as_ptr(), ldh.len())
        })?;
        Ok(Proxy {
            rich: rich.to_vec(),
            ldh: ldh.to_vec(),
        })
    }

    /// What becomes of a unicast question for a name (uncompressed, in wire form) and a type. [`Refusal::TooLong`] is of this question alone.
    pub fn question(&self, name: &[u8], rtype: u16) -> Result<Asked, Refusal> {
        let (rich, ldh) = (&self.rich, &self.ldh);
        let q = unsafe {
            kurgashel_proxy_question(
                rich.as_ptr(),
                rich.len(),
                ldh.as_ptr(),
                ldh.len(),
                name.as_ptr(),
                name.len(),
                rtype,
            )
        };
        Refusal::check(q.refusal)?;
        if q.negative {
            return Ok(Asked::Negative);
        }
        let name = Name::read(&q.name[..q.length], 0).ok_or(Refusal::Malformed)?;
        Ok(Asked::Name(name))
    }

    /// What becomes of the records of a section of a message, in order: passed on, left out, or refused. [`Refusal::TooLong`] is of one record alone.
    pub fn records<'a: 'b, 'b>(
        &'b self,
        message: &'b Message<'a>,
        section: Section,
    ) -> impl Iterator<Item = Result<Option<Passed<'a>>, Refusal>> + 'b {
        message.places(section).map(|(at, rdata)| {
            let (rich, ldh, bytes) = (&self.rich, &self.ldh, message.bytes());
            let r = unsafe {
                kurgashel_proxy_record(
                    rich.as_ptr(),
                    rich.len(),
                    ldh.as_ptr(),
                    ldh.len(),
                    bytes.as_ptr(),
                    bytes.len(),
                    at,
                )
            };
            passed(r, &bytes[rdata])
        })
    }

    /// What becomes of a record of which owner and rdata are uncompressed: none where it is left out.
    pub fn plain_record<'a>(
        &self,
        owner: &[u8],
        rtype: u16,
        class: u16,
        ttl: u32,
        rdata: &'a [u8],
    ) -> Result<Option<Passed<'a>>, Refusal> {
        let (rich, ldh) = (&self.rich, &self.ldh);
        let r = unsafe {
            kurgashel_proxy_plain_record(
                rich.as_ptr(),
                rich.len(),
                ldh.as_ptr(),
                ldh.len(),
                owner.as_ptr(),
                owner.len(),
                rtype,
                class,
                ttl,
                rdata.as_ptr(),
                rdata.len(),
            )
        };
        passed(r, rdata)
    }

    /// What becomes of the record in a slot of a cache ([`crate::Found::slot`]): none where it is not live, or the slot past the last. Its TTL is what is left, in
    /// whole seconds. The cache is tested as for a lookup.
    pub fn cached<'a>(
        &self,
        now: u64,
        cache: &'a Cache,
        slot: usize,
    ) -> Result<Option<Passed<'a>>, Refusal> {
        cache.look_up(now, &[0], 0, cache.entries())?;
        let Some((entry, bytes)) = cache.slot(slot) else {
            return Ok(None);
        };
        let (rich, ldh) = (&self.rich, &self.ldh);
        let r = unsafe {
            kurgashel_proxy_cached(
                rich.as_ptr(),
                rich.len(),
                ldh.as_ptr(),
                ldh.len(),
                now,
                entry,
                bytes.as_ptr(),
                bytes.len(),
            )
        };
        passed(r, cache.rdata(slot))
    }
}

/// The answer for a record whose rdata lies at hand.
fn passed(r: RecordNumbers, lying: &[u8]) -> Result<Option<Passed<'_>>, Refusal> {
    Refusal::check(r.refusal)?;
    if !r.passed {
        return Ok(None);
    }
    let owner = Name::read(&r.owner[..r.owner_length], 0).ok_or(Refusal::Malformed)?;
    Ok(Some(Passed {
        owner,
        rtype: r.rtype,
        class: r.class,
        ttl: r.ttl,
        mapped: r.rdata,
        mapped_length: if r.named { r.rdata_length } else { 0 },
        lying: (!r.named).then_some(lying),
    }))
}
