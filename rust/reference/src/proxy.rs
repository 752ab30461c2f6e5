//! "The annex": the name and record side of a discovery proxy (RFC 8766). Names
//! under two delegated domains stand for names under "local", and back.

use crate::cache::Cache;
use crate::name::{Name, MOST_NAME};
use crate::refusal::Refusal;
use crate::{class, rtype, txt};

const LOCAL: &[u8] = b"\x05local\x00";
/// "TTLs [...] are capped at 10"
const MOST_TTL: u64 = 10;
/// Priority, weight and port before an SRV target.
const SRV_NUMBERS: usize = 6;

const NS: u16 = 2;
const SOA: u16 = 6;
const DS: u16 = 43;

/// The two delegated domains.
#[derive(Clone, Debug)]
pub struct Proxy {
    /// The rich-text domain.
    rich: Name,
    /// The letters-digits-hyphens domain.
    ldh: Name,
}

/// What becomes of a question.
#[derive(Clone, Debug, PartialEq, Eq)]
pub enum Asked {
    /// It is asked for this name.
    Ask(Vec<u8>),
    /// "get a negative answer at once, as a kind of answer, not a packet"
    Negative,
}

/// A record with uncompressed names.
#[derive(Clone, Debug, PartialEq, Eq)]
pub struct Given {
    pub owner: Vec<u8>,
    pub rtype: u16,
    pub class: u16,
    pub ttl: u32,
    pub rdata: Vec<u8>,
}

/// Where a name has this suffix of whole labels, with labels before it: "under" is
/// strict.
fn below(name: &Name, suffix: &[u8]) -> Option<usize> {
    name.suffixes()
        .skip(1)
        .find(|(_, labels)| labels.eq_ignore_ascii_case(suffix))
        .map(|(offset, _)| offset)
}

/// The name with its labels from `offset` on in place of others. "A mapped name
/// over 255 bytes is refused as 13".
fn replaced(name: &Name, offset: usize, suffix: &[u8]) -> Result<Vec<u8>, Refusal> {
    let mapped = [&name.wire()[..offset], suffix].concat();
    if mapped.len() > MOST_NAME {
        return Err(Refusal::NameLength);
    }
    Ok(mapped)
}

/// A name under "local" goes under the domain, others "pass unmapped".
fn mapped_out(name: &Name, domain: &Name) -> Result<Vec<u8>, Refusal> {
    match below(name, LOCAL) {
        Some(offset) => replaced(name, offset, domain.wire()),
        None => Ok(name.wire().to_vec()),
    }
}

impl Proxy {
    /// "A setup where a domain is malformed, or the two are equal or one lies under
    /// the other, gets refusal 7."
    pub fn new(rich: &[u8], ldh: &[u8]) -> Result<Proxy, Refusal> {
        let domain = |wire| Name::from_wire(wire).map_err(|_| Refusal::Setup);
        let (rich, ldh) = (domain(rich)?, domain(ldh)?);
        // all names but the root lie under the root
        let root = rich.labels().count == 0 || ldh.labels().count == 0;
        let nested = below(&rich, ldh.wire()).is_some() || below(&ldh, rich.wire()).is_some();
        if root || nested || rich.equals(&ldh) {
            return Err(Refusal::Setup);
        }
        Ok(Proxy { rich, ldh })
    }

    /// The domains, rich text first.
    pub fn domains(&self) -> [&[u8]; 2] {
        [self.rich.wire(), self.ldh.wire()]
    }

    /// "Unicast names under either delegated domain map to "local" for any type";
    /// "Questions for SOA, NS and DS below either apex, and no others, get a
    /// negative answer".
    pub fn question(&self, name: &Name, rtype: u16) -> Result<Asked, Refusal> {
        let offset = below(name, self.rich.wire()).or_else(|| below(name, self.ldh.wire()));
        match offset {
            Some(_) if matches!(rtype, SOA | NS | DS) => Ok(Asked::Negative),
            Some(offset) => Ok(Asked::Ask(replaced(name, offset, LOCAL)?)),
            None => Ok(Asked::Ask(name.wire().to_vec())),
        }
    }

    /// The record that is passed on, or none where it is left out: "only well-formed
    /// records of the five types are passed on".
    pub fn answer(&self, given: &Given) -> Result<Option<Given>, Refusal> {
        let Ok(owner) = Name::from_wire(&given.owner) else {
            return Ok(None);
        };
        let Some(target) = target_of(given) else {
            return Ok(None);
        };
        // "owners of PTR, SRV and TXT and PTR targets go under the rich-text domain,
        // owners of A and AAAA and SRV targets under the letters-digits-hyphens one"
        let (owners, targets) = match given.rtype {
            rtype::PTR => (&self.rich, &self.rich),
            rtype::SRV => (&self.rich, &self.ldh),
            rtype::TXT => (&self.rich, &self.rich),
            _ => (&self.ldh, &self.ldh),
        };
        let rdata = match target {
            None => given.rdata.clone(),
            Some((numbers, target)) => {
                let target = mapped_out(&target, targets)?;
                [numbers, &target].concat()
            }
        };
        let ttl = if given.ttl >> 31 == 0 { given.ttl } else { 0 };
        Ok(Some(Given {
            owner: mapped_out(&owner, owners)?,
            rtype: given.rtype,
            class: class::low_bits(given.class),
            ttl: u64::from(ttl).min(MOST_TTL) as u32,
            rdata,
        }))
    }

    /// The same for an entry of the cache; one that is not live is left out. "(of a
    /// cached record what is left, in whole seconds rounded down)"
    pub fn cached(&self, cache: &Cache, now: u64, slot: usize) -> Result<Option<Given>, Refusal> {
        let entry = &cache.entries()[slot];
        if entry.expiry <= now {
            return Ok(None);
        }
        self.answer(&Given {
            owner: entry.owner.clone(),
            rtype: entry.rtype,
            class: class::IN,
            ttl: ((entry.expiry - now) / 1000).min(MOST_TTL) as u32,
            rdata: entry.rdata.clone(),
        })
    }
}

/// The name in the rdata of PTR and SRV, with the bytes before it, or none of other
/// types; nothing at all where the record is not well formed or of another type.
fn target_of(given: &Given) -> Option<Option<(&[u8], Name)>> {
    let rdata = &given.rdata[..];
    let is_fit = match given.rtype {
        rtype::A => rdata.len() == 4,
        rtype::AAAA => rdata.len() == 16,
        rtype::TXT => txt::is_well_formed(rdata),
        rtype::PTR => return Some(Some((&[], Name::from_wire(rdata).ok()?))),
        rtype::SRV => {
            let (numbers, target) = rdata.split_at_checked(SRV_NUMBERS)?;
            return Some(Some((numbers, Name::from_wire(target).ok()?)));
        }
        _ => false,
    };
    is_fit.then_some(None)
}

#[cfg(test)]
mod tests;
