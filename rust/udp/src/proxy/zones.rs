//! The two delegated domains as a DNS server has them: what is answered at their apex, what is negative at once, and what the link has to be asked for.

use kurgashel::{Asked, Cache, Passed, Proxy, Refusal};

use super::message::{Answer, Query, Rcode, Resource};
use crate::name::labels;
use crate::rtype;

const NS: u16 = 2;
const CNAME: u16 = 5;
const SOA: u16 = 6;
const ANY: u16 = 255;
const CLASS_IN: u16 = 1;
const CLASS_ANY: u16 = 255;
/// The TTL of what the server says of itself, and of negative answers (RFC 8766 section 6.1), in seconds.
const OWN_TTL: u32 = 10;
/// SOA's serial, refresh, retry, expire and minimum (RFC 8766 section 6.1).
const SOA_NUMBERS: [u32; 5] = [0, 7200, 3600, 86400, OWN_TTL];
/// Services of the domain itself, which are not there (RFC 8766 section 6.4), and names under which domains are listed (RFC 6763 section 11).
const META: [&[u8]; 5] = [
    b"_dns-llq",
    b"_dns-llq-tls",
    b"_dns-push-tls",
    b"_dns-update",
    b"_dns-update-tls",
];
const LISTS: [&[u8]; 5] = [b"b", b"db", b"r", b"dr", b"lb"];

/// The types that pass.
const PASSED: [u16; 5] = [rtype::A, rtype::PTR, rtype::TXT, rtype::AAAA, rtype::SRV];

pub struct Zones {
    proxy: Proxy,
    apexes: [Vec<u8>; 2],
    servers: Vec<Vec<u8>>,
    mailbox: Vec<u8>,
    link_local: bool,
}

/// What becomes of a query.
#[derive(Clone, Debug, PartialEq, Eq)]
pub enum Decision {
    Answer(Answer),
    /// The link is asked for this name.
    Ask(Vec<u8>),
}

impl Zones {
    pub fn new(
        rich: &[u8],
        host_domain: &[u8],
        servers: &[Vec<u8>],
        mailbox: &[u8],
        link_local: bool,
    ) -> Result<Zones, Refusal> {
        Ok(Zones {
            proxy: Proxy::new(rich, host_domain)?,
            apexes: [rich.to_vec(), host_domain.to_vec()],
            servers: servers.to_vec(),
            mailbox: mailbox.to_vec(),
            link_local,
        })
    }

    /// The apex of the domain that a name is in: at it, or under it.
    pub fn apex_of(&self, name: &[u8]) -> Option<&[u8]> {
        let name = labels(name);
        let apexes = self.apexes.iter().map(Vec::as_slice);
        apexes.into_iter().find(|apex| {
            let apex = labels(apex);
            let at = name.len().checked_sub(apex.len());
            at.is_some_and(|at| is_same(&name[at..], &apex))
        })
    }

    pub fn decide(&self, query: &Query) -> Decision {
        if query.is_of_other_version() {
            return Decision::Answer(Answer::empty(Rcode::BadVersion));
        }
        let is_class = [CLASS_IN, CLASS_ANY].contains(&query.class);
        let Some(apex) = self.apex_of(&query.name).filter(|_| is_class) else {
            return Decision::Answer(Answer::empty(Rcode::Refused));
        };
        let above = labels(&query.name).len() - labels(apex).len();
        if above == 0 {
            return Decision::Answer(self.at_apex(apex, query.rtype));
        }
        if is_of_domain_itself(&labels(&query.name)[..above]) {
            return Decision::Answer(self.negative(apex));
        }
        match self.proxy.question(&query.name, query.rtype) {
            Ok(Asked::Name(name)) => Decision::Ask(name.as_bytes().to_vec()),
            // a name that is too long on the link is no one's there
            Ok(Asked::Negative) | Err(_) => Decision::Answer(self.negative(apex)),
        }
    }

    /// SOA and NS at an apex, and nothing else.
    fn at_apex(&self, apex: &[u8], rtype: u16) -> Answer {
        let mut answers = Vec::new();
        if [SOA, ANY].contains(&rtype) {
            answers.push(self.soa(apex));
        }
        if [NS, ANY].contains(&rtype) {
            let servers = self.servers.iter();
            answers.extend(servers.map(|server| own(apex, NS, server.clone())));
        }
        if answers.is_empty() {
            return self.negative(apex);
        }
        Answer {
            answers,
            ..Answer::empty(Rcode::NoError)
        }
    }

    /// "No error, no answer": never that a name does not exist, since there may be names under it (RFC 8766 section 5.6).
    pub fn negative(&self, apex: &[u8]) -> Answer {
        Answer {
            authority: vec![self.soa(apex)],
            ..Answer::empty(Rcode::NoError)
        }
    }

    fn soa(&self, apex: &[u8]) -> Resource {
        let mut rdata = self.servers.concat();
        rdata.truncate(self.servers.first().map_or(0, Vec::len));
        rdata.extend(&self.mailbox);
        for number in SOA_NUMBERS {
            rdata.extend(number.to_be_bytes());
        }
        own(apex, SOA, rdata)
    }

    /// What the cache has in answer to a question, mapped. Where the records' name is not the one asked for, since services stand under one domain and hosts
    /// under the other, a CNAME leads from the one to the other.
    pub fn records(
        &self,
        cache: &Cache,
        now: u64,
        name: &[u8],
        query: &Query,
    ) -> Result<Vec<Resource>, Refusal> {
        let mut records = Vec::new();
        for rtype in types(query.rtype) {
            for found in cache.all(now, name, rtype)? {
                if self.link_local || !is_link_local(rtype, found.rdata) {
                    // a record that is too long when it is mapped is left out by itself
                    let passed = self.proxy.cached(now, cache, found.slot);
                    records.extend(passed.ok().flatten().map(|passed| resource(&passed)));
                }
            }
        }
        if let Some(record) = records.first() {
            if !is_same(&labels(&record.owner), &labels(&query.name)) {
                let alias = Resource {
                    rtype: CNAME,
                    owner: query.name.clone(),
                    rdata: record.owner.clone(),
                    ..record.clone()
                };
                records.insert(0, alias);
            }
        }
        Ok(records)
    }
}

/// The types that answer a question for a type.
pub fn types(asked: u16) -> impl Iterator<Item = u16> {
    let answers = move |rtype: &u16| asked == ANY || *rtype == asked;
    PASSED.into_iter().filter(answers)
}

fn own(apex: &[u8], rtype: u16, rdata: Vec<u8>) -> Resource {
    Resource {
        owner: apex.to_vec(),
        rtype,
        class: CLASS_IN,
        ttl: OWN_TTL,
        rdata,
    }
}

fn resource(passed: &Passed) -> Resource {
    Resource {
        owner: passed.owner.as_bytes().to_vec(),
        rtype: passed.rtype,
        class: passed.class,
        ttl: passed.ttl,
        rdata: passed.rdata().to_vec(),
    }
}

/// Whether labels are equal with letters folded.
fn is_same(one: &[&[u8]], other: &[&[u8]]) -> bool {
    one.len() == other.len()
        && one
            .iter()
            .zip(other)
            .all(|(a, b)| a.eq_ignore_ascii_case(b))
}

/// Whether the labels below an apex are of something that the domain itself would have.
fn is_of_domain_itself(below: &[&[u8]]) -> bool {
    let is = |label: &[u8], names: &[&[u8]]| names.iter().any(|n| label.eq_ignore_ascii_case(n));
    match below {
        [service, protocol] => is(service, &META) && is(protocol, &[b"_udp", b"_tcp"]),
        [list, service, protocol] => {
            is(list, &LISTS) && is(service, &[b"_dns-sd"]) && is(protocol, &[b"_udp"])
        }
        _ => false,
    }
}

/// An address that no router passes on (RFC 8766 section 5.5.2).
fn is_link_local(rtype: u16, rdata: &[u8]) -> bool {
    match (rtype, rdata) {
        (rtype::A, [169, 254, ..]) => true,
        (rtype::AAAA, [0xfe, second, ..]) => second & 0xc0 == 0x80,
        _ => false,
    }
}

#[cfg(test)]
mod tests {
    use super::*;
    use crate::name::from_labels;

    fn zones() -> Zones {
        let rich = from_labels(&[b"Building 1", b"example"]);
        let hosts = from_labels(&[b"b1", b"example"]);
        let servers = [from_labels(&[b"ns", b"example"])];
        let mailbox = from_labels(&[b"hostmaster", b"example"]);
        Zones::new(&rich, &hosts, &servers, &mailbox, false).unwrap()
    }

    fn query(name: &[&[u8]], rtype: u16) -> Query {
        let mut bytes = b"\0\x07\0\0\0\x01\0\0\0\0\0\0".to_vec();
        bytes.extend(from_labels(name));
        bytes.extend(rtype.to_be_bytes());
        bytes.extend([0, 1]);
        match super::super::message::read(&bytes) {
            super::super::message::Heard::Query(query) => query,
            heard => panic!("{heard:?}"),
        }
    }

    fn decided(name: &[&[u8]], rtype: u16) -> Decision {
        zones().decide(&query(name, rtype))
    }

    #[test]
    fn what_the_link_is_asked_for() {
        let ask = |labels: &[&[u8]]| Decision::Ask(from_labels(labels));
        let asked = decided(&[b"_voice", b"_tcp", b"building 1", b"EXAMPLE"], rtype::PTR);
        assert_eq!(asked, ask(&[b"_voice", b"_tcp", b"local"]));
        let asked = decided(&[b"dock", b"b1", b"example"], rtype::A);
        assert_eq!(asked, ask(&[b"dock", b"local"]));
    }

    #[test]
    fn what_is_answered_without_the_link() {
        let rcode = |decision| match decision {
            Decision::Answer(answer) => answer.rcode,
            Decision::Ask(_) => panic!("the link is asked"),
        };
        assert_eq!(rcode(decided(&[b"dock", b"local"], 1)), Rcode::Refused);
        assert_eq!(rcode(decided(&[b"example"], SOA)), Rcode::Refused);
        assert_eq!(rcode(decided(&[b"xb1", b"example"], SOA)), Rcode::Refused);
        let apex = from_labels(&[b"b1", b"example"]);
        let negative = Decision::Answer(zones().negative(&apex));
        assert_eq!(decided(&[b"dock", b"b1", b"example"], SOA), negative);
        assert_eq!(decided(&[b"b1", b"example"], rtype::A), negative);
        let update: [&[u8]; 4] = [b"_dns-update", b"_tcp", b"b1", b"example"];
        assert_eq!(decided(&update, rtype::SRV), negative);
        let lists: [&[u8]; 5] = [b"lb", b"_dns-sd", b"_udp", b"b1", b"example"];
        assert_eq!(decided(&lists, rtype::PTR), negative);
    }

    #[test]
    fn soa_and_ns_at_an_apex() {
        let Decision::Answer(answer) = decided(&[b"B1", b"example"], ANY) else {
            panic!("the link is asked");
        };
        let types: Vec<_> = answer.answers.iter().map(|one| one.rtype).collect();
        assert_eq!(types, [SOA, NS]);
        let soa = &answer.answers[0].rdata;
        assert!(soa.starts_with(b"\x02ns\x07example\0\x0ahostmaster\x07example\0\0\0\0\0"));
        assert!(soa.ends_with(&OWN_TTL.to_be_bytes()));
    }

    #[test]
    fn addresses_that_stay_on_the_link() {
        assert!(is_link_local(rtype::A, &[169, 254, 1, 1]));
        assert!(!is_link_local(rtype::A, &[169, 253, 1, 1]));
        assert!(is_link_local(rtype::AAAA, &[0xfe, 0xbf, 0]));
        assert!(!is_link_local(rtype::AAAA, &[0xfe, 0xc0, 0]));
        assert!(!is_link_local(rtype::TXT, &[169, 254, 1, 1]));
    }

    /// A cache that has heard a service and its host.
    fn heard() -> Cache {
        let service = from_labels(&[b"_voice", b"_tcp", b"local"]);
        let instance = from_labels(&[b"booth", b"_voice", b"_tcp", b"local"]);
        let host = from_labels(&[b"dock", b"local"]);
        let srv = [&[0, 0, 0, 0, 15, 160][..], &host].concat();
        let mut packet = b"\0\0\x84\0\0\0\0\x03\0\0\0\0".to_vec();
        for (owner, rtype, class, rdata) in [
            (&service, rtype::PTR, 1u16, instance.clone()),
            (&instance, rtype::SRV, 0x8001, srv),
            (&host, rtype::A, 0x8001, vec![10, 0, 0, 7]),
        ] {
            packet.extend(owner);
            packet.extend(rtype.to_be_bytes());
            packet.extend(class.to_be_bytes());
            packet.extend(120u32.to_be_bytes());
            packet.extend((rdata.len() as u16).to_be_bytes());
            packet.extend(rdata);
        }
        let mut cache = Cache::default();
        cache.take(0, 5353, &packet).unwrap();
        cache
    }

    #[test]
    fn records_are_mapped_and_aliases_lead_to_them() {
        let (zones, cache) = (zones(), heard());
        let host = from_labels(&[b"dock", b"local"]);
        let found = |labels: &[&[u8]], rtype| {
            let query = query(labels, rtype);
            zones.records(&cache, 112_500, &host, &query).unwrap()
        };
        let direct = found(&[b"dock", b"b1", b"example"], rtype::A);
        let a = Resource {
            owner: from_labels(&[b"dock", b"b1", b"example"]),
            rtype: rtype::A,
            class: 1,
            ttl: 7,
            rdata: vec![10, 0, 0, 7],
        };
        assert_eq!(direct, std::slice::from_ref(&a));
        let aliased = found(&[b"dock", b"Building 1", b"example"], rtype::A);
        assert_eq!((aliased.len(), aliased[0].rtype), (2, CNAME));
        assert_eq!((&aliased[0].rdata, &aliased[1]), (&a.owner, &a));
        assert!(found(&[b"dock", b"b1", b"example"], rtype::AAAA).is_empty());
    }
}
