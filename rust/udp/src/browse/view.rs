//! What the caches know of the instances of a service.

use std::net::IpAddr;

use kurgashel::{Browser, Cache, Data, Found, Refusal};

use super::caches::Caches;
use crate::rtype;

#[derive(Clone, Debug, PartialEq, Eq)]
pub struct Instance {
    pub name: Vec<u8>,
    pub server: Option<Server>,
    pub txt: Option<Vec<u8>>,
    pub addresses: Vec<IpAddr>,
    /// The host says that it has no IPv6 address.
    pub no_ipv6: bool,
    /// It said goodbye, or was not heard again for all the life of its PTR: unless it is heard within a second, it is gone.
    pub is_leaving: bool,
}

/// Where an instance is served: its SRV.
#[derive(Clone, Debug, PartialEq, Eq)]
pub struct Server {
    pub host: Vec<u8>,
    pub port: u16,
}

impl Instance {
    /// Of which no more than its name is known.
    fn of_name(name: &[u8]) -> Instance {
        Instance {
            name: name.to_vec(),
            server: None,
            txt: None,
            addresses: Vec::new(),
            no_ipv6: false,
            is_leaving: false,
        }
    }

    pub fn is_complete(&self) -> bool {
        self.server.is_some() && self.txt.is_some() && !self.addresses.is_empty()
    }
}

/// A record that was said goodbye for, or that others took the place of, lives for a second more (RFC 6762 sections 10.1 and 10.2).
pub const LAST_SECOND: u64 = 1000;

/// Whether a record that expires then is in its last second.
pub fn is_in_last_second(expiry: u64, now: u64) -> bool {
    expiry - now <= LAST_SECOND
}

/// Of records of which there is one at a time the one that was heard last: what it took the place of lives for a second more.
pub fn latest<'a>(found: &[Found<'a>]) -> Option<Found<'a>> {
    found.iter().copied().max_by_key(|entry| entry.received)
}

/// The instances on the browser's list, by name alone.
pub fn names(caches: &Caches, now: u64, browser: &Browser) -> Result<Vec<Instance>, Refusal> {
    let listed = browser.instances(caches.pointers(), now)?;
    let names = listed.map(|listed| Instance {
        is_leaving: is_in_last_second(listed.expiry, now),
        ..Instance::of_name(listed.target)
    });
    Ok(names.collect())
}

/// The instances on the browser's list.
pub fn instances(caches: &Caches, now: u64, browser: &Browser) -> Result<Vec<Instance>, Refusal> {
    let names = names(caches, now, browser)?.into_iter();
    names.map(|bare| resolved(caches, now, bare)).collect()
}

/// An instance with what is known beside its name.
fn resolved(caches: &Caches, now: u64, bare: Instance) -> Result<Instance, Refusal> {
    let name = &bare.name;
    let server = latest(&caches.all(now, name, rtype::SRV)?).and_then(|entry| server(entry.rdata));
    let txt = latest(&caches.all(now, name, rtype::TXT)?).map(|entry| entry.rdata.to_vec());
    let addresses = match &server {
        Some(server) => addresses(caches, now, &server.host)?,
        None => Vec::new(),
    };
    let no_ipv6 = match &server {
        Some(server) => is_denied(caches.denials(), now, &server.host, rtype::AAAA)?,
        None => false,
    };
    Ok(Instance {
        server,
        txt,
        addresses,
        no_ipv6,
        ..bare
    })
}

/// Where an SRV says that a service is.
pub fn server(rdata: &[u8]) -> Option<Server> {
    match Data::of(rtype::SRV, rdata)? {
        Data::Srv(srv) => Some(Server {
            port: srv.port,
            host: srv.target.as_bytes().to_vec(),
        }),
        _ => None,
    }
}

/// A live NSEC says that a name has no record of a type.
pub fn is_denied(cache: &Cache, now: u64, name: &[u8], rtype: u16) -> Result<bool, Refusal> {
    let denials = cache.all(now, name, rtype::NSEC)?;
    Ok(denials.iter().any(|entry| {
        matches!(Data::of(rtype::NSEC, entry.rdata), Some(Data::Nsec(nsec)) if !nsec.names(rtype))
    }))
}

/// A host's addresses in rising order.
fn addresses(caches: &Caches, now: u64, host: &[u8]) -> Result<Vec<IpAddr>, Refusal> {
    let mut addresses = Vec::new();
    for rtype in [rtype::A, rtype::AAAA] {
        for entry in caches.all(now, host, rtype)? {
            addresses.extend(address(rtype, entry.rdata));
        }
    }
    addresses.sort();
    Ok(addresses)
}

fn address(rtype: u16, rdata: &[u8]) -> Option<IpAddr> {
    match Data::of(rtype, rdata)? {
        Data::A(address) => Some(address.into()),
        Data::Aaaa(address) => Some(address.into()),
        _ => None,
    }
}

#[cfg(test)]
pub mod tests {
    use kurgashel::BrowserDraws;

    use super::*;
    use crate::name::from_labels;

    pub fn service_name() -> Vec<u8> {
        from_labels(&[b"_voice", b"_tcp", b"local"])
    }

    /// A browser for that service, begun at time 0.
    pub fn browser() -> Browser {
        let draws = BrowserDraws {
            first: 20,
            refresh: 0,
        };
        Browser::start("_voice", "_tcp", 0, draws).unwrap()
    }

    pub fn instance_name() -> Vec<u8> {
        from_labels(&[b"booth", b"_voice", b"_tcp", b"local"])
    }

    pub fn host_name() -> Vec<u8> {
        from_labels(&[b"dock", b"local"])
    }

    pub fn srv() -> Vec<u8> {
        [&[0, 0, 0, 0, 0x0f, 0xa0][..], &host_name()].concat()
    }

    /// A record of class 1: owner, type, TTL and rdata.
    pub type Told = (Vec<u8>, u16, u32, Vec<u8>);

    /// Caches that took a response with these records at time 0.
    pub fn heard(records: &[Told]) -> Caches {
        let mut caches = Caches::new(service_name(), 64).unwrap();
        hear(&mut caches, 0, 0, records);
        caches
    }

    /// Takes a response with these records, with the cache flush bit where `flush` is 0x80.
    pub fn hear(caches: &mut Caches, now: u64, flush: u8, records: &[Told]) {
        caches.take(now, 5353, &response(flush, records)).unwrap();
    }

    /// A response with these records, with the cache flush bit where `flush` is 0x80.
    pub fn response(flush: u8, records: &[Told]) -> Vec<u8> {
        let mut packet = vec![0, 0, 0x84, 0, 0, 0, 0, records.len() as u8, 0, 0, 0, 0];
        for (owner, rtype, ttl, rdata) in records {
            packet.extend(owner);
            packet.extend(rtype.to_be_bytes());
            packet.extend([flush, 1]);
            packet.extend(ttl.to_be_bytes());
            packet.extend((rdata.len() as u16).to_be_bytes());
            packet.extend(rdata);
        }
        packet
    }

    #[test]
    fn changed_data_are_seen_at_once() {
        let old = (instance_name(), rtype::TXT, 4500, b"\x06room=3".to_vec());
        let mut caches = heard(&[(service_name(), rtype::PTR, 4500, instance_name()), old]);
        let new = (instance_name(), rtype::TXT, 4500, b"\x06room=4".to_vec());
        hear(&mut caches, 5000, 0x80, &[new]);
        for now in [5000, 5999, 6000] {
            let found = &instances(&caches, now, &browser()).unwrap()[0];
            assert_eq!(found.txt.as_deref(), Some(&b"\x06room=4"[..]), "{now}");
        }
    }

    #[test]
    fn a_goodbye_is_seen_at_once() {
        let mut caches = heard(&[(service_name(), rtype::PTR, 4500, instance_name())]);
        assert!(!instances(&caches, 4999, &browser()).unwrap()[0].is_leaving);
        let goodbye = (service_name(), rtype::PTR, 0, instance_name());
        hear(&mut caches, 5000, 0, &[goodbye]);
        assert!(instances(&caches, 5000, &browser()).unwrap()[0].is_leaving);
        assert!(instances(&caches, 6000, &browser()).unwrap().is_empty());
    }

    #[test]
    fn an_instance_is_put_together() {
        let caches = heard(&[
            (service_name(), rtype::PTR, 4500, instance_name()),
            (instance_name(), rtype::SRV, 120, srv()),
            (instance_name(), rtype::TXT, 4500, vec![0]),
            (host_name(), rtype::A, 120, vec![10, 0, 0, 8]),
            (host_name(), rtype::A, 120, vec![10, 0, 0, 7]),
        ]);
        let found = instances(&caches, 1, &browser()).unwrap();
        assert_eq!(found.len(), 1);
        assert!(found[0].is_complete());
        let server = found[0].server.as_ref().unwrap();
        assert_eq!((server.port, &server.host), (4000, &host_name()));
        let expected: [IpAddr; 2] = [[10, 0, 0, 7].into(), [10, 0, 0, 8].into()];
        assert_eq!(found[0].addresses, expected);
        // SRV and A lapse after 120 s, the rest after 4,500 s
        assert!(!instances(&caches, 120_000, &browser()).unwrap()[0].is_complete());
        assert!(instances(&caches, 4_500_000, &browser())
            .unwrap()
            .is_empty());
    }

    #[test]
    fn a_name_in_two_cases_is_one_instance() {
        let capitals = from_labels(&[b"BOOTH", b"_voice", b"_tcp", b"local"]);
        let caches = heard(&[
            (service_name(), rtype::PTR, 4500, instance_name()),
            (service_name(), rtype::PTR, 4500, capitals),
        ]);
        assert_eq!(instances(&caches, 1, &browser()).unwrap().len(), 1);
    }

    pub fn no_aaaa() -> Vec<u8> {
        [&host_name()[..], &[0, 1, 0x40]].concat()
    }

    #[test]
    fn a_denial_counts_while_it_lives() {
        let caches = heard(&[(host_name(), rtype::NSEC, 120, no_aaaa())]);
        let denials = caches.denials();
        assert!(is_denied(denials, 119_999, &host_name(), rtype::AAAA).unwrap());
        assert!(!is_denied(denials, 119_999, &host_name(), rtype::A).unwrap());
        assert!(!is_denied(denials, 120_000, &host_name(), rtype::AAAA).unwrap());
    }

    #[test]
    fn short_srv_data_is_no_server() {
        assert_eq!(server(&[0; 5]), None);
    }
}
