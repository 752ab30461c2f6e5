//! What is to be asked of the instances on the list: SRV, TXT, A and AAAA that are missing, unless an NSEC says that there is none, and those about to lapse
//! (RFC 6762 section 5.2). Who there is, the library's browser asks by itself.

use kurgashel::{Browser, Found, Refusal};

use super::caches::Caches;
use super::view::{is_denied, is_in_last_second, latest, server};
use crate::query::Question;
use crate::rtype;

#[derive(Clone, Copy, Debug, PartialEq, Eq, PartialOrd, Ord)]
pub enum Reason {
    Missing,
    Refresh,
}

/// A question with its reason, since each reason has a pace of its own.
#[derive(Clone, Debug, PartialEq, Eq, PartialOrd, Ord)]
pub struct Want {
    pub question: Question,
    pub reason: Reason,
}

pub fn wants(caches: &Caches, now: u64, browser: &Browser) -> Result<Vec<Want>, Refusal> {
    let mut wants = Vec::new();
    for instance in browser.instances(caches.pointers(), now)? {
        let servers = need(caches, now, instance.target, rtype::SRV, &mut wants)?;
        need(caches, now, instance.target, rtype::TXT, &mut wants)?;
        for host in servers.iter().filter_map(|entry| server(entry.rdata)) {
            need(caches, now, &host.host, rtype::A, &mut wants)?;
            need(caches, now, &host.host, rtype::AAAA, &mut wants)?;
        }
    }
    wants.sort();
    wants.dedup();
    Ok(wants)
}

/// Wants records that are missing or about to lapse; gives those there are.
fn need<'a>(
    caches: &'a Caches,
    now: u64,
    name: &[u8],
    rtype: u16,
    wants: &mut Vec<Want>,
) -> Result<Vec<Found<'a>>, Refusal> {
    let found = caches.all(now, name, rtype)?;
    if found.is_empty() {
        if !is_denied(caches.denials(), now, name, rtype)? {
            wants.push(want(name, rtype, Reason::Missing));
        }
    } else if latest(&found).is_some_and(|entry| is_stale(&entry, now)) {
        wants.push(want(name, rtype, Reason::Refresh));
    }
    Ok(found)
}

fn want(name: &[u8], rtype: u16, reason: Reason) -> Want {
    let name = name.to_vec();
    let question = Question { name, rtype };
    Want { question, reason }
}

/// Four fifths of its TTL are over, but it is not in its last second: that may be a goodbye, which is not to be asked about.
fn is_stale(entry: &Found, now: u64) -> bool {
    now >= stale_from(entry) && !is_in_last_second(entry.expiry, now)
}

/// When four fifths of its TTL, which is in seconds, are over.
pub fn stale_from(entry: &Found) -> u64 {
    entry.received + 800 * entry.ttl
}

#[cfg(test)]
mod tests {
    use super::super::view::tests::{
        browser, hear, heard, host_name, instance_name, no_aaaa, service_name, srv,
    };
    use super::*;

    fn types(caches: &Caches, now: u64, reason: Reason) -> Vec<u16> {
        let wants = wants(caches, now, &browser()).unwrap();
        let of_reason = wants.into_iter().filter(|want| want.reason == reason);
        let mut types: Vec<_> = of_reason.map(|want| want.question.rtype).collect();
        types.sort();
        types
    }

    #[test]
    fn what_is_missing_is_wanted() {
        let nothing = heard(&[]);
        assert_eq!(types(&nothing, 0, Reason::Missing), []);
        let pointer = (service_name(), rtype::PTR, 4500, instance_name());
        let caches = heard(std::slice::from_ref(&pointer));
        assert_eq!(types(&caches, 0, Reason::Missing), [rtype::TXT, rtype::SRV]);
        let caches = heard(&[
            pointer,
            (instance_name(), rtype::SRV, 120, srv()),
            (instance_name(), rtype::TXT, 4500, vec![0]),
            (host_name(), rtype::A, 120, vec![10, 0, 0, 7]),
        ]);
        assert_eq!(types(&caches, 0, Reason::Missing), [rtype::AAAA]);
        assert_eq!(types(&caches, 95_999, Reason::Refresh), []);
        // at 80 percent of 120 s
        let stale = [rtype::A, rtype::SRV];
        assert_eq!(types(&caches, 96_000, Reason::Refresh), stale);
        assert_eq!(types(&caches, 3_600_000, Reason::Refresh), [rtype::TXT]);
    }

    #[test]
    fn what_does_not_exist_is_not_wanted() {
        let caches = heard(&[
            (service_name(), rtype::PTR, 4500, instance_name()),
            (instance_name(), rtype::SRV, 120, srv()),
            (instance_name(), rtype::TXT, 4500, vec![0]),
            (host_name(), rtype::NSEC, 120, no_aaaa()),
        ]);
        assert_eq!(types(&caches, 0, Reason::Missing), [rtype::A]);
    }

    #[test]
    fn what_was_said_goodbye_for_or_replaced_is_not_asked_for() {
        let pointer = |ttl| (service_name(), rtype::PTR, ttl, instance_name());
        let txt = |ttl, data: &[u8]| (instance_name(), rtype::TXT, ttl, data.to_vec());
        let mut caches = heard(&[pointer(4500), txt(4500, b"\x01a")]);
        hear(&mut caches, 5000, 0x80, &[txt(4500, b"\x01b")]);
        assert_eq!(types(&caches, 5000, Reason::Refresh), []);
        hear(&mut caches, 9000, 0, &[pointer(0), txt(0, b"\x01b")]);
        assert_eq!(types(&caches, 9000, Reason::Refresh), []);
    }
}
