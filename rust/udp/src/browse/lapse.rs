//! When what is shown or asked for changes next by time alone.

use kurgashel::{Browser, Found, Refusal};

use super::caches::Caches;
use super::view::{server, LAST_SECOND};
use super::wants::stale_from;
use crate::rtype;

/// The next moment at which a record of an instance on the list is about to lapse, is in its last second or lapses; nothing where there is none.
pub fn next(caches: &Caches, now: u64, browser: &Browser) -> Result<Option<u64>, Refusal> {
    let mut moments = Vec::new();
    for listed in browser.instances(caches.pointers(), now)? {
        moments.extend([listed.expiry.saturating_sub(LAST_SECOND), listed.expiry]);
        let servers = caches.all(now, listed.target, rtype::SRV)?;
        for entry in &servers {
            if let Some(server) = server(entry.rdata) {
                for rtype in [rtype::A, rtype::AAAA, rtype::NSEC] {
                    moments.extend(all(&caches.all(now, &server.host, rtype)?));
                }
            }
        }
        moments.extend(all(&servers));
        moments.extend(all(&caches.all(now, listed.target, rtype::TXT)?));
    }
    Ok(moments.into_iter().filter(|moment| *moment > now).min())
}

fn all(found: &[Found]) -> Vec<u64> {
    let moments = found.iter().flat_map(|entry| {
        let last = entry.expiry.saturating_sub(LAST_SECOND);
        [stale_from(entry), last, entry.expiry]
    });
    moments.collect()
}

#[cfg(test)]
mod tests {
    use super::super::view::tests::{browser, hear, heard, host_name, instance_name};
    use super::super::view::tests::{service_name, srv};
    use super::*;

    #[test]
    fn moments_of_the_records_of_an_instance() {
        let pointer = |ttl| (service_name(), rtype::PTR, ttl, instance_name());
        let mut caches = heard(&[pointer(4500), (instance_name(), rtype::SRV, 120, srv())]);
        hear(
            &mut caches,
            1000,
            0,
            &[(host_name(), rtype::A, 120, vec![10, 0, 0, 7])],
        );
        let next = |caches: &Caches, now| next(caches, now, &browser()).unwrap();
        for (now, expected) in [
            (1000, 96_000),
            (96_000, 97_000),
            (97_000, 119_000),
            (119_000, 120_000),
            // without an SRV nothing is known of a host
            (120_000, 4_499_000),
            (4_499_000, 4_500_000),
        ] {
            assert_eq!(next(&caches, now), Some(expected), "{now}");
        }
        assert_eq!(next(&caches, 4_500_000), None);
        // a goodbye
        hear(&mut caches, 2000, 0, &[pointer(0)]);
        assert_eq!(next(&caches, 2000), Some(3000));
        assert_eq!(next(&heard(&[]), 0), None);
    }
}
