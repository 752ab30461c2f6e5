//! What was heard of a service: a cache of the library's for each type of record.
//!
//! A cache has room for 512 records, and 300 instances have over a thousand. Each rule of it is about records of one name and one type, and a message's records
//! are taken one after the other (R-CACHE-3 to R-CACHE-7 of docs/SPECIFICATION.md). So each record is handed on, as a message of its own, to the cache of its
//! type: what is found is what one cache of all would have, had it the room.

use kurgashel::{Cache, Data, Found, Message, Record, Refusal, Section, Taken};

use crate::rtype;

/// The types that are kept. Each has a cache.
const TYPES: [(u16, &str); 6] = [
    (rtype::PTR, "PTR"),
    (rtype::SRV, "SRV"),
    (rtype::TXT, "TXT"),
    (rtype::A, "A"),
    (rtype::AAAA, "AAAA"),
    (rtype::NSEC, "NSEC"),
];

pub struct Caches {
    /// The name of the service. What is about the instances of others is not kept.
    service: Vec<u8>,
    /// In the order of `TYPES`.
    caches: Vec<Cache>,
    /// How many records of each type were turned away, all entries of its cache being live.
    turned_away: [u64; TYPES.len()],
}

impl Caches {
    /// Caches of so many entries each.
    pub fn new(service: Vec<u8>, entries: usize) -> Result<Caches, Refusal> {
        let caches = TYPES.iter().map(|_| Cache::with_entries(entries));
        Ok(Caches {
            service,
            caches: caches.collect::<Result<_, _>>()?,
            turned_away: [0; TYPES.len()],
        })
    }

    /// The PTR records, by which the library's browser looks for instances.
    pub fn pointers(&self) -> &Cache {
        &self.caches[0]
    }

    /// The NSEC records.
    pub fn denials(&self) -> &Cache {
        &self.caches[TYPES.len() - 1]
    }

    /// All live records of a name and a type.
    pub fn all(&self, now: u64, name: &[u8], rtype: u16) -> Result<Vec<Found<'_>>, Refusal> {
        match place(rtype) {
            Some(place) => self.caches[place].all(now, name, rtype),
            None => Ok(Vec::new()),
        }
    }

    /// The types of which records were turned away, with how many.
    pub fn turned_away(&self) -> impl Iterator<Item = (&'static str, u64)> + '_ {
        let counts = TYPES.iter().zip(self.turned_away);
        counts
            .map(|((_, name), count)| (*name, count))
            .filter(|(_, count)| *count > 0)
    }

    /// Takes the records of a response that came from `port`.
    pub fn take(&mut self, now: u64, port: u16, packet: &[u8]) -> Result<Taken, Refusal> {
        let message = Message::read(packet)?;
        let header = [message.id().to_be_bytes(), message.flags().to_be_bytes()].concat();
        let mut all = self.caches[0].take(now, port, &alone(&header, None))?;
        for section in [Section::Answer, Section::Additional] {
            for record in message.records(section) {
                let Some(place) = place(record.rtype).filter(|_| self.is_kept(&record)) else {
                    continue;
                };
                let taken = self.caches[place].take(now, port, &alone(&header, Some(&record)));
                // only a TXT of thousands of bytes is refused: with its owner's name written out it is too long for a message
                let taken = taken.unwrap_or(Taken {
                    turned_away: 0,
                    passed_over: 1,
                });
                self.turned_away[place] += u64::from(taken.turned_away);
                all.turned_away += taken.turned_away;
                all.passed_over += taken.passed_over;
            }
        }
        Ok(all)
    }

    /// Whether a record may be about an instance of the service: its PTR, an SRV or TXT of a name one label below the service's, or any host's record.
    fn is_kept(&self, record: &Record) -> bool {
        let owner = record.owner.as_bytes();
        match record.rtype {
            rtype::PTR => owner.eq_ignore_ascii_case(&self.service),
            rtype::SRV | rtype::TXT => {
                let behind = owner.len().min(1 + record.owner.first_label().len());
                owner[behind..].eq_ignore_ascii_case(&self.service)
            }
            _ => true,
        }
    }
}

/// Where the cache of a type stands.
fn place(rtype: u16) -> Option<usize> {
    TYPES.iter().position(|(kept, _)| *kept == rtype)
}

/// A message with ID and flags of another, and one answer or none, its names written out.
fn alone(id_and_flags: &[u8], record: Option<&Record>) -> Vec<u8> {
    let mut message = id_and_flags.to_vec();
    message.extend([0, 0, 0, u8::from(record.is_some()), 0, 0, 0, 0]);
    if let Some(record) = record {
        let rdata = written_out(record);
        message.extend(record.owner.as_bytes());
        message.extend(record.rtype.to_be_bytes());
        message.extend(record.class.to_be_bytes());
        message.extend(record.ttl.to_be_bytes());
        message.extend((rdata.len() as u16).to_be_bytes());
        message.extend(rdata);
    }
    message
}

/// The rdata of a record of a message, its names written out.
fn written_out(record: &Record) -> Vec<u8> {
    match &record.data {
        Data::Ptr(target) => target.as_bytes().to_vec(),
        Data::Srv(srv) => [&record.rdata[..6], srv.target.as_bytes()].concat(),
        Data::Nsec(nsec) => [nsec.next.as_bytes(), nsec.block].concat(),
        _ => record.rdata.to_vec(),
    }
}

#[cfg(test)]
mod tests {
    use super::super::view::tests::{host_name, instance_name, no_aaaa, response, service_name};
    use super::*;
    use crate::name::from_labels;

    const ENTRIES: usize = 64;

    fn caches() -> Caches {
        Caches::new(service_name(), ENTRIES).unwrap()
    }

    /// The name of an instance of the service by its number.
    fn numbered(number: u8) -> Vec<u8> {
        from_labels(&[&[b'a' + number], b"_voice", b"_tcp", b"local"])
    }

    /// Numbers that are the same in each run, none of them more than `most`.
    struct Numbers(u64);

    impl Numbers {
        fn next(&mut self, most: u64) -> u64 {
            self.0 = self
                .0
                .wrapping_mul(6364136223846793005)
                .wrapping_add(1442695040888963407);
            (self.0 >> 33) % (most + 1)
        }
    }

    /// A record that others have said, or say goodbye for, or say with other data.
    fn any_record(numbers: &mut Numbers) -> (Vec<u8>, u16, u32, Vec<u8>) {
        let name = numbered(numbers.next(2) as u8);
        let ttl = [0, 1, 2, 120][numbers.next(3) as usize];
        let number = numbers.next(2) as u8;
        match numbers.next(5) {
            0 => (service_name(), rtype::PTR, ttl, name),
            1 => {
                let srv = [&[0, 0, 0, 0, 16, number][..], &host_name()].concat();
                (name, rtype::SRV, ttl, srv)
            }
            2 => (name, rtype::TXT, ttl, vec![1, b'0' + number]),
            3 => (host_name(), rtype::A, ttl, vec![10, 0, 0, number]),
            4 => (host_name(), rtype::AAAA, ttl, vec![number; 16]),
            _ => (host_name(), rtype::NSEC, ttl, no_aaaa()),
        }
    }

    /// What is found of a name and a type, but for the slots.
    fn said(found: &[Found]) -> Vec<(Vec<u8>, u64, u64, u64)> {
        let mut said: Vec<_> = found
            .iter()
            .map(|entry| {
                (
                    entry.rdata.to_vec(),
                    entry.received,
                    entry.expiry,
                    entry.ttl,
                )
            })
            .collect();
        said.sort();
        said
    }

    #[test]
    fn they_find_what_one_cache_of_all_finds() {
        let (mut apart, mut one) = (caches(), Cache::with_entries(ENTRIES).unwrap());
        let (mut numbers, mut now, mut count) = (Numbers(1), 0, 0);
        for _ in 0..2000 {
            now += numbers.next(700);
            let records: Vec<_> = (0..=numbers.next(5))
                .map(|_| any_record(&mut numbers))
                .collect();
            let packet = response(0x80 * numbers.next(1) as u8, &records);
            let taken = apart.take(now, 5353, &packet);
            assert_eq!(taken, one.take(now, 5353, &packet));
            let names = (0..3).map(numbered).chain([service_name(), host_name()]);
            for name in names {
                for (rtype, _) in TYPES {
                    let found = said(&apart.all(now, &name, rtype).unwrap());
                    assert_eq!(found, said(&one.all(now, &name, rtype).unwrap()));
                    count += found.len();
                }
            }
        }
        assert!(count > 10_000, "{count}");
    }

    #[test]
    fn what_is_refused_is_what_one_cache_refuses() {
        let good = response(0, &[(service_name(), rtype::PTR, 120, instance_name())]);
        let with = |place: usize, byte| {
            let mut packet = good.clone();
            packet[place] = byte;
            packet
        };
        let (mut apart, mut one) = (caches(), Cache::default());
        let packets = [
            (5353, good.clone()),
            (5354, good.clone()),
            (5353, with(2, 0x90)), // an opcode
            (5353, with(3, 3)),    // an RCODE
            (5353, with(2, 0)),    // a query
            (5353, with(7, 2)),    // a record that isn't there
            (5353, good[..11].to_vec()),
        ];
        for (port, packet) in &packets {
            let expected = one.take(0, *port, packet);
            assert_eq!(apart.take(0, *port, packet), expected, "{packet:?}");
        }
        let found = apart.all(0, &service_name(), rtype::PTR).unwrap();
        assert_eq!(found.len(), 1);
    }

    #[test]
    fn each_type_has_room_of_its_own() {
        let mut caches = Caches::new(service_name(), 2).unwrap();
        for number in 0..3 {
            let records = [
                (service_name(), rtype::PTR, 120, numbered(number)),
                (numbered(number), rtype::TXT, 120, vec![0]),
                (host_name(), rtype::A, 120, vec![10, 0, 0, 7]),
            ];
            caches.take(0, 5353, &response(0, &records)).unwrap();
        }
        let told: Vec<_> = caches.turned_away().collect();
        assert_eq!(told, [("PTR", 1), ("TXT", 1)]);
        assert_eq!(
            caches.all(0, &numbered(1), rtype::TXT).unwrap().len(),
            1,
            "the second is there"
        );
    }

    #[test]
    fn what_is_about_other_services_is_not_kept() {
        let other = from_labels(&[b"_hall", b"_tcp", b"local"]);
        let elsewhere = from_labels(&[b"booth", b"_hall", b"_tcp", b"local"]);
        let mut caches = caches();
        let records = [
            (other.clone(), rtype::PTR, 120, elsewhere.clone()),
            (elsewhere.clone(), rtype::TXT, 120, vec![0]),
            (vec![0], rtype::TXT, 120, vec![0]),
            (host_name(), rtype::A, 120, vec![10, 0, 0, 7]),
        ];
        caches.take(0, 5353, &response(0, &records)).unwrap();
        let count = |name: &[u8], rtype| caches.all(0, name, rtype).unwrap().len();
        assert_eq!(count(&other, rtype::PTR), 0);
        assert_eq!(count(&elsewhere, rtype::TXT), 0);
        assert_eq!(count(&[0], rtype::TXT), 0);
        assert_eq!(count(&host_name(), rtype::A), 1);
    }

    #[test]
    fn a_text_that_fits_no_message_alone_is_passed_over() {
        // the owner of the TXT is a pointer to that of the PTR
        let mut packet = vec![0, 0, 0x84, 0, 0, 0, 0, 2, 0, 0, 0, 0];
        let long = from_labels(&[&[b'x'; 63], b"_voice", b"_tcp", b"local"]);
        packet.extend(&long);
        packet.extend([0, 12, 0, 1, 0, 0, 0, 120, 0, 2, 0xc0, 12]);
        let rdata = vec![0; 8972 - packet.len() - 12];
        packet.extend([0xc0, 12, 0, 16, 0, 1, 0, 0, 0, 120]);
        packet.extend((rdata.len() as u16).to_be_bytes());
        packet.extend(rdata);
        let mut one = Cache::default();
        let passed = one.take(0, 5353, &packet).unwrap().passed_over;
        assert_eq!(passed, 1);
        let taken = caches().take(0, 5353, &packet).unwrap();
        assert_eq!(taken.passed_over, 1);
    }
}
