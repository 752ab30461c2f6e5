//! Lives of the cache: tables of all sizes, full ones, flushes, goodbyes, times
//! at the boundaries.

use super::packet::{corner, labelled_name, long_name, nsec_rdata, some_rdata, some_record};
use super::packet::{some_ttl, txt_of, Draft, DraftRecord};
use super::plain::OTHER_PORTS;
use super::Script;
use crate::cache::SLOT;
use crate::{rtype, MDNS_PORT, MOST_TIME};

const OWNERS: [&[u8]; 5] = [
    b"\x04desk\x05local\x00",
    b"\x03tea\x06_voice\x04_tcp\x05local\x00",
    b"\x06_voice\x04_tcp\x05local\x00",
    b"\x02[{\x02\xc3\x89\x05local\x00",
    b"\x00",
];
/// Sizes of a table, and of a store where it has a length of its own.
const LEGAL_TABLES: [&str; 14] = [
    "1", "2", "3", "9", "63", "64", "64", "64 65536", "65", "0100", "300", "511", "512", "512",
];
const ODD_TABLES: [&str; 24] = [
    "0",
    "0 0",
    "0 1024",
    "0 65536",
    "1 0",
    "1 1023",
    "1 1025",
    "1 2048",
    "1 525312",
    "2 1024",
    "2 2047",
    "2 2049",
    "63 65536",
    "64 65535",
    "64 65537",
    "65 65536",
    "511 524288",
    "512 65536",
    "512 524287",
    "512 524289",
    "513",
    "513",
    "513 524288",
    "513 525311",
];
/// So many records of one long owner fit in a message.
const MOST_FILL: u64 = 530;
const SIX: [u16; 7] = [
    rtype::A,
    rtype::PTR,
    rtype::TXT,
    rtype::AAAA,
    rtype::SRV,
    rtype::NSEC,
    rtype::NSEC,
];

impl Script {
    /// A while of puts and looks, with or without a new table before it.
    pub(super) fn store(&mut self) {
        if self.random.chance(25) {
            self.odd_table();
        }
        let mut now = self.cache_received();
        let legal = self.model.cache.check_sizes().is_ok();
        if !legal || self.random.chance(35) || now + 5000 > MOST_TIME {
            if legal && self.random.chance(50) {
                self.say("clear");
            } else {
                let sizes = self.random.pick(&LEGAL_TABLES);
                self.say(format!("table {sizes}"));
            }
            now = self.random.pick(&[
                0,
                0,
                1,
                5000,
                1 << 33,
                MOST_TIME - 3000,
                MOST_TIME - 1000,
                MOST_TIME,
            ]);
        }
        for _ in 0..self.random.below(30) {
            now = self.cache_time(now);
            match self.random.below(100) {
                0..=3 => self.fill(now),
                4..=44 => self.put_some(now),
                45..=47 => self.put_refused(now),
                48..=79 => self.look_some(now),
                80..=90 => {
                    let used = self.used_slots();
                    let slot = if used.is_empty() || self.random.chance(10) {
                        self.some_slot()
                    } else {
                        self.random.pick(&used)
                    };
                    self.say(format!("slot {slot}"));
                }
                91 | 92 => {
                    let bytes = corner(&mut self.random);
                    let line = format!("put {now} 5353 {}", self.hex(&bytes));
                    self.say(line);
                }
                _ => self.look_odd(now),
            }
        }
    }

    /// A table or a store of sizes that are refused, and some calls on them.
    fn odd_table(&mut self) {
        let sizes = self.random.pick(&ODD_TABLES);
        self.say(format!("table {sizes}"));
        for _ in 0..self.random.within(1..=6) {
            match self.random.below(9) {
                0 | 1 => self.put_some(0),
                2 => self.put_refused(0),
                3 | 4 => self.look_some(0),
                5 => self.look_odd(0),
                6 if self.random.chance(20) => {
                    self.say("clear");
                }
                _ => {
                    let slot = self.some_slot();
                    self.say(format!("slot {slot}"));
                }
            }
        }
    }

    /// Any slot, often where the table or the store ends.
    pub(super) fn some_slot(&mut self) -> usize {
        let entries = self.model.cache.entries().len();
        let whole = self.model.cache.store() / SLOT;
        let any = self.random.below(entries + 1);
        let edges = [
            entries.saturating_sub(1),
            entries,
            whole.saturating_sub(1),
            whole,
        ];
        let edge = self.random.pick(&edges);
        self.random.pick(&[any, edge, 0])
    }

    pub(super) fn cache_received(&self) -> u64 {
        let received = self
            .model
            .cache
            .entries()
            .iter()
            .map(|entry| entry.received);
        received.max().unwrap_or(0)
    }

    pub(super) fn used_slots(&self) -> Vec<usize> {
        let entries = self.model.cache.entries().iter().enumerate();
        entries
            .filter(|(_, entry)| entry.expiry != 0)
            .map(|(slot, _)| slot)
            .collect()
    }

    /// A time at or after `now`, often where an entry changes its meaning.
    fn cache_time(&mut self, now: u64) -> u64 {
        let used = self.used_slots();
        let near = if used.is_empty() {
            now + 1000
        } else {
            let slot = self.random.pick(&used);
            let entry = &self.model.cache.entries()[slot];
            let from = self.random.pick(&[entry.received + 1000, entry.expiry]);
            (from + 1).saturating_sub(self.random.within(0..=2))
        };
        let time = match self.random.below(12) {
            0..=3 => now,
            4..=7 if near >= now && near < now + 20_000 => near,
            4..=7 => now + self.random.pick(&[999, 1000, 1001]),
            8 | 9 => now + self.random.within(0..=1500),
            10 => now + self.random.pick(&[1, 500, 2000, 10_000]),
            _ if self.random.chance(5) => now + 5_000_000,
            _ => now,
        };
        time.min(MOST_TIME)
    }

    fn owner(&mut self) -> Vec<u8> {
        if self.random.chance(10) {
            let count = self.random.pick(&[1, 3, 64, 127, 127]);
            return labelled_name(&mut self.random, count);
        }
        let owner = self.random.pick(&OWNERS);
        if self.random.chance(30) {
            self.random.recase(owner)
        } else {
            owner.to_vec()
        }
    }

    fn cache_record(&mut self) -> DraftRecord {
        // most times a record that is in the cache, somewhat changed
        let used = self.used_slots();
        let class = self
            .random
            .pick(&[1, 1, 1, 1, 0x8001, 0x8001, 0x8001, 3, 255]);
        let ttl = some_ttl(&mut self.random);
        if !used.is_empty() && self.random.chance(60) {
            let slot = self.random.pick(&used);
            let entry = self.model.cache.entries()[slot].clone();
            let owner = match self.random.below(3) {
                0 => self.random.recase(&entry.owner),
                _ => entry.owner,
            };
            let rdata = if self.random.chance(30) {
                some_rdata(&mut self.random, &owner, entry.rtype)
            } else {
                entry.rdata
            };
            let rdata = match (entry.rtype, self.random.below(8)) {
                (rtype::SRV, 0) => {
                    let target = self.random.recase(&rdata[6..]);
                    [&rdata[..6], &target].concat()
                }
                (rtype::PTR, 0) => self.random.recase(&rdata),
                (rtype::NSEC, 0 | 1) => {
                    // a next name of other case, or of another owner's
                    let owner = self.random.recase(&owner);
                    nsec_rdata(&mut self.random, &owner)
                }
                (rtype::NSEC, 2 | 3) => {
                    let next = rdata.len().min(owner.len());
                    let next = self.random.recase(&rdata[..next]);
                    [&next, &rdata[next.len()..]].concat()
                }
                _ => rdata,
            };
            return DraftRecord::new(&owner, entry.rtype, class, ttl, &rdata);
        }
        match self.random.below(12) {
            0 => some_record(&mut self.random),
            1..=3 => {
                let length = self.random.pick(&[767, 768, 769, 770, 1024]);
                let rdata = txt_of(&mut self.random, length);
                let entries = self.model.cache.entries().iter();
                let texts: Vec<_> = entries
                    .filter(|entry| entry.rtype == rtype::TXT)
                    .map(|entry| entry.owner.clone())
                    .collect();
                let owner = if texts.is_empty() {
                    self.owner()
                } else {
                    self.random.pick(&texts)
                };
                DraftRecord::new(&owner, rtype::TXT, class, ttl, &rdata)
            }
            4 => {
                let length = self.random.pick(&[254, 255]);
                let owner = long_name(&mut self.random, length);
                let target = long_name(&mut self.random, 255);
                let rdata = [&[0; 6], &target[..]].concat();
                DraftRecord::new(&owner, rtype::SRV, class, ttl, &rdata)
            }
            _ => {
                let rtype = self.random.pick(&SIX);
                let owner = self.owner();
                let rdata = some_rdata(&mut self.random, &owner, rtype);
                DraftRecord::new(&owner, rtype, class, ttl, &rdata)
            }
        }
    }

    fn put_some(&mut self, now: u64) {
        let mut draft = Draft::response();
        let mut port = MDNS_PORT;
        if self.random.chance(5) {
            draft.flags = 0;
            port = self.random.pick(&[MDNS_PORT, 53, 1024]);
        }
        for _ in 0..self.random.pick(&[1, 1, 1, 2, 3, 5]) {
            let section = self.random.pick(&[0, 0, 0, 2, 2, 1]);
            let record = self.cache_record();
            draft.sections[section].push(record);
        }
        // the same record again in the same message
        if self.random.chance(15) {
            let section = self.random.pick(&[0, 2]);
            if let Some(record) = draft.sections[section].first().cloned() {
                draft.sections[section].push(record);
            }
        }
        let packet = self.packet(draft);
        let before = self.model.cache.entries().to_vec();
        let line = format!("put {now} {port} {}", self.hex(&packet));
        self.say(line);
        // what became of an entry
        let after = self.model.cache.entries();
        let changed = (0..after.len()).find(|slot| before[*slot] != after[*slot]);
        if let Some(slot) = changed.filter(|_| self.random.chance(30)) {
            self.say(format!("slot {slot}"));
        }
    }

    /// About as many records as the table has entries; at times one more later,
    /// and then a time between the two.
    fn fill(&mut self, now: u64) {
        let owner = self.owner();
        let ttl = self.random.pick(&[1, 2, 10, 120]);
        let entries = self.model.cache.entries().len() as u64;
        let count = match self.random.below(3) {
            0 => self.random.pick(&[entries - 1, entries, entries + 1]),
            _ => self.random.within(entries / 2..=entries * 3 / 2 + 2),
        };
        let mut draft = Draft::response();
        draft.cut_all = entries > 64;
        for number in 0..count.min(MOST_FILL) {
            let rdata = [
                172,
                16 + (number >> 8) as u8,
                self.random.byte() & 1,
                number as u8,
            ];
            draft.sections[0].push(DraftRecord::new(&owner, rtype::A, 1, ttl, &rdata));
        }
        let packet = self.packet(draft);
        let line = format!("put {now} 5353 {}", self.hex(&packet));
        self.say(line);
        if self.random.chance(40) && now + 10 <= MOST_TIME {
            self.put_some(now + 10);
            if self.random.chance(50) {
                self.put_some(now + 9);
            } else {
                self.look_some(now + 9);
            }
        }
    }

    fn put_refused(&mut self, now: u64) {
        let mut draft = Draft::response();
        let record = self.cache_record();
        draft.sections[0].push(record);
        if self.random.chance(30) {
            // a query, which no port is refused for
            draft.flags = 0;
        }
        let mut packet = self.packet(draft);
        let (mut time, mut port) = (now, 5353);
        for _ in 0..self.random.within(1..=2) {
            match self.random.below(4) {
                0 => time = self.bad_time(self.cache_received()),
                1 => port = self.random.pick(&OTHER_PORTS),
                2 => packet.truncate(self.random.pick(&[0, 11, 12, 20])),
                _ if packet.len() > 3 => packet[2] ^= 8 << self.random.below(4),
                _ => (),
            }
        }
        let line = format!("put {time} {port} {}", self.hex(&packet));
        self.say(line);
    }

    /// A time that is refused, or just not.
    pub(super) fn bad_time(&mut self, last: u64) -> u64 {
        let before = last.saturating_sub(1);
        self.random
            .pick(&[before, 0, MOST_TIME + 1, MOST_TIME + 2001, u64::MAX, last])
    }

    fn look_some(&mut self, now: u64) {
        let used = self.used_slots();
        let (owner, rtype) = if used.is_empty() || self.random.chance(15) {
            (self.owner(), self.random.pick(&SIX))
        } else {
            let slot = self.random.pick(&used);
            let entry = &self.model.cache.entries()[slot];
            (entry.owner.clone(), entry.rtype)
        };
        let owner = if self.random.chance(30) {
            self.random.recase(&owner)
        } else {
            owner
        };
        let from = match self.random.below(4) {
            0 => self.random.below(self.model.cache.entries().len() + 2),
            1 if !used.is_empty() => self.random.pick(&used) + self.random.below(2),
            _ => 0,
        };
        let line = format!("look {now} {} {rtype} {from}", self.hex(&owner));
        self.say(line);
    }

    fn look_odd(&mut self, now: u64) {
        let used = self.used_slots();
        let (mut owner, mut rtype) = (self.owner(), 1);
        if !used.is_empty() {
            let slot = self.random.pick(&used);
            let entry = &self.model.cache.entries()[slot];
            (owner, rtype) = (entry.owner.clone(), u64::from(entry.rtype));
        }
        let (mut time, mut from) = (now, 0);
        match self.random.below(8) {
            0 => time = self.bad_time(self.cache_received()),
            1 => {
                rtype = self
                    .random
                    .pick(&[0, 255, 65_535, 65_537, 65_536 + 16, u64::MAX])
            }
            2 => {
                let entries = self.model.cache.entries().len() as u64;
                let last = entries.saturating_sub(1);
                let past = [last, entries, entries + 1, 512, 1 << 32, u64::MAX];
                from = self.random.pick(&past);
            }
            3 => owner.push(0),
            4 => {
                owner.pop();
            }
            5 => owner.extend([0xc0, 12]),
            6 => {
                let length = self.random.within(253..=257) as usize;
                owner = long_name(&mut self.random, length);
            }
            _ => {
                let bad: &[u8] = self.random.pick(&[
                    &b""[..],
                    b"\xc0\x0c",
                    b"\x40",
                    b"\x01a\xc0\x0c",
                    b"\x80\x00",
                ]);
                owner = bad.to_vec();
            }
        }
        if self.random.chance(10) {
            time = self.bad_time(self.cache_received());
        }
        let line = format!("look {time} {} {rtype} {from}", self.hex(&owner));
        self.say(line);
    }
}
