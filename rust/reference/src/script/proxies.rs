//! Discovery proxies: pairs of domains, legal, equal, nested and malformed; names
//! under them and beside them, at the lengths where they no longer fit; records of
//! every type, given and cached.

use super::packet::{long_name, some_rdata, txt_of, Draft, DraftRecord};
use super::random::Random;
use super::Script;
use crate::{rtype, MOST_TIME};

const LOCAL: &[u8] = b"\x05local\x00";
const FIVE: [u16; 5] = [rtype::A, rtype::PTR, rtype::TXT, rtype::AAAA, rtype::SRV];
/// SOA, NS and DS, and types that are near them or ask for all.
const QUESTION_TYPES: [u64; 22] = [
    1, 12, 16, 28, 33, 6, 6, 2, 2, 43, 43, 5, 7, 3, 42, 44, 255, 0, 258, 262, 299, 65_535,
];
/// Lines that are not of their form.
const BAD_LINES: [&str; 22] = [
    "proxy",
    "proxy 016100",
    "proxy 016100 016200 00",
    "proxy 0161 0",
    "Proxy 016100 016200",
    "question",
    "question 00",
    "question 00 65536",
    "question 00 65538",
    "question 00 1 1",
    "question 00 -",
    "answer 00 1 1 1",
    "answer 00 65536 1 1 -",
    "answer 00 1 65536 1 -",
    "answer 00 1 1 4294967296 -",
    "answer 00 1 1 1 0",
    "answer 00 1 1 1 - -",
    "cached 0",
    "cached 0 513",
    "cached 0 18446744073709551615",
    "cached - 0",
    "cached 0 0 0",
];

/// The labels of a name of `length` bytes before a suffix; none where there is no
/// room for one.
fn under(random: &mut Random, length: usize, suffix: &[u8]) -> Vec<u8> {
    let mut name = match length.saturating_sub(suffix.len()) {
        0 | 1 => b"\x01x\x00".to_vec(),
        room => long_name(random, room + 1),
    };
    name.pop();
    [&name, suffix].concat()
}

/// A few labels before a suffix; now and then one that looks like it.
fn shortly_under(random: &mut Random, suffix: &[u8]) -> Vec<u8> {
    let labels: &[u8] = random.pick(&[
        &b"\x04desk"[..],
        b"\x03Tea\x06_voice\x04_tcp",
        b"\x02[{",
        b"\x05local",
        b"\x01x\x05LOCAL",
        b"\x04\xc3\x89\x00.",
    ]);
    let mut name = labels.to_vec();
    if random.chance(10) && suffix.len() < 100 {
        // twice
        name.extend(&suffix[..suffix.len() - 1]);
    }
    name.extend(suffix);
    name
}

/// A name that ends with the bytes of the suffix, but not with its labels.
fn nearly_under(random: &mut Random, suffix: &[u8]) -> Vec<u8> {
    let room = 61_usize.saturating_sub(suffix.len());
    let is_odd = |byte: &u8| *byte > 0x3f && !byte.is_ascii_alphabetic();
    match random.below(5) {
        // the bit of case in a byte that is no letter
        3 if suffix.iter().any(is_odd) => {
            let turned = suffix.iter().map(|byte| match is_odd(byte) {
                true => byte ^ 0x20,
                false => *byte,
            });
            b"\x01y".iter().copied().chain(turned).collect()
        }
        // inside a label
        0 | 1 if room > 1 => {
            let before = 1 + random.below(room);
            let mut name = vec![(before + suffix.len() - 1) as u8];
            name.extend(vec![b'x'; before]);
            name.extend(suffix);
            name
        }
        // the last label one byte longer
        2 if suffix[0] < 63 => {
            let mut name = b"\x01y".to_vec();
            name.push(suffix[0] + 1);
            name.push(b'x');
            name.extend(&suffix[1..]);
            name
        }
        // the labels without the last, or with one more behind
        _ => {
            let mut name = b"\x01y".to_vec();
            name.extend(&suffix[..suffix.len() - 1]);
            name.extend(b"\x01z\x00");
            name
        }
    }
}

impl Script {
    /// Calls before the first set-up.
    pub(super) fn blank_proxy(&mut self) {
        for line in [
            "question 00 1",
            "question 0000 1",
            "question - 6",
            "answer 00 1 1 1 01020304",
            "answer - 1 1 1 -",
            "answer 00 47 1 1 -",
            "cached 0 0",
            "cached 0 63",
            "cached 0 64",
            "cached 4611686018427387905 0",
            "proxy 016100 016100",
            "question 0178016100 1",
            "table 0",
            "cached 0 0",
            "table 2 1024",
            "cached 0 1",
            "cached 4611686018427387905 1",
            "table 64",
        ] {
            self.say(line);
        }
    }

    /// Proxies, questions and records.
    pub(super) fn proxies(&mut self) {
        if self.random.chance(70) {
            self.set_up_proxy();
        }
        for _ in 0..self.random.below(40) {
            match self.random.below(40) {
                0 => {
                    let line = self.random.pick(&BAD_LINES);
                    self.say(line);
                }
                1 | 2 => self.set_up_proxy(),
                3..=16 => self.proxy_question(),
                17..=32 => self.proxy_answer(),
                _ => self.proxy_cached(),
            }
        }
    }

    fn domain(&mut self) -> Vec<u8> {
        let domain: &[u8] = self.random.pick(&[
            &b"\x04rich\x07example\x00"[..],
            b"\x03ldh\x07example\x00",
            b"\x01a\x00",
            b"\x01b\x00",
            b"\x02ab\x00",
            b"\x05local\x00",
            b"\x05LOCAK\x00",
            b"\x08Building\x051-2-3\x03net\x00",
            b"\x03\x00.\xff\x00",
            b"\x04[a@}\x00",
        ]);
        if self.random.chance(15) {
            let length = self.random.pick(&[3, 6, 7, 8, 100, 200, 248, 253, 255]);
            return long_name(&mut self.random, length);
        }
        domain.to_vec()
    }

    fn set_up_proxy(&mut self) {
        let (mut rich, mut ldh) = (self.domain(), self.domain());
        match self.random.below(16) {
            0 => ldh = self.random.recase(&rich),
            1 => rich = shortly_under(&mut self.random, &ldh),
            2 => {
                let recased = self.random.recase(&rich);
                ldh = shortly_under(&mut self.random, &recased);
            }
            3 => rich = nearly_under(&mut self.random, &ldh),
            4 => ldh = nearly_under(&mut self.random, &rich),
            5 => rich = b"\x00".to_vec(),
            6 => ldh = b"\x00".to_vec(),
            7 => {
                let bad = self.bad_name();
                if self.random.chance(50) {
                    rich = bad;
                } else {
                    ldh = bad;
                }
            }
            8 | 9 => {
                // siblings
                rich = b"\x04rich\x07example\x00".to_vec();
                ldh = b"\x03ldh\x07example\x00".to_vec();
            }
            _ => (),
        }
        let (rich, ldh) = (self.hex(&rich), self.hex(&ldh));
        self.say(format!("proxy {rich} {ldh}"));
    }

    fn bad_name(&mut self) -> Vec<u8> {
        let length = self.random.pick(&[256, 257, 300]);
        let long = long_name(&mut self.random, length);
        self.random.pick(&[
            vec![],
            b"\x01a".to_vec(),
            b"\x01a\x00\x00".to_vec(),
            b"\x01a\xc0\x0c".to_vec(),
            b"\xc0\x0c".to_vec(),
            b"\x00\x00".to_vec(),
            b"\x40a\x00".to_vec(),
            long,
        ])
    }

    /// The domains of the proxy, rich text first; any where there is none.
    fn domains(&self) -> [Vec<u8>; 2] {
        match self.model.proxy_domains() {
            Some(domains) => domains.map(<[u8]>::to_vec),
            None => [b"\x01a\x00".to_vec(), b"\x01b\x00".to_vec()],
        }
    }

    /// A name for which the suffix matters; `most` bytes are the most that can be
    /// mapped.
    fn name_near(&mut self, suffix: &[u8], most: usize) -> Vec<u8> {
        let name = match self.random.below(12) {
            0..=3 => shortly_under(&mut self.random, suffix),
            4..=6 => {
                let length = most + self.random.pick(&[0, 1, 1, 2, 2, 3]) - 1;
                under(&mut self.random, length.min(255), suffix)
            }
            7 => under(&mut self.random, 255, suffix),
            8 => suffix.to_vec(),
            9 => nearly_under(&mut self.random, suffix),
            10 => long_name(&mut self.random, 255),
            _ => b"\x00".to_vec(),
        };
        match self.random.below(5) {
            0 => self.random.recase(&name),
            _ => name,
        }
    }

    fn proxy_question(&mut self) {
        let domains = self.domains();
        let suffix = match self.random.below(9) {
            0 => LOCAL.to_vec(),
            _ => self.random.pick(&domains),
        };
        let most = (255 + suffix.len() - LOCAL.len()).min(255);
        let mut name = self.name_near(&suffix, most);
        if self.random.chance(4) {
            name = self.bad_name();
        }
        let mut rtype = self.random.pick(&QUESTION_TYPES);
        if self.random.chance(2) {
            rtype += 65_536;
        }
        let line = format!("question {} {rtype}", self.hex(&name));
        self.say(line);
    }

    /// A name under "local" most times, near what fits under one of the domains.
    fn name_out(&mut self) -> Vec<u8> {
        let domains = self.domains();
        let domain = self.random.pick(&domains);
        match self.random.below(12) {
            0 => self.name_near(&domain, 255),
            _ => self.name_near(LOCAL, (255 + LOCAL.len() - domain.len()).min(255)),
        }
    }

    fn rdata_out(&mut self, rtype: u16) -> Vec<u8> {
        let owner = b"\x04desk\x05local\x00";
        let mut rdata = match rtype {
            rtype::PTR => self.name_out(),
            rtype::SRV => [self.random.bytes(6), self.name_out()].concat(),
            rtype::TXT => {
                let length = self.random.pick(&[0, 1, 20, 400, 768, 769, 2000]);
                txt_of(&mut self.random, length)
            }
            _ => some_rdata(&mut self.random, owner, rtype),
        };
        match self.random.below(25) {
            0 => rdata.push(0),
            1 => {
                rdata.pop();
            }
            2 => rdata = self.random.bytes(6),
            3 if rdata.len() > 2 => {
                let at = rdata.len() - 1;
                rdata.splice(at.., [0xc0, 0x0c]);
            }
            _ => (),
        }
        rdata
    }

    fn proxy_answer(&mut self) {
        let five = self.random.pick(&FIVE);
        let rtype = self
            .random
            .pick(&[five, five, five, five, five, five, five, 47, 2, 255, 0]);
        let mut owner = match rtype {
            rtype::A | rtype::TXT | rtype::AAAA => self.name_out(),
            _ if self.random.chance(50) => self.name_out(),
            _ => shortly_under(&mut self.random, LOCAL),
        };
        if self.random.chance(4) {
            owner = self.bad_name();
        }
        let class = self
            .random
            .pick(&[1, 1, 0x8001, 0x8001, 3, 255, 0x80ff, 0, 0x8000, 65_535]);
        let ttl: u32 = self.random.pick(&[
            0,
            1,
            8,
            9,
            10,
            11,
            12,
            120,
            256,
            4500,
            0x7fff_ffff,
            0x8000_0000,
            0x8000_0005,
            u32::MAX,
        ]);
        let rdata = self.rdata_out(rtype);
        // numbers that make it a bad line
        let over = match self.random.below(80) {
            0 => [1 << 16, 0, 0],
            1 => [0, 1 << 16, 0],
            2 => [0, 0, 1 << 32],
            _ => [0; 3],
        };
        let (rtype, class) = (over[0] + u64::from(rtype), over[1] + class);
        let ttl = over[2] + u64::from(ttl);
        let line = format!(
            "answer {} {rtype} {class} {ttl} {}",
            self.hex(&owner),
            self.hex(&rdata)
        );
        self.say(line);
    }

    /// A record is put, and entries are asked for, near the seconds of their last
    /// ten.
    fn proxy_cached(&mut self) {
        if self.random.chance(3) {
            // sizes that are refused, and the time before them
            let sizes = self.random.pick(&["2 1024", "1 1025", "513", "0"]);
            self.say(format!("table {sizes}"));
            let now = self.bad_time(0);
            let slot = self.some_slot();
            self.say(format!("cached {now} {slot}"));
            self.say(format!("cached 0 {slot}"));
            self.say("table 64");
        }
        let received = self.cache_received();
        if self.random.chance(30) {
            let rtype = self
                .random
                .pick(&[FIVE[0], FIVE[1], FIVE[2], FIVE[3], FIVE[4], 47]);
            let owner = self.name_out();
            let rdata = match rtype {
                rtype::PTR => self.name_out(),
                rtype::SRV => [self.random.bytes(6), self.name_out()].concat(),
                rtype => some_rdata(&mut self.random, &owner, rtype),
            };
            let ttl = self.random.pick(&[1, 2, 9, 10, 11, 12, 120]);
            let class = self.random.pick(&[1, 0x8001]);
            let mut draft = Draft::response();
            let record = DraftRecord::new(&owner, rtype, class, ttl, &rdata);
            draft.sections[0].push(record);
            let packet = draft.encode(&mut self.random);
            let line = format!("put {received} 5353 {}", self.hex(&packet));
            self.say(line);
        }
        let used = self.used_slots();
        let mut slot = self.some_slot();
        let mut now = received;
        if !used.is_empty() && self.random.chance(90) {
            slot = self.random.pick(&used);
            let expiry = self.model.cache.entries()[slot].expiry;
            let left = self.random.pick(&[
                0, 1, 999, 1000, 1001, 5500, 8999, 9000, 9999, 10_000, 10_001, 10_999, 11_000,
                11_001, 12_000,
            ]);
            let time = expiry.saturating_sub(left);
            if time >= received && time <= MOST_TIME && self.random.chance(80) {
                now = time;
            }
        }
        if self.random.chance(5) {
            now = self.bad_time(received);
        }
        self.say(format!("cached {now} {slot}"));
    }
}
