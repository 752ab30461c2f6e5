//! Lives of a responder: from its start through waiting, probing, deferred,
//! held and lost, with packets aimed at the claims it has.

use super::packet::{corner, largest, long_name, some_name, some_rdata, some_record, txt_of};
use super::packet::{window_block, Draft, DraftData, DraftRecord, CLASSES, TYPES};
use super::plain::OTHER_PORTS;
use super::Script;
use crate::responder::Claim;
use crate::setup::{ClaimName, Kind, OwnRecord, Setup};
use crate::{rtype, MDNS_PORT, MOST_TIME};

/// Types that a claim may have no record of.
const ABSENT: [u16; 14] = [28, 28, 28, 1, 12, 16, 33, 47, 47, 0, 99, 256, 284, 65_535];
const PROTOCOLS: [&[u8]; 2] = [b"_tcp", b"_udp"];
/// Forms of UTF-8, the first and the last of each kind, and some that are
/// seldom met: C1 controls, U+FEFF, noncharacters.
const GOOD_FORMS: [&[u8]; 24] = [
    b" ",
    b"a",
    b"Z",
    b"~",
    b"\xc2\x80",
    b"\xc2\x85",
    b"\xc2\x9f",
    b"\xc3\xa9",
    b"\xdf\xbf",
    b"\xe0\xa0\x80",
    b"\xe0\xbf\xbf",
    b"\xe1\x80\x80",
    b"\xec\xbf\xbf",
    b"\xed\x80\x80",
    b"\xed\x9f\xbf",
    b"\xee\x80\x80",
    b"\xef\xbb\xbf",
    b"\xef\xbf\xbe",
    b"\xef\xbf\xbf",
    b"\xf0\x90\x80\x80",
    b"\xf1\x80\x80\x80",
    b"\xf3\xbf\xbf\xbf",
    b"\xf4\x80\x80\x80",
    b"\xf4\x8f\xbf\xbf",
];
/// What is no form of UTF-8, for its first byte or another.
const BAD_FORMS: [&[u8]; 46] = [
    b"\x80",
    b"\x8f",
    b"\xa0",
    b"\xbf",
    b"\xc0\x80",
    b"\xc0\xbf",
    b"\xc1\x80",
    b"\xc1\xbf",
    b"\xc2",
    b"\xc2\xc0",
    b"\xc2 ",
    b"\xdf",
    b"\xdf\x7e",
    b"\xe0",
    b"\xe0\x80\x80",
    b"\xe0\x9f\xbf",
    b"\xe0\xa0",
    b"\xe0\xa0\xc0",
    b"\xe1\x80",
    b"\xe1\x80a",
    b"\xe1\xc0\x80",
    b"\xec\xbf",
    b"\xed\xa0\x80",
    b"\xed\xbf\xbf",
    b"\xed\x9f",
    b"\xef",
    b"\xef\xbf",
    b"\xef\xbf\xc0",
    b"\xf0",
    b"\xf0\x80\x80\x80",
    b"\xf0\x8f\xbf\xbf",
    b"\xf0\x90\x80",
    b"\xf1\x80\x80",
    b"\xf1\x80\x80a",
    b"\xf1\x80a\x80",
    b"\xf3\xc0\x80\x80",
    b"\xf4\x8f\xbf",
    b"\xf4\x90\x80\x80",
    b"\xf4\xbf\xbf\xbf",
    b"\xf5\x80\x80\x80",
    b"\xf5\x80\x80\x80",
    b"\xf5\xbf\xbf\xbf",
    b"\xf7\xbf\xbf\xbf",
    b"\xf8\x88\x80\x80\x80",
    b"\xfe",
    b"\xff",
];

impl Script {
    /// Calls before the first start, on the blank state.
    pub(super) fn blank_responder(&mut self) {
        for line in [
            "claims",
            "tick 0",
            "tick 0 1451",
            "tick 4611686018427387905",
            "recv 0 0a000001 5353 20 400 000000000000000000000000",
            "recv 0 0a000001 5353 20 400 000000000001000000000000",
            "recv 0 0a000001 5354 20 400 000000000001000000000000",
            "recv 0 0a000001 5354 20 400 000080000001000000000000",
            "recv 0 0a000001 5354 20 400 000000000000000000000000",
            "recv 0 0a000001 5353 19 400 000000000001000000000000",
            "recv 0 0a000001 5353 20 399 000000000001000000000000",
            "holds",
            "stop 0",
            "stop 0 1451",
            "update 0 port 80",
            "update 0 txt 00",
            "update 0 txt - 1451",
            "slot 0",
            "slot 63",
            "out 0 4096",
            "unicast 0 4096",
            "look 0 00 0 0",
        ] {
            self.say(line);
        }
    }

    /// Starts, most of them refused.
    pub(super) fn starts(&mut self) {
        for _ in 0..self.random.below(30) {
            self.refused_start();
        }
    }

    /// One responder from its start on.
    pub(super) fn life(&mut self) {
        if self.random.chance(10) {
            self.refused_start();
        }
        // now and then the old responder lives on
        if self.random.chance(85) || self.claims_lost() || !self.has_setup() {
            let setup = self.legal_setup();
            let last = self.model.responder.last;
            let now = self.random.pick(&[
                0,
                0,
                1,
                1000,
                last,
                1 << 40,
                MOST_TIME - 900,
                MOST_TIME - 3000,
                MOST_TIME - 60_000,
            ]);
            let draw = match self.random.below(4) {
                0 => 0,
                1 => 250,
                _ => self.random.within(0..=250),
            };
            self.say_start(now, draw, &setup);
        }
        self.hostility = self.random.pick(&[0, 2, 5, 20]);
        for _ in 0..self.random.below(60) {
            self.life_step();
            if self.claims_lost() && self.random.chance(60) {
                break;
            }
        }
    }

    fn has_setup(&self) -> bool {
        self.model.responder.setup.is_legal()
    }

    fn claims_lost(&self) -> bool {
        let responder = &self.model.responder;
        responder.instance == Claim::Lost && responder.host == Claim::Lost
    }

    fn life_step(&mut self) {
        let now = self.life_time();
        if !self.rivalled_claims().is_empty() && self.random.chance(25) {
            self.recv_probe(now);
            self.say("claims");
            return;
        }
        if !self.model.responder.holds.is_empty() && self.random.chance(20) {
            self.recv_more_known(now);
            return;
        }
        if self.random.chance(8) {
            self.recv_wanting_unicast();
            return;
        }
        if self.random.chance(6) {
            self.change();
            return;
        }
        match self.random.below(100) {
            0..=9 => self.climb(),
            10..=12 => self.relapse(),
            13..=34 => self.tick_all(now),
            35..=49 => self.recv_probe(now),
            50..=60 => self.recv_query(now),
            61..=65 => self.recv_truncated(now),
            66 | 67 => self.burst(now),
            68..=74 => self.recv_plain(now),
            75..=87 => self.recv_response(now),
            88..=90 => self.recv_echo(now),
            91..=94 => self.refused_call(now),
            95 => {
                let bytes = if self.random.chance(5) {
                    largest(&mut self.random)
                } else {
                    corner(&mut self.random)
                };
                self.recv(now, &bytes);
            }
            96 => {
                let draft = self.some_draft();
                let packet = self.packet(draft);
                self.recv(now, &packet);
            }
            97 => {
                let buffer = self.random.pick(&["out", "unicast"]);
                let at = self.random.below(1500);
                let length = self.random.below(200);
                self.say(format!("{buffer} {at} {length}"));
            }
            _ => {
                self.say("claims");
            }
        }
        if self.random.chance(50) {
            self.say("claims");
        }
        if self.random.chance(10) {
            self.say("holds");
        }
    }

    /// A time at or after the responder's last, often where a step is due or a
    /// record may be sent again.
    pub(super) fn life_time(&mut self) -> u64 {
        let responder = &self.model.responder;
        let last = responder.last;
        let dues: Vec<u64> = responder.dues().collect();
        let multicast: Vec<u64> = responder.multicast.into_iter().flatten().collect();
        let time = match self.random.below(10) {
            0..=3 if !dues.is_empty() => {
                let due = self.random.pick(&dues);
                (due + self.random.pick(&[0, 0, 0, 1, 2, 51])).saturating_sub(1)
            }
            4..=6 if !multicast.is_empty() => {
                let gap = self
                    .random
                    .pick(&[249, 250, 250, 251, 999, 1000, 1000, 1001]);
                self.random.pick(&multicast) + gap
            }
            7 => last + self.random.within(0..=60),
            8 if self.random.chance(50) => last + self.random.within(0..=3000),
            _ => last,
        };
        if time < last {
            return last;
        }
        time.min(MOST_TIME)
    }

    /// Ticks at the due times until both claims are held or lost.
    fn climb(&mut self) {
        for _ in 0..10 {
            let responder = &self.model.responder;
            let settled = |claim: Claim| claim.is_held() || claim == Claim::Lost;
            if settled(responder.instance) && settled(responder.host) {
                return;
            }
            let dues = [responder.instance.due(), responder.host.due()];
            let Some(due) = dues.into_iter().flatten().min() else {
                return;
            };
            let late = self.random.pick(&[0, 0, 0, 1, 50]);
            let now = (due + late).max(responder.last).min(MOST_TIME);
            self.say(format!("tick {now}"));
            if self.random.chance(15) {
                self.recv_query(now);
            }
            if self.random.chance(20) {
                self.say("claims");
            }
        }
    }

    /// A held claim hears a conflict soon after its records went out, and probes
    /// again at once: its announcement comes within 1,000 ms of the last.
    fn relapse(&mut self) {
        self.climb();
        let responder = &self.model.responder;
        let now = responder.last;
        let mut own = self.own_records();
        own.retain(|own| match own.kind.claim() {
            ClaimName::Instance => own.kind.is_claimed() && responder.instance.is_held(),
            ClaimName::Host => responder.host.is_held(),
        });
        if own.is_empty() || self.hostility == 0 {
            return;
        }
        let own = self.random.pick(&own);
        let mut draft = Draft::response();
        let mut record = self.own_draft(&own, 1, 120);
        self.change_data(&mut record);
        draft.sections[0].push(record.clone());
        if self.random.chance(50) {
            // "One message counts once per claim"
            let section = self.random.below(3);
            draft.sections[section].push(record);
        }
        let packet = draft.encode(&mut self.random);
        let now = (now + self.random.pick(&[0, 0, 1, 100])).min(MOST_TIME);
        self.recv(now, &packet);
        self.say("claims");
        if self.random.chance(10) {
            // again, while it waits
            self.recv(now, &packet);
            self.say("claims");
        }
        self.climb();
    }

    pub(super) fn tick_all(&mut self, now: u64) {
        let room = self
            .random
            .pick(&["", "", "", "", " 1452", " 4096", " 2000"]);
        for _ in 0..self.random.within(1..=4) {
            let answer = self.say(format!("tick {now}{room}"));
            if !answer.ends_with("more") && self.random.chance(70) {
                return;
            }
        }
    }

    /// Most times from port 5353.
    fn recv(&mut self, now: u64, packet: &[u8]) {
        let port = match self.random.chance(4) {
            true => self.random.pick(&OTHER_PORTS),
            false => MDNS_PORT,
        };
        self.recv_from(port, now, packet);
    }

    pub(super) fn recv_from(&mut self, port: u64, now: u64, packet: &[u8]) {
        let source = self.source();
        self.recv_with(&source, port, now, packet);
    }

    pub(super) fn recv_with(&mut self, source: &[u8], port: u64, now: u64, packet: &[u8]) {
        let draw = match self.random.below(5) {
            0 => 20,
            1 => 120,
            _ => self.random.within(20..=120),
        };
        let room = self.random.pick(&[
            "",
            "",
            "",
            "",
            " 1452",
            " 4096",
            " 1452 1452",
            " 4096 1452",
            " 1452 4096",
        ]);
        let (from, hold) = (self.hex(source), self.hold_draw());
        let packet = self.hex(packet);
        let line = format!("recv {now} {from} {port} {draw} {hold} {packet}{room}");
        self.say(line);
    }

    fn own_records(&self) -> Vec<OwnRecord> {
        self.model.responder.setup.records()
    }

    /// The same, and the two NSEC.
    fn all_records(&self) -> Vec<OwnRecord> {
        self.model.responder.setup.all_records()
    }

    fn claimed(&self, claim: ClaimName) -> Vec<OwnRecord> {
        self.model.responder.setup.claimed_records(claim)
    }

    /// The claims that are being probed for, which a later probe defers.
    fn rivalled_claims(&self) -> Vec<ClaimName> {
        let responder = &self.model.responder;
        let mut claims = Vec::new();
        if matches!(responder.instance, Claim::Probing { .. }) {
            claims.push(ClaimName::Instance);
        }
        if matches!(responder.host, Claim::Probing { .. }) {
            claims.push(ClaimName::Host);
        }
        claims
    }

    fn some_claim(&mut self) -> ClaimName {
        self.random.pick(&[ClaimName::Instance, ClaimName::Host])
    }

    /// A name in some case, of the responder's most times.
    fn aimed_name(&mut self) -> Vec<u8> {
        let setup = &self.model.responder.setup;
        let name = match self.random.below(10) {
            0..=2 => setup.instance_name(),
            3..=5 => setup.host_name(),
            6..=8 => setup.service_name(),
            _ => return some_name(&mut self.random),
        };
        self.maybe_recase(name.wire())
    }

    fn maybe_recase(&mut self, name: &[u8]) -> Vec<u8> {
        if self.random.chance(30) {
            self.random.recase(name)
        } else {
            name.to_vec()
        }
    }

    /// An own record as a draft, with owner in some case.
    fn own_draft(&mut self, own: &OwnRecord, class: u16, ttl: u32) -> DraftRecord {
        let owner = self.maybe_recase(own.owner.wire());
        DraftRecord::new(&owner, own.kind.rtype(), class, ttl, &own.rdata())
    }

    /// Data near the record's own: earlier, later, shorter, longer, other case.
    fn change_data(&mut self, record: &mut DraftRecord) {
        match &mut record.data {
            DraftData::Name(name) => *name = self.random.recase(name),
            DraftData::Service(numbers, target) => match self.random.below(4) {
                0 => *target = self.random.recase(target),
                1 => *target = some_name(&mut self.random),
                2 => numbers[self.random.below(6)] ^= 0x80,
                _ => {
                    let at = self.random.below(6);
                    numbers[at] = numbers[at].wrapping_add(self.random.pick(&[1, 255]));
                }
            },
            DraftData::Next(next, window) => match self.random.below(6) {
                0 | 1 => *next = self.random.recase(next),
                2 => *next = some_name(&mut self.random),
                3 => *window = window_block(&mut self.random),
                4 if (2..34).contains(&window.len()) => {
                    // a zero byte at the end
                    window.push(0);
                    window[1] = window[1].wrapping_add(1);
                }
                _ => {
                    let at = self.random.below(window.len().max(1));
                    if let Some(byte) = window.get_mut(at) {
                        *byte ^= 1 << self.random.below(8);
                    }
                }
            },
            DraftData::Bytes(bytes) if record.rtype == rtype::TXT => {
                match self.random.below(5) {
                    0 => bytes.push(0),
                    1 => bytes.extend(b"\x02zz"),
                    2 => bytes.clear(),
                    3 => {
                        let length = bytes.len();
                        *bytes = txt_of(&mut self.random, length);
                    }
                    _ => {
                        // a byte that is no length byte
                        let first = usize::from(*bytes.first().unwrap_or(&0));
                        if first > 0 {
                            let at = 1 + self.random.below(first);
                            bytes[at] ^= self.random.pick(&[1, 0x80, 0x20]);
                        }
                    }
                };
            }
            DraftData::Bytes(bytes) if !bytes.is_empty() => {
                let at = self.random.below(bytes.len());
                bytes[at] = match self.random.below(3) {
                    0 => bytes[at] ^ 0x80,
                    1 => bytes[at].wrapping_add(1),
                    _ => bytes[at].wrapping_sub(1),
                };
            }
            DraftData::Bytes(_) => (),
        }
    }

    /// The records a rival probes with.
    pub(super) fn rival_records(&mut self, claim: ClaimName) -> Vec<DraftRecord> {
        let mut records = Vec::new();
        for own in self.claimed(claim) {
            let class = self.random.pick(&[1, 1, 1, 0x8001]);
            let ttl = self.random.pick(&[120, 4500, 0, 0xffff_ffff]);
            records.push(self.own_draft(&own, class, ttl));
        }
        for _ in 0..self.random.pick(&[0, 1, 1, 1, 2]) {
            let at = self.random.below(records.len().max(1));
            match self.random.below(12) {
                0..=4 if !records.is_empty() => {
                    let mut record = records[at].clone();
                    self.change_data(&mut record);
                    records[at] = record;
                }
                5 if !records.is_empty() => {
                    records.remove(at);
                }
                6 if !records.is_empty() => records.push(records[at].clone()),
                7 if !records.is_empty() => records[at].class = self.random.pick(&CLASSES),
                8 => {
                    let mut record = some_record(&mut self.random);
                    if self.random.chance(80) {
                        let name = self.model.responder.setup.claim_name(claim);
                        record.owner = self.maybe_recase(name.wire());
                    }
                    records.push(record);
                }
                9 => {
                    // one more of an own type
                    let rtype = self.random.pick(&[1, 16, 28, 33, 47]);
                    let name = self.model.responder.setup.claim_name(claim);
                    let rdata = some_rdata(&mut self.random, name.wire(), rtype);
                    records.push(DraftRecord::new(name.wire(), rtype, 1, 120, &rdata));
                }
                _ => (),
            }
        }
        if self.random.chance(50) {
            self.random.shuffle(&mut records);
        }
        records
    }

    fn recv_probe(&mut self, now: u64) {
        let mut draft = Draft::query();
        let rivalled = self.rivalled_claims();
        let mut claims = if rivalled.is_empty() || self.random.chance(30) {
            vec![self.some_claim()]
        } else {
            vec![self.random.pick(&rivalled)]
        };
        if self.random.chance(25) {
            claims = vec![ClaimName::Host, ClaimName::Instance];
        }
        for claim in claims {
            let name = self.model.responder.setup.claim_name(claim);
            let name = self.maybe_recase(name.wire());
            let rtype = self
                .random
                .pick(&[255, 255, 255, 255, 255, 255, 255, 1, 33]);
            let class = self.random.pick(&[1, 1, 1, 1, 0x8001, 255, 0x80ff, 3]);
            draft.questions.push((name, rtype, class));
            let rivals = self.rival_records(claim);
            let section = self.random.pick(&[1, 1, 1, 1, 1, 1, 1, 1, 0, 2]);
            draft.sections[section].extend(rivals);
        }
        if self.random.chance(35) {
            let question = if self.random.chance(40) {
                // what its claim has no record of
                let name = draft.questions[0].0.clone();
                (name, self.random.pick(&ABSENT), 1)
            } else if self.random.chance(40) {
                // the service's PTR, asked along with the probe
                let service = self.model.responder.setup.service_name();
                (service.wire().to_vec(), rtype::PTR, 1)
            } else {
                self.some_question()
            };
            draft.questions.insert(0, question);
        }
        if self.random.chance(10) {
            self.add_known_answers(&mut draft);
        }
        if self.random.chance(10) {
            self.random.shuffle(&mut draft.sections[1]);
        }
        if self.random.chance(2) {
            draft.flags = 0x8000;
        }
        let packet = self.packet(draft);
        self.recv(now, &packet);
    }

    pub(super) fn some_question(&mut self) -> (Vec<u8>, u16, u16) {
        let own = self.own_records();
        let class = self.random.pick(&[1, 1, 1, 0x8001, 255, 0x80ff, 3, 0]);
        if self.random.chance(25) {
            // what a claim has no record of, most times
            let name = self.aimed_name();
            return (name, self.random.pick(&ABSENT), class);
        }
        if self.random.chance(70) {
            let record = self.random.pick(&own);
            let name = self.maybe_recase(record.owner.wire());
            let rtype = self.random.pick(&[record.kind.rtype(), rtype::ANY]);
            return (name, rtype, class);
        }
        (self.aimed_name(), self.random.pick(&TYPES), class)
    }

    pub(super) fn add_known_answers(&mut self, draft: &mut Draft) {
        for own in self.all_records() {
            if self.random.chance(40) {
                continue;
            }
            let half = own.kind.ttl() / 2;
            let ttl = self.random.pick(&[
                half - 1,
                half - 1,
                half,
                half,
                half + 1,
                2 * half,
                0,
                0x8000_0000 | half,
                0x7fff_ffff,
            ]);
            let class = self.random.pick(&[1, 1, 1, 1, 0x8001, 3, 255]);
            let mut record = self.own_draft(&own, class, ttl);
            if self.random.chance(15) {
                self.change_data(&mut record);
            }
            let section = self.random.pick(&[0, 0, 0, 0, 0, 0, 0, 2]);
            draft.sections[section].push(record);
        }
        if self.random.chance(10) {
            let record = some_record(&mut self.random);
            draft.sections[0].push(record);
        }
    }

    fn recv_query(&mut self, now: u64) {
        let mut draft = Draft::query();
        for _ in 0..self.random.pick(&[1, 1, 1, 2, 3]) {
            let question = self.some_question();
            draft.questions.push(question);
        }
        if self.random.chance(15) {
            // all that can go out at once
            for claim in [ClaimName::Instance, ClaimName::Host] {
                let name = self.model.responder.setup.claim_name(claim);
                let name = self.maybe_recase(name.wire());
                draft.questions.push((name.clone(), rtype::ANY, 1));
                draft.questions.push((name, self.random.pick(&ABSENT), 1));
            }
        }
        if self.random.chance(15) {
            draft.questions.extend_from_within(..);
        }
        if self.random.chance(40) {
            self.add_known_answers(&mut draft);
        }
        if self.random.chance(2) {
            draft.flags = 0x8400;
        }
        let packet = self.packet(draft);
        self.recv(now, &packet);
    }

    /// A response: harmless, a near conflict, or a conflict.
    fn recv_response(&mut self, now: u64) {
        let mut draft = Draft::response();
        let responder = &self.model.responder;
        let deferred = |claim: Claim| matches!(claim, Claim::Deferred { .. });
        let hostility = if deferred(responder.instance) || deferred(responder.host) {
            self.hostility.max(10)
        } else {
            self.hostility
        };
        let hostile = self.random.chance(hostility);
        for own in self.all_records() {
            if self.random.chance(50) {
                continue;
            }
            let class = self.random.pick(&[1, 0x8001]);
            let mut record = self.own_draft(&own, class, own.kind.ttl());
            if hostile {
                record.ttl = self.random.pick(&[1, 120, 0x7fff_ffff]);
                self.change_data(&mut record);
            } else {
                match self.random.below(5) {
                    0 => {
                        record.ttl = self.random.pick(&[0, 0x8000_0000, 0xffff_ffff]);
                        self.change_data(&mut record);
                    }
                    1 => {
                        record.class = self.random.pick(&[3, 255, 0, 0x8003, 0x80ff]);
                        self.change_data(&mut record);
                    }
                    2 => {
                        record.owner = self.aimed_name();
                        let held = self.model.responder.instance.is_held();
                        if !held && self.random.chance(90) {
                            record.owner = some_name(&mut self.random);
                        }
                    }
                    3 if own.kind == Kind::Ptr => self.change_data(&mut record),
                    3 | 4 if own.kind.is_negative() => self.change_data(&mut record),
                    _ => (),
                }
            }
            let section = self.random.below(3);
            draft.sections[section].push(record);
        }
        // an AAAA, which the host may not have
        if self.model.responder.setup.aaaa.is_none() && self.random.chance(30) {
            let owner = self.model.responder.setup.host_name();
            let rdata = some_rdata(&mut self.random, owner.wire(), rtype::AAAA);
            draft.sections[0].push(DraftRecord::new(owner.wire(), rtype::AAAA, 1, 120, &rdata));
        }
        if hostile && self.random.chance(30) {
            // twice in one message
            let twice = draft.sections[0].clone();
            draft.sections[2].extend(twice);
        }
        if self.random.chance(15) {
            let question = self.some_question();
            draft.questions.push(question);
        }
        let packet = self.packet(draft);
        self.recv(now, &packet);
        if self.random.chance(20) {
            let put = self
                .model
                .cache
                .entries()
                .iter()
                .map(|entry| entry.received);
            let put = put.max().unwrap_or(0);
            let line = format!("put {put} 5353 {}", self.hex(&packet));
            self.say(line);
        }
    }

    /// The responder's own packet comes back, at times with a bit turned.
    fn recv_echo(&mut self, now: u64) {
        let answer = self.say(format!("tick {now}"));
        let Some(packet) = answer
            .split(' ')
            .nth(1)
            .filter(|_| answer.starts_with("sent"))
        else {
            return;
        };
        let mut packet = packet.to_string();
        if self.random.chance(20) {
            let at = 24 + self.random.below(packet.len() - 24);
            let digit = self.random.pick(&["0", "1", "8", "f"]);
            packet.replace_range(at..=at, digit);
        }
        self.say(format!("recv {now} 0a000001 5353 20 400 {packet}"));
        self.say(format!("read {packet}"));
    }

    /// Calls with one or two reasons to be refused.
    fn refused_call(&mut self, now: u64) {
        let last = self.model.responder.last;
        if self.random.chance(30) {
            let time = if self.random.chance(60) {
                self.bad_time(last)
            } else {
                now
            };
            let room = self
                .random
                .pick(&["", " 1451", " 0", " 1452", " 4096", " 4097"]);
            self.say(format!("tick {time}{room}"));
            return;
        }
        let mut draft = Draft::query();
        let question = self.some_question();
        draft.questions.push(question);
        if self.random.chance(30) {
            draft.flags = 0x8400;
        }
        let mut packet = draft.encode(&mut self.random);
        let (mut time, mut port, mut draw, mut hold, mut room) = (now, MDNS_PORT, 20, 400, 1452);
        let mut second_room = "";
        for _ in 0..self.random.within(1..=3) {
            match self.random.below(9) {
                8 => {
                    let rooms = [" 0", " 1", " 1451", " 1451", " 1452", " 4096", " 4097"];
                    second_room = self.random.pick(&rooms);
                }
                0 => time = self.bad_time(last),
                1 => port = self.random.pick(&OTHER_PORTS),
                2 => {
                    draw = self
                        .random
                        .pick(&[0, 19, 121, 250, 256 + 20, (1 << 32) + 20, u64::MAX])
                }
                7 => {
                    let wrong = [0, 20, 399, 501, 65_536 + 400, (1 << 32) + 450, u64::MAX];
                    hold = self.random.pick(&wrong);
                }
                3 => room = self.random.pick(&[0, 1, 1451, 4097]),
                4 => packet.truncate(self.random.pick(&[0, 1, 11])),
                5 if packet.len() > 11 => {
                    packet[2] |= self.random.pick(&[0x08, 0x40]);
                }
                6 if packet.len() > 11 => packet[5] += 1,
                _ => packet.resize(8973, 0),
            }
        }
        let (from, packet) = (self.source(), self.hex(&packet));
        let from = self.hex(&from);
        let line = format!("recv {time} {from} {port} {draw} {hold} {packet} {room}{second_room}");
        self.say(line);
    }

    fn say_start(&mut self, now: u64, draw: u64, setup: &Setup) {
        let fields = [
            &setup.instance,
            &setup.service,
            &setup.protocol,
            &setup.host,
            &setup.domain,
        ];
        let fields = fields.map(|field| self.hex(field)).join(" ");
        let txt = self.hex(&setup.txt);
        let a = self.hex(&setup.a);
        let aaaa = self.hex(setup.aaaa.as_ref().map_or(&[], |address| &address[..]));
        self.say(format!(
            "start {now} {draw} {fields} {} {txt} {a} {aaaa}",
            setup.port
        ));
    }

    fn label(&mut self) -> Vec<u8> {
        let label: &[u8] = self.random.pick(&[
            &b"booth"[..],
            b"dock",
            b"Dock",
            b"_tcp",
            b"_TCP",
            b"_tCp",
            b"_udp",
            b"_UDP",
            b"_Udp",
            b"local",
            b"Local",
            b"_voice",
            b"\x05local\x00",
            b"\x04_tcp\x05local",
            b"x",
            b"Caf\xc3\xa9 Bar.2",
            b"",
        ]);
        if label.is_empty() {
            let length = self.random.pick(&[1, 2, 62, 63]);
            return self.random.bytes(length);
        }
        label.to_vec()
    }

    /// An instance label that is legal: well known, or forms of UTF-8.
    fn instance_label(&mut self) -> Vec<u8> {
        if self.random.chance(50) {
            let label: &[u8] = self.random.pick(&[
                &b"booth"[..],
                b"Dock",
                b"_tcp",
                b"_TCP",
                b"_udp",
                b"local",
                b"Local",
                b"_voice",
                b"x",
                b" ~",
                b"Caf\xc3\xa9 Bar.2",
                b"x._voice._tcp.local",
            ]);
            return label.to_vec();
        }
        let length = self.random.pick(&[1, 2, 3, 4, 5, 10, 62, 63]);
        self.utf8_of(length)
    }

    /// UTF-8 of `length` bytes, most of its forms at an edge of what is legal.
    fn utf8_of(&mut self, length: usize) -> Vec<u8> {
        let mut text = Vec::new();
        while text.len() < length {
            let form = self.random.pick(&GOOD_FORMS);
            if text.len() + form.len() <= length {
                text.extend(form);
            }
        }
        text
    }

    /// A label with a bad form or byte in front, within or at the end of legal ones.
    fn bad_utf8(&mut self) -> Vec<u8> {
        let mut label = match self.random.below(4) {
            0 => vec![],
            1 => vec![b'i'; self.random.below(60)],
            _ => {
                let length = self.random.below(60);
                self.utf8_of(length)
            }
        };
        let control = [self
            .random
            .pick(b"\x00\x01\t\n\n\r\x1b\x1e\x1f\x1f\x7f\x7f")];
        let bad = if self.random.chance(30) {
            &control
        } else {
            self.random.pick(&BAD_FORMS)
        };
        let starts: Vec<usize> = (0..=label.len())
            .filter(|at| label.get(*at).is_none_or(|byte| byte & 0xc0 != 0x80))
            .collect();
        let within = self.random.pick(&starts);
        let at = self.random.pick(&[0, within, label.len(), label.len()]);
        label.splice(at..at, bad.iter().copied());
        if self.random.chance(20) {
            // up to the longest label, so that a form is cut at its end
            label.truncate(63);
        }
        label
    }

    fn legal_setup(&mut self) -> Setup {
        let service: &[u8] = self.random.pick(&[
            &b"_voice"[..],
            b"_a",
            b"_A-1",
            b"_1a",
            b"_a23456789012345",
            b"_local",
            b"_tcp",
            b"_TCP",
            b"_x-y-z",
        ]);
        let txt = match self.random.below(8) {
            0 | 1 => vec![0],
            2 => txt_of(&mut self.random, 400),
            3 => b"\x07\x05local\x00\x0b\x04_tcp\x05local".to_vec(),
            4 => b"\x05a=\x80\xff\x7f\x01b".to_vec(),
            _ => {
                let length = self.random.within(1..=60) as usize;
                txt_of(&mut self.random, length)
            }
        };
        let a = self.random.pick(&[
            [10, 0, 0, 7],
            [169, 254, 99, 200],
            [169, 254, 200, 50],
            [127, 128, 255, 0],
        ]);
        let aaaa = self.random.chance(60).then(|| {
            let mut address = [0; 16];
            address.copy_from_slice(&self.random.bytes(16));
            address
        });
        Setup {
            instance: self.instance_label(),
            service: service.to_vec(),
            protocol: self.random.pick(&PROTOCOLS).to_vec(),
            host: self.label(),
            domain: b"local".to_vec(),
            port: self.random.pick(&[0, 80, 4000, 0x8000, 65_535]),
            txt,
            a,
            aaaa,
        }
    }

    /// A start with one or two things wrong.
    fn refused_start(&mut self) {
        let mut setup = self.legal_setup();
        let (mut now, mut draw) = (self.model.responder.last, 100);
        for _ in 0..self.random.pick(&[1, 1, 1, 2]) {
            match self.random.below(14) {
                0 => {
                    now = self
                        .random
                        .pick(&[MOST_TIME + 1, MOST_TIME + 2000, u64::MAX])
                }
                1 => draw = self.random.pick(&[251, 256, 506, 1 << 32, u64::MAX]),
                2 => {
                    let length = self.random.pick(&[0, 64, 65, 255, 256, 257, 261]);
                    setup.instance = vec![b'i'; length];
                }
                3 => {
                    let length = self.random.pick(&[0, 64, 65, 255, 256, 257, 260]);
                    setup.host = vec![b'h'; length];
                }
                4 => {
                    let service: &[u8] = self.random.pick(&[
                        &b""[..],
                        b"_",
                        b"voice",
                        b"_1",
                        b"_1-2",
                        b"_-a",
                        b"_a-",
                        b"_a--b",
                        b"_a234567890123456",
                        b"_a_b",
                        b"_a b",
                        b"_a\x00",
                        b"_\xc3\xa9a",
                        b"__a",
                        b"_@a",
                        b"_[a",
                        b"_a`",
                        b"_a{",
                        b"_a/",
                        b"_a:",
                    ]);
                    setup.service = service.to_vec();
                    if self.random.chance(10) {
                        setup.service = [b"_".to_vec(), vec![b'v'; 256]].concat();
                    }
                }
                5 => {
                    let protocol: &[u8] = self.random.pick(&[
                        &b""[..],
                        b"_TCP",
                        b"_Udp",
                        b"_tc",
                        b"_tcpp",
                        b"tcp",
                        b"_sct",
                        b"_tdp",
                        b"_ucp",
                    ]);
                    setup.protocol = protocol.to_vec();
                    if self.random.chance(10) {
                        setup.protocol = [b"_tcp".to_vec(), vec![0; 256]].concat();
                    }
                }
                6 => {
                    let domain: &[u8] = self.random.pick(&[
                        &b""[..],
                        b"Local",
                        b"loca",
                        b"locall",
                        b"locaL",
                        b"locam",
                    ]);
                    setup.domain = domain.to_vec();
                }
                7 => {
                    setup.txt = match self.random.below(5) {
                        0 => vec![],
                        1 => txt_of(&mut self.random, 401),
                        2 => vec![1],
                        3 => vec![3, 0, 0],
                        _ => vec![0; 65_536 / 16],
                    };
                }
                8 => {
                    setup.instance = long_name(&mut self.random, 64);
                }
                9 if !setup.instance.is_empty() => {
                    // a byte changed, which may be as legal
                    let at = self.random.below(setup.instance.len());
                    let byte = self.random.byte();
                    let edge = self
                        .random
                        .pick(&[0x0a, 0x1f, 0x20, 0x7e, 0x7f, 0x80, 0xbf, 0xc2]);
                    setup.instance[at] = self.random.pick(&[byte, edge]);
                }
                10 => {
                    let length = self.random.within(1..=64) as usize;
                    setup.instance = self.utf8_of(length);
                }
                _ => setup.instance = self.bad_utf8(),
            }
        }
        self.say_start(now, draw, &setup);
        if self.random.chance(50) {
            self.say("claims");
        }
    }
}
