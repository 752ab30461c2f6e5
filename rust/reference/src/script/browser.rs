//! Lives of the browser: its series to the last gap, refreshes at each threshold,
//! queries that are full to the byte, and tables that change before the rest goes.

use super::packet::{long_name, some_rdata, Draft, DraftRecord};
use super::Script;
use crate::browser::Browser;
use crate::cache::{Entry, SLOT};
use crate::message::HEADER;
use crate::{rtype, MDNS_PORT, MOST_TIME};

const ROOM: usize = 1452;
/// Pointer to the owner, type, class, TTL, length, and the target's pointer.
const CUT_RECORD: usize = 2 + 10 + 2;
const THOUSANDTHS: [u64; 4] = [800, 850, 900, 950];
const TTLS: [u32; 12] = [1, 1, 2, 3, 7, 10, 10, 75, 100, 120, 1000, 4500];

impl Script {
    /// A while of one browser, or of several on one table.
    pub(super) fn browsing(&mut self) {
        if self.random.chance(60) || self.model.cache.check_sizes().is_err() {
            let size = self
                .random
                .pick(&[1, 2, 6, 7, 8, 13, 14, 20, 40, 64, 64, 300, 512]);
            self.say(format!("table {size}"));
        }
        if self.random.chance(5) {
            self.odd_table_of_a_browser();
        }
        let mut now = self.cache_received();
        if now == 0 || now + 20_000_000 > MOST_TIME {
            self.say("clear");
            now = self
                .random
                .pick(&[0, 0, 5000, 1 << 33, MOST_TIME - 4000, MOST_TIME - 130]);
        }
        self.browse(now);
        for _ in 0..self.random.below(14) {
            self.browser_step();
        }
    }

    /// Before the first start.
    pub(super) fn blank_browser(&mut self) {
        for line in [
            "ask 0",
            "ask 0 1451",
            "ask 4611686018427387905 1451",
            "ask 4611686018427387904",
            "list 0",
            "list 4611686018427387905",
            "table 1 1023",
            "ask 0",
            "list 0",
            "ask 0 0",
            "browse 0 19 0 - - -",
            "browse 0 20 0 5f766f696365 5f746370 6c6f63616d",
            "ask 0",
            "table 64",
            "ask 0",
            "list 0",
        ] {
            self.say(line);
        }
    }

    fn browser_step(&mut self) {
        let now = self.browser_now();
        match self.random.below(100) {
            0..=9 => self.series(),
            10..=24 => self.refresh(),
            25..=39 => self.full_query(),
            40..=52 => self.full_rest(),
            53..=60 => self.put_targets(now),
            61 | 62 => self.refresh_of_a_twin(),
            63..=72 => self.ask_somewhen(),
            73..=80 => self.list(),
            81..=83 => self.half_left(),
            84 | 85 => self.before_the_first(),
            86..=88 => self.last_second(),
            89..=92 => self.ask_refused(),
            93 | 94 => {
                let slot = self.random.below(self.model.cache.entries().len() + 1);
                self.say(format!("slot {slot}"));
            }
            95 | 96 => {
                for _ in 0..self.random.pick(&[1, 12]) {
                    self.browse(now);
                }
            }
            97 => self.look_at_out(),
            _ => self.disturb_table(),
        }
    }

    /// The least time that is not refused, as long as it is legal.
    fn browser_now(&self) -> u64 {
        self.model
            .browser
            .last
            .max(self.cache_received())
            .min(MOST_TIME)
    }

    fn name(&self) -> Vec<u8> {
        let Browser {
            service,
            protocol,
            domain,
            ..
        } = &self.model.browser;
        crate::name::Name::from_labels(&[service, protocol, domain]).into_wire()
    }

    /// A new browser, most times one that is accepted.
    fn browse(&mut self, now: u64) {
        let service: &[u8] = self.random.pick(&[
            &b"_voice"[..],
            b"_voice",
            b"_voice",
            b"_Voice",
            b"_a",
            b"_abcdefghijklmno",
            b"_tcp",
        ]);
        let protocol: &[u8] = self.random.pick(&[&b"_tcp"[..], b"_tcp", b"_udp"]);
        let (mut service, mut protocol) = (service.to_vec(), protocol.to_vec());
        let (mut domain, mut time) = (b"local".to_vec(), now);
        let mut draw = self.random.pick(&[20_u64, 20, 21, 70, 119, 120]);
        let mut refresh = self.random.pick(&[0_u64, 0, 1, 7, 19, 20]);
        if self.random.chance(25) {
            for _ in 0..self.random.pick(&[1, 1, 2]) {
                match self.random.below(7) {
                    0 => time = self.random.pick(&[MOST_TIME + 1, u64::MAX, 0, MOST_TIME]),
                    1 => draw = self.random.pick(&[19, 121, 0, 256 + 20, (1 << 32) + 20]),
                    2 => refresh = self.random.pick(&[21, 256, 1 << 32, u64::MAX]),
                    3 => {
                        let bad: &[u8] = self.random.pick(&[
                            &b""[..],
                            b"_",
                            b"voice",
                            b"_-a",
                            b"_a-",
                            b"_a--b",
                            b"_1",
                            b"_a.b",
                            b"_abcdefghijklmnop",
                            b"_abcdefghijklmnop",
                        ]);
                        service = bad.to_vec();
                    }
                    4 => service = vec![b'_'; self.random.pick(&[17, 64, 262])],
                    5 => {
                        let bad: &[u8] = self.random.pick(&[
                            &b"_TCP"[..],
                            b"_Udp",
                            b"_tc",
                            b"_tcpx",
                            b"",
                            b"tcp_",
                        ]);
                        protocol = bad.to_vec();
                    }
                    _ => {
                        let bad: &[u8] =
                            self.random.pick(&[&b"Local"[..], b"loca", b"localx", b""]);
                        domain = bad.to_vec();
                    }
                }
            }
        }
        let line = format!(
            "browse {time} {draw} {refresh} {} {} {}",
            self.hex(&service),
            self.hex(&protocol),
            self.hex(&domain)
        );
        self.say(line);
        if self.random.chance(30) {
            // the first query, and the millisecond before it
            let due = self.model.browser.started + self.model.browser.draw;
            self.ask_around(due);
        }
    }

    /// A new browser of the same name.
    fn browse_again(&mut self, start: u64, draw: u64, refresh: u64) {
        let Browser {
            service,
            protocol,
            domain,
            ..
        } = self.model.browser.clone();
        let line = format!(
            "browse {start} {draw} {refresh} {} {} {}",
            self.hex(&service),
            self.hex(&protocol),
            self.hex(&domain)
        );
        self.say(line);
    }

    /// Asks at a time, unless it is past or too late.
    fn ask(&mut self, time: u64) -> String {
        let now = self.browser_now();
        if time < now || time > MOST_TIME {
            return String::new();
        }
        let room = match self.random.below(12) {
            0 => " 1452",
            1 => " 4096",
            _ => "",
        };
        self.say(format!("ask {time}{room}"))
    }

    /// Asks in the millisecond before a time, then, and again.
    fn ask_around(&mut self, time: u64) {
        if self.random.chance(70) {
            self.ask(time.saturating_sub(1));
        }
        self.ask(time);
        if self.random.chance(60) {
            self.ask(time);
        }
        if self.random.chance(10) {
            self.ask(time + 1);
        }
    }

    /// Asks until nothing more is due.
    fn ask_all(&mut self, time: u64) {
        for _ in 0..12 {
            if !self.ask(time).ends_with("more") {
                return;
            }
        }
    }

    fn series_due(&self) -> u64 {
        let browser = &self.model.browser;
        match browser.series {
            None => browser.started + browser.draw,
            Some(series) => series.sent + series.gap,
        }
    }

    /// Some queries of the series, or all until the gaps grow no more.
    fn series(&mut self) {
        let count = self.random.pick(&[1, 2, 3, 6, 13, 15]);
        for _ in 0..count {
            let due = self.series_due();
            // late by some
            let late = self.random.pick(&[0, 0, 0, 1, 60, 999]);
            if self.random.chance(40) {
                self.ask(due.saturating_sub(1));
            }
            self.ask_all(due + late);
        }
    }

    /// The entries that the browser looks at.
    fn own_entries(&self) -> Vec<(usize, Entry)> {
        let name = self.name();
        let entries = self.model.cache.entries().iter().enumerate();
        entries
            .filter(|(_, entry)| {
                entry.rtype == rtype::PTR && entry.owner.eq_ignore_ascii_case(&name)
            })
            .map(|(slot, entry)| (slot, entry.clone()))
            .collect()
    }

    /// Long gaps, an entry with thresholds to come, and asking around them.
    fn refresh(&mut self) {
        if self.random.chance(60) {
            // 256 s or more without the series
            for _ in 0..13 {
                let gap = self.model.browser.series.map_or(0, |series| series.gap);
                if gap >= 256_000 {
                    break;
                }
                self.ask(self.series_due());
            }
        }
        let now = self.browser_now();
        if self.own_entries().is_empty() || self.random.chance(40) {
            self.put_targets(now);
        }
        let entries = self.own_entries();
        if entries.is_empty() {
            return;
        }
        let draw = self.model.browser.refresh_draw;
        let (_, entry) = self.random.pick(&entries);
        for thousandths in THOUSANDTHS {
            let due = entry.received + entry.ttl * (thousandths + draw);
            match self.random.below(10) {
                0 => (),
                1 => {
                    // the query of the series comes between, or in that millisecond
                    let series = self.series_due();
                    if series <= due + 1000 {
                        self.ask(series);
                    }
                    self.ask_around(due);
                }
                2 => {
                    // refreshed, flushed or gone
                    let at = due.saturating_sub(self.random.pick(&[1, 500, 1000, 1001]));
                    if at >= self.browser_now() && at <= MOST_TIME {
                        self.disturb_entry(at, &entry);
                    }
                    self.ask_around(due);
                }
                3 => {
                    let draw_less = due - entry.ttl * draw;
                    self.ask(draw_less);
                    self.ask_around(due);
                }
                _ => self.ask_around(due),
            }
        }
        if self.random.chance(50) {
            // all thresholds are past: nothing until it is received again
            self.ask(entry.expiry.saturating_sub(1));
            self.ask(entry.expiry);
        }
    }

    /// A target in two entries, of which the second, that the list passes over, reaches its
    /// threshold alone.
    fn refresh_of_a_twin(&mut self) {
        let due = self.series_due().max(self.browser_now());
        self.ask_all(due);
        let now = self.browser_now();
        let target = self.target(20);
        let twin = self.random.recase(&target);
        for (ttl, target) in [(4500, target), (1, twin)] {
            let record = self.ptr(ttl, &target);
            self.put(now, vec![record]);
        }
        self.ask_around(now + 800 + self.model.browser.refresh_draw);
    }

    /// A label of so many bytes that no other has.
    fn fresh_label(&mut self, length: usize) -> Vec<u8> {
        let bytes = (0..length).map(|_| self.random.pick(b"abcdefghABCDEFGH0123\xc3\xa9 ."));
        let bytes: Vec<u8> = bytes.collect();
        [vec![length as u8], bytes].concat()
    }

    /// A name of so many bytes before the browser's name, or fewer where they do not fit.
    fn target(&mut self, length: usize) -> Vec<u8> {
        let name = self.name();
        let mut left = length.min(255 - name.len());
        let mut wire = Vec::new();
        while left > 1 {
            let mut bytes = left.min(64);
            if left - bytes == 1 {
                bytes -= 1;
            }
            wire.extend(self.fresh_label(bytes - 1));
            left -= bytes;
        }
        [wire, name].concat()
    }

    fn put(&mut self, now: u64, records: Vec<DraftRecord>) {
        let mut draft = Draft::response();
        draft.cut_all = records.len() > 30;
        draft.sections[self.random.pick(&[0, 0, 0, 2])] = records;
        let packet = draft.encode(&mut self.random);
        let line = format!("put {now} {MDNS_PORT} {}", self.hex(&packet));
        self.say(line);
    }

    fn ptr(&mut self, ttl: u32, target: &[u8]) -> DraftRecord {
        let name = self.name();
        let owner = match self.random.chance(8) {
            true => self.random.recase(&name),
            false => name,
        };
        DraftRecord::new(&owner, rtype::PTR, 1, ttl, target)
    }

    /// Targets of the name: new ones, known ones in other case, and what is none of its.
    fn put_targets(&mut self, now: u64) {
        let ttl = self.random.pick(&TTLS);
        let mut records = Vec::new();
        for _ in 0..self.random.pick(&[1, 1, 1, 2, 3, 8]) {
            let ttl = match self.random.chance(80) {
                true => ttl,
                false => self.random.pick(&TTLS),
            };
            let entries = self.own_entries();
            let target = match self.random.below(10) {
                0..=2 if !entries.is_empty() => self.random.pick(&entries).1.rdata,
                3 | 4 if !entries.is_empty() => {
                    let target = self.random.pick(&entries).1.rdata;
                    self.random.recase(&target)
                }
                7 if !entries.is_empty() => {
                    // below another target
                    let target = self.random.pick(&entries).1.rdata;
                    let longer = [self.fresh_label(3), target.clone()].concat();
                    if longer.len() > 255 {
                        target
                    } else {
                        longer
                    }
                }
                5 => some_rdata(&mut self.random, &[0], rtype::PTR),
                6 => long_name(&mut self.random, 255),
                _ => {
                    let length = self.random.pick(&[2, 3, 6, 6, 20, 64]);
                    self.target(length)
                }
            };
            let mut record = self.ptr(ttl, &target);
            match self.random.below(24) {
                0 => record.class = 0x8001,
                1 => record.ttl = self.random.pick(&[0, 0x8000_0000, 0x7fff_ffff]),
                2 => {
                    // another name: one label less or more, or another one
                    let name = self.name();
                    record.owner = match self.random.below(3) {
                        0 => name[1 + usize::from(name[0])..].to_vec(),
                        1 => [b"\x04_sub", &name[..]].concat(),
                        _ => b"\x06_other\x04_tcp\x05local\x00".to_vec(),
                    };
                }
                3 => {
                    let rtype = self.random.pick(&[rtype::A, rtype::TXT, rtype::SRV]);
                    let rdata = some_rdata(&mut self.random, &record.owner, rtype);
                    record = DraftRecord::new(&record.owner, rtype, 1, ttl, &rdata);
                }
                _ => (),
            }
            records.push(record);
        }
        self.put(now, records);
        if self.random.chance(30) {
            self.say(format!("list {now}"));
        }
    }

    /// An entry is flushed, said goodbye to, or received again.
    fn disturb_entry(&mut self, now: u64, entry: &Entry) {
        let mut record = DraftRecord::new(&entry.owner, rtype::PTR, 1, 10, &entry.rdata);
        match self.random.below(5) {
            0 => record.ttl = 0,
            1 => {
                // another target, with the bit
                let target = self.target(6);
                record = self.ptr(entry.ttl as u32, &target);
                record.class = 0x8001;
            }
            2 => record.ttl = entry.ttl as u32,
            3 => {
                let target = self.random.recase(&entry.rdata);
                record = DraftRecord::new(&entry.owner, rtype::PTR, 0x8001, 120, &target);
            }
            _ => record.ttl = self.random.pick(&TTLS),
        }
        self.put(now, vec![record]);
    }

    /// How long the query, or the rest, is at a time, and whether it is truncated.
    fn next_length(&self, now: u64, rest: bool) -> Option<(usize, bool)> {
        let mut browser = self.model.browser.clone();
        if !rest {
            browser.owed = None;
            browser.series = None;
            browser.started = 0;
        }
        let mut out = [0; ROOM];
        let sent = browser.tick(now, &self.model.cache, &mut out).ok()??;
        let truncated = out[2] & 2 != 0;
        (out[5] == u8::from(!rest)).then_some((sent.length, truncated))
    }

    /// One more target, so that the next packet is full to the byte, or nearly, or by one
    /// byte not.
    fn put_fitting(&mut self, now: u64, rest: bool) {
        let Some((length, false)) = self.next_length(now, rest) else {
            return;
        };
        let most = ROOM - length;
        let off = self.random.pick(&[0, 0, 0, 1, 1, -1]);
        let wanted = (most as i64 - CUT_RECORD as i64 + off) as usize;
        if most < CUT_RECORD + 4 || wanted > 255 - self.name().len() {
            return;
        }
        let target = self.target(wanted);
        let name = self.name();
        let record = DraftRecord::new(&name, rtype::PTR, 1, 4500, &target);
        self.put(now, vec![record]);
    }

    /// Targets that fill a packet but for less than one more.
    fn put_many(&mut self, now: u64, least: usize, rest: bool) {
        let ttl = self.random.pick(&[120, 4500]);
        let mut records = Vec::new();
        let mut size = HEADER + self.name().len() + if rest { 10 } else { 4 };
        let step = self.random.pick(&[3, 20, 64, 120, 226]);
        for _ in 0..60 {
            if size > least {
                break;
            }
            let length = self.random.within(2..=step + 2) as usize;
            let target = self.target(length);
            size += CUT_RECORD + target.len() - self.name().len();
            let record = self.ptr(ttl, &target);
            records.push(record);
        }
        self.put(now, records);
    }

    /// A query that is full to the byte, or not by one.
    fn full_query(&mut self) {
        let now = self.browser_now();
        if self.random.chance(60) {
            self.clear_most(now);
        }
        let now = self.browser_now();
        if self.random.chance(70) {
            self.put_many(now, 1250, false);
        } else {
            self.put_many(now, 2000, false);
        }
        self.put_fitting(now, false);
        if self.random.chance(50) {
            // what comes behind it does not fit
            self.put_targets(now);
        }
        if self.random.chance(20) {
            self.look_at_out();
        }
        let due = self.series_due().max(now);
        self.ask(due);
        if self.model.browser.owed.is_some() && self.random.chance(60) {
            self.disturb_table();
        }
        if self.random.chance(20) {
            self.look_at_out();
        }
        let now = self.browser_now();
        self.ask_all(now);
    }

    /// A rest that is full to the byte, or not by one.
    fn full_rest(&mut self) {
        let now = self.browser_now();
        self.clear_most(now);
        self.put_many(now, 1500, false);
        let due = self.series_due().max(now);
        self.ask(due);
        if self.model.browser.owed.is_none() {
            return;
        }
        if self.random.chance(30) {
            return self.refresh_before_the_rest();
        }
        let now = self.browser_now();
        self.put_many(now, 1200, true);
        self.put_fitting(now, true);
        if self.random.chance(50) {
            self.put_targets(now);
        }
        if self.random.chance(30) {
            // the next query is due too
            let due = self.series_due();
            self.ask_all(due);
        }
        let now = self.browser_now();
        self.ask_all(now);
    }

    /// A threshold is reached before the rest goes out, which is no query: the one that it asks for
    /// follows, in the same millisecond.
    fn refresh_before_the_rest(&mut self) {
        let now = self.browser_now();
        let target = self.target(6);
        let record = self.ptr(1, &target);
        self.put(now, vec![record]);
        let due = now + 800 + self.model.browser.refresh_draw;
        if self.random.chance(30) {
            self.ask(due - 1);
        }
        self.ask_all(due);
    }

    /// All entries are gone, by `clear` or by time; the browser is kept.
    fn clear_most(&mut self, now: u64) {
        let expiry = self.model.cache.entries().iter().map(|entry| entry.expiry);
        let expiry = expiry.max().unwrap_or(0);
        if self.random.chance(50) || expiry > now + 10_000_000 {
            self.say("clear");
        } else {
            self.ask(expiry);
        }
    }

    /// Around half of an entry's TTL: in the last millisecond before it and from then on.
    fn half_left(&mut self) {
        let now = self.browser_now();
        self.put_targets(now);
        let entries = self.own_entries();
        if entries.is_empty() {
            return;
        }
        let (_, entry) = self.random.pick(&entries);
        let half = entry.expiry.saturating_sub(500 * entry.ttl);
        let at = half + self.random.pick(&[0, 0, 1]) - self.random.pick(&[0, 1]);
        // a new browser whose first query is due then
        let draw = self.random.pick(&[20, 120]);
        if at < now + draw || at > MOST_TIME {
            return;
        }
        self.browse_again(at - draw, draw, 0);
        self.ask_all(at);
    }

    /// A threshold falls between the start and the first query, which alone is sent.
    fn before_the_first(&mut self) {
        let now = self.browser_now();
        if self.own_entries().is_empty() || self.random.chance(40) {
            self.put_targets(now);
        }
        let entries = self.own_entries();
        if entries.is_empty() {
            return;
        }
        let (_, entry) = self.random.pick(&entries);
        let refresh = self.random.pick(&[0, 13]);
        let thousandths = self.random.pick(&THOUSANDTHS);
        let due = entry.received + entry.ttl * (thousandths + refresh);
        if due < now + 120 || due + 120 > MOST_TIME {
            return;
        }
        let start = due - self.random.pick(&[0, 1, 60, 119, 120]);
        self.browse_again(start, 120, refresh);
        self.ask_around(due);
        self.ask_around(start + 120);
    }

    /// A query in which whole seconds, and parts of them, are left.
    fn last_second(&mut self) {
        let now = self.browser_now();
        self.put_targets(now);
        let at = now + self.random.pick(&[0, 1, 499, 500, 999, 1000, 1001]);
        let due = self.series_due();
        self.ask_all(at.max(due));
    }

    fn ask_somewhen(&mut self) {
        let now = self.browser_now();
        let due = self.series_due();
        let any = now + self.random.within(0..=5000);
        let at = self.random.pick(&[now, due, due + 1, any, now + 999]);
        self.ask(at.max(now));
    }

    fn list(&mut self) {
        let mut now = self.browser_now();
        let entries = self.own_entries();
        if !entries.is_empty() && self.random.chance(40) {
            // where one of them ends
            let (_, entry) = self.random.pick(&entries);
            let end = entry.expiry - self.random.pick(&[0, 1]);
            if end > now && end <= MOST_TIME {
                now = end;
            }
        }
        if self.random.chance(15) {
            now = self.bad_time(self.browser_now());
        }
        self.say(format!("list {now}"));
    }

    /// Wrong in one way or in two.
    fn ask_refused(&mut self) {
        let (mut time, mut room) = (self.browser_now(), 1452);
        for _ in 0..self.random.within(1..=2) {
            match self.random.below(2) {
                0 => time = self.bad_time(self.browser_now()),
                _ => room = self.random.pick(&[0, 1451, 1452, 4096, 4097]),
            }
        }
        self.say(format!("ask {time} {room}"));
        if self.random.chance(30) {
            // before an entry was received, or before the last time
            let last = self.model.browser.last;
            let at = last.max(1) + 5;
            if at <= MOST_TIME {
                self.put_targets(at);
                let line = self.random.pick(&["ask", "list"]);
                self.say(format!("{line} {}", at - 1));
                self.say(format!("{line} {at}"));
            }
        }
    }

    /// What a rest has to do with: entries that go, come, or change, and other tables.
    fn disturb_table(&mut self) {
        let now = self.browser_now();
        let entries = self.own_entries();
        match self.random.below(11) {
            0 | 10 => {
                self.say("clear");
                if self.random.chance(70) {
                    // the debt is gone, also for what comes then
                    self.ask(now);
                    self.put_many(now, 1500, false);
                    self.ask(now);
                }
            }
            1 => {
                let size = self.random.pick(&[1, 2, 5, 64, 512]);
                self.say(format!("table {size}"));
            }
            2 => self.put_targets(now),
            3 if !entries.is_empty() => {
                // with the bit: the others have a second left
                let at = (now + 1001).min(MOST_TIME);
                let target = self.target(6);
                let mut record = self.ptr(4500, &target);
                record.class = 0x8001;
                self.put(at, vec![record]);
            }
            4 => {
                // later, when some have less than half left
                let later = now + self.random.pick(&[1, 1000, 60_000, 2_250_000, 5_000_000]);
                self.ask(later);
            }
            5 => self.browse(now),
            6 => {
                // a new one, which owes nothing
                self.browse_again(now, 20, 0);
                self.ask(now);
                self.ask_all(now + 20);
            }
            _ => {
                let owed = self.model.browser.owed;
                for _ in 0..self.random.within(1..=3) {
                    // the one that is owed, most times
                    let owed = owed.and_then(|owed| self.model.cache.entries().get(owed));
                    let entry = match owed.cloned() {
                        Some(entry) if self.random.chance(60) => entry,
                        _ if !entries.is_empty() => self.random.pick(&entries).1,
                        _ => return,
                    };
                    if entry.rtype == rtype::PTR {
                        self.disturb_entry(now, &entry);
                    }
                }
                if self.random.chance(40) {
                    self.ask((now + 1000).min(MOST_TIME));
                }
            }
        }
    }

    fn look_at_out(&mut self) {
        let part = self.random.pick(&["0 1500", "1440 30", "0 100", "20 400"]);
        self.say(format!("out {part}"));
    }

    /// Sizes that are refused.
    fn odd_table_of_a_browser(&mut self) {
        let entries = self.random.pick(&[0, 1, 64, 513]);
        let store = self.random.pick(&[0, 1023, SLOT * entries]);
        self.say(format!("table {entries} {store}"));
        let now = self.model.browser.last;
        let last = now.saturating_sub(1);
        for line in [
            format!("ask {now}"),
            format!("ask {now} 1451"),
            format!("list {now}"),
            format!("list {last}"),
            format!("ask {last}"),
            format!("ask {} 0", MOST_TIME + 1),
        ] {
            if self.random.chance(70) {
                self.say(line);
            }
        }
        if self.model.cache.check_sizes().is_err() {
            self.say("table 64");
        }
    }
}
