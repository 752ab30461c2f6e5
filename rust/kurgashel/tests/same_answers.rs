//! Random hostile scripts through this crate and the independent reference program: the same answer to every line that the exported calls can answer.

use std::collections::BTreeMap;
use std::net::{IpAddr, SocketAddr};

use kurgashel::{
    txt_lookup, Arrival, Asked, Browser, BrowserDraws, Cache, Data, Draws, Message, Name,
    OutBuffers, Pair, Passed, Proxy, Refusal, Responder, Section, Setup, STATE_BYTES,
};
use reference::console::{hex, Console};
use reference::script::script;

const SEEDS: u64 = 6;
const LINES: usize = 20_000;

/// Zeros past the last case of each claim: no names, both claims lost.
fn blank() -> Responder {
    let mut state = [0; STATE_BYTES];
    state[579] = 7;
    state[588] = 7;
    Responder::from_bytes(state)
}

/// The console's calls over this crate.
struct Exported {
    responder: Responder,
    /// None where the console's table has a size of which this crate makes no cache.
    cache: Option<Cache>,
    /// None before the first set-up: this crate has no proxy then, and no browser before its first start.
    proxy: Option<Proxy>,
    browser: Option<Browser>,
    out: Vec<u8>,
    unicast: Vec<u8>,
}

/// A cache for the line `table`, where there is one of its sizes.
fn sized(fields: &[&str]) -> Option<Cache> {
    let entries = number(fields[1]);
    let store = fields.get(2).map_or(1024 * entries, |field| number(field));
    (store == 1024 * entries)
        .then(|| Cache::with_entries(entries as usize).ok())
        .flatten()
}

fn bytes(field: &str) -> Vec<u8> {
    if field == "-" {
        return Vec::new();
    }
    (0..field.len() / 2)
        .map(|i| u8::from_str_radix(&field[2 * i..2 * i + 2], 16).expect("hex digits"))
        .collect()
}

fn address(bytes: &[u8]) -> IpAddr {
    match <[u8; 4]>::try_from(bytes) {
        Ok(v4) => v4.into(),
        Err(_) => <[u8; 16]>::try_from(bytes).expect("4 or 16 bytes").into(),
    }
}

fn number(field: &str) -> u64 {
    field.parse().expect("a number")
}

/// Rdata made again from what it says, names in it uncompressed.
fn rdata(data: &Data) -> Vec<u8> {
    match data {
        Data::A(address) => address.octets().into(),
        Data::Aaaa(address) => address.octets().into(),
        Data::Ptr(name) => name.as_bytes().into(),
        Data::Txt(strings) => strings
            .flat_map(|string| [&[string.len() as u8], string].concat())
            .collect(),
        Data::Srv(srv) => {
            let numbers = [srv.priority, srv.weight, srv.port].map(u16::to_be_bytes);
            [numbers.as_flattened(), srv.target.as_bytes()].concat()
        }
        Data::Nsec(nsec) => [nsec.next.as_bytes(), nsec.block].concat(),
        Data::Other(bytes) => bytes.to_vec(),
    }
}

/// How many labels a name has and how long the first is, as the console shows them.
fn numbers(name: &Name) -> String {
    format!(" {} {}", name.labels(), name.first_label().len())
}

/// A name as the console shows it.
fn name_words(name: &Name) -> String {
    hex(name.as_bytes()) + &numbers(name)
}

/// A message as the console shows it, names in the rdata of PTR, SRV and NSEC expanded.
fn read_words(message: &Message) -> String {
    let mut words = format!("message {} {}", message.id(), message.flags());
    for q in message.questions() {
        words += &format!(" q {} {} {}", name_words(&q.name), q.rtype, q.class);
    }
    for (word, section) in [
        ("an", Section::Answer),
        ("ns", Section::Authority),
        ("ar", Section::Additional),
    ] {
        for r in message.records(section) {
            let rdata = rdata(&r.data);
            words += &format!(
                " r {word} {} {} {} {} {}",
                name_words(&r.owner),
                r.rtype,
                r.class,
                r.ttl,
                hex(&rdata)
            );
            if let Some(target) = r.data.target() {
                words += &numbers(target);
            }
        }
    }
    words
}

/// What a stop or an update sends.
fn sent_or_quiet(packet: &[u8]) -> String {
    match packet {
        [] => "quiet".into(),
        packet => format!("sent {}", hex(packet)),
    }
}

/// What becomes of a record at the proxy.
fn passed_words(record: Option<Passed>) -> String {
    match record {
        None => "left".into(),
        Some(r) => format!(
            "record {} {} {} {} {}",
            hex(r.owner.as_bytes()),
            r.rtype,
            r.class,
            r.ttl,
            hex(r.rdata())
        ),
    }
}

/// A part of an out buffer, as a line asks for it.
fn part(word: &str, buffer: &[u8], fields: &[&str]) -> String {
    let at = number(fields[1]) as usize;
    let bytes = &buffer[at..at + number(fields[2]) as usize];
    format!("{word} {}", hex(bytes))
}

impl Exported {
    fn new() -> Exported {
        Exported {
            responder: blank(),
            cache: Some(Cache::default()),
            proxy: None,
            browser: None,
            out: vec![0; 4096],
            unicast: vec![0; 4096],
        }
    }

    /// The answer to a line of the right form, and none where no exported call has it.
    fn answer(&mut self, line: &str) -> Option<Result<String, Refusal>> {
        let fields: Vec<&str> = line.split(' ').collect();
        let lent = |index: usize| {
            fields
                .get(index)
                .map_or(1452, |field| number(field) as usize)
        };
        Some(match fields[0] {
            "start" => self.start(&fields),
            "recv" => self.recv(&fields, lent(7), lent(8)),
            "tick" => {
                let sent = self
                    .responder
                    .tick(number(fields[1]), &mut self.out[..lent(2)]);
                sent.map(|sent| match sent.length {
                    0 => "quiet".into(),
                    length => format!(
                        "sent {}{}",
                        hex(&self.out[..length]),
                        if sent.more { " more" } else { "" }
                    ),
                })
            }
            "stop" => {
                let stopped = self
                    .responder
                    .stop(number(fields[1]), &mut self.out[..lent(2)]);
                stopped.map(|length| sent_or_quiet(&self.out[..length]))
            }
            "update" => {
                let (now, out) = (number(fields[1]), &mut self.out[..lent(4)]);
                let updated = match fields[2] {
                    "port" => self
                        .responder
                        .update_port(now, number(fields[3]) as u16, out),
                    _ => self.responder.update_txt(now, &bytes(fields[3]), out),
                };
                updated.map(|length| sent_or_quiet(&self.out[..length]))
            }
            "claims" => Ok(self.claims()),
            "holds" => Ok(self.holds()),
            "out" => Ok(part("out", &self.out, &fields)),
            "unicast" => Ok(part("unicast", &self.unicast, &fields)),
            "put" => {
                let cache = self.cache.as_mut()?;
                let port = number(fields[2]) as u16;
                let taken = cache.take(number(fields[1]), port, &bytes(fields[3]));
                taken.map(|taken| format!("cached {} {}", taken.turned_away, taken.passed_over))
            }
            "look" => {
                let rtype = u16::try_from(number(fields[3])).ok()?;
                let found = self.cache.as_ref()?.look_up(
                    number(fields[1]),
                    &bytes(fields[2]),
                    rtype,
                    number(fields[4]) as usize,
                );
                found.map(|found| match found {
                    None => "none".into(),
                    Some(f) => format!(
                        "slot {} {} {} {} {} {} {}",
                        f.slot,
                        f.received,
                        f.expiry,
                        hex(f.owner),
                        f.labels,
                        f.first_label.len(),
                        hex(f.rdata)
                    ),
                })
            }
            "clear" => {
                let entries = self.cache.as_ref()?.entries();
                self.cache = Cache::with_entries(entries).ok();
                Ok("cleared".into())
            }
            "table" => {
                self.cache = sized(&fields);
                Ok("table".into())
            }
            "browse" => {
                let text = |index: usize| String::from_utf8(bytes(fields[index])).ok();
                let (service, protocol) = (text(4)?, text(5)?);
                let draws = BrowserDraws {
                    first: number(fields[2]),
                    refresh: number(fields[3]),
                };
                // this crate's browsers are of the domain "local", as all are that are not refused
                if bytes(fields[6]) != b"local" {
                    return None;
                }
                let begun = Browser::start(&service, &protocol, number(fields[1]), draws);
                begun.map(|browser| {
                    self.browser = Some(browser);
                    "browsing".into()
                })
            }
            "ask" => {
                let (browser, cache) = (self.browser.as_mut()?, self.cache.as_ref()?);
                let asked = browser.tick(cache, number(fields[1]), &mut self.out[..lent(2)]);
                asked.map(|asked| match asked.length {
                    0 => "quiet".into(),
                    length => format!(
                        "sent {}{}",
                        hex(&self.out[..length]),
                        if asked.more { " more" } else { "" }
                    ),
                })
            }
            "list" => {
                let (browser, cache) = (self.browser.as_ref()?, self.cache.as_ref()?);
                let listed = browser.instances(cache, number(fields[1]));
                listed.map(|listed| {
                    let rows: String = listed
                        .map(|one| format!(" {} {}", one.slot, hex(one.target)))
                        .collect();
                    format!("list{}", if rows.is_empty() { " -" } else { &rows })
                })
            }
            "proxy" => Proxy::new(&bytes(fields[1]), &bytes(fields[2])).map(|proxy| {
                self.proxy = Some(proxy);
                "proxied".into()
            }),
            "question" => {
                let rtype = u16::try_from(number(fields[2])).ok()?;
                let asked = self.proxy.as_ref()?.question(&bytes(fields[1]), rtype);
                asked.map(|asked| match asked {
                    Asked::Name(name) => format!("ask {}", hex(name.as_bytes())),
                    Asked::Negative => "negative".into(),
                })
            }
            "answer" => {
                let [rtype, class] = [2, 3].map(|index| u16::try_from(number(fields[index])));
                let ttl = u32::try_from(number(fields[4])).ok()?;
                let (owner, rdata) = (bytes(fields[1]), bytes(fields[5]));
                let proxy = self.proxy.as_ref()?;
                let record = proxy.plain_record(&owner, rtype.ok()?, class.ok()?, ttl, &rdata);
                record.map(passed_words)
            }
            "cached" => {
                let (proxy, cache) = (self.proxy.as_ref()?, self.cache.as_ref()?);
                let record = proxy.cached(number(fields[1]), cache, number(fields[2]) as usize);
                record.map(passed_words)
            }
            "read" => Message::read(&bytes(fields[1])).map(|message| read_words(&message)),
            "txt" => {
                let (received, factory) = (bytes(fields[2]), bytes(fields[3]));
                let answer = txt_lookup(&bytes(fields[1]), &received, &factory);
                answer.map(|pair| match pair {
                    Pair::Absent => "absent".into(),
                    Pair::Present => "present".into(),
                    Pair::Empty => "empty".into(),
                    Pair::Value(value) => {
                        let inside = |txt: &[u8]| txt.as_ptr_range().contains(&value.as_ptr());
                        let (word, txt) = if inside(&received) {
                            ("received", &received)
                        } else {
                            ("factory", &factory)
                        };
                        format!(
                            "value {word} {} {}",
                            value.as_ptr() as usize - txt.as_ptr() as usize,
                            hex(value)
                        )
                    }
                })
            }
            _ => return None,
        })
    }

    fn start(&mut self, fields: &[&str]) -> Result<String, Refusal> {
        let aaaa = bytes(fields[11]);
        let setup = Setup::new(
            bytes(fields[3]),
            bytes(fields[4]),
            bytes(fields[5]),
            bytes(fields[6]),
            number(fields[8]) as u16,
            &bytes(fields[9]),
            bytes(fields[10]).try_into().expect("four bytes"),
            (!aaaa.is_empty()).then(|| aaaa.try_into().expect("sixteen bytes")),
        );
        let started = Responder::start(
            &setup.with_domain(bytes(fields[7])),
            number(fields[1]),
            number(fields[2]),
        )?;
        self.responder = started;
        Ok("started".into())
    }

    fn recv(&mut self, fields: &[&str], lent: usize, unicast: usize) -> Result<String, Refusal> {
        let (packet, port) = (bytes(fields[6]), number(fields[3]) as u16);
        let arrival = Arrival {
            now: number(fields[1]),
            from: SocketAddr::new(address(&bytes(fields[2])), port),
            draws: Draws {
                reply: number(fields[4]),
                hold: number(fields[5]),
            },
            packet: &packet,
        };
        let out = OutBuffers {
            to_all: &mut self.out[..lent],
            to_sender: &mut self.unicast[..unicast],
        };
        let sent = self.responder.receive(arrival, out)?;
        let to_all = hex(&self.out[..sent.to_all]);
        let to_sender = hex(&self.unicast[..sent.to_sender]);
        Ok(match (sent.to_all, sent.to_sender) {
            (0, 0) => "quiet".into(),
            (_, 0) => format!("sent {to_all}"),
            (0, _) => format!("unicast {to_sender}"),
            (_, _) => format!("sent {to_all} unicast {to_sender}"),
        })
    }

    /// The number of eight bytes at a place of the state.
    fn word(&self, at: usize) -> u64 {
        let bytes = &self.responder.bytes()[at..at + 8];
        u64::from_be_bytes(bytes.try_into().expect("eight bytes"))
    }

    /// The held queries, by a state's layout: four places of 39 bytes behind the last update, each of an address, a flag and a due time, and two flags for each record.
    fn holds(&self) -> String {
        let taken = (0..4)
            .map(|place| 678 + 39 * place)
            .filter(|at| self.responder.bytes()[at + 16] % 2 == 1);
        let shown = taken.map(|at| {
            let from = hex(&self.responder.bytes()[at..at + 16]);
            format!(" {from} {}", self.word(at + 17))
        });
        let shown: String = shown.collect();
        format!("holds{}", if shown.is_empty() { " -" } else { &shown })
    }

    /// The times that a state keeps, by its layout: a case byte and a number of eight bytes for each claim, each last multicast, the reply and the last update.
    fn claims(&self) -> String {
        let state = self.responder.bytes();
        let word = |at| self.word(at);
        let due = |set: bool, at: usize| {
            if set {
                word(at).to_string()
            } else {
                "-".into()
            }
        };
        format!(
            "{} instance {} {} host {} {} reply {} updated {}",
            word(842),
            self.responder.instance().word(),
            due(state[579] < 6, 580),
            self.responder.host().word(),
            due(state[588] < 6, 589),
            due(state[660] % 2 == 1, 661),
            due(state[669] % 2 == 1, 670),
        )
    }
}

/// Whether a line names a port of more than 16 bits, which no packet comes from and no exported call can be handed.
fn has_no_port(line: &[u8]) -> bool {
    let mut fields = line.split(|byte| *byte == b' ');
    let port = match fields.next() {
        Some(b"recv") => fields.nth(2),
        Some(b"put") => fields.nth(1),
        _ => None,
    };
    port.and_then(|port| std::str::from_utf8(port).ok()?.parse().ok())
        .is_some_and(|port: u64| port > u16::MAX.into())
}

#[test]
fn the_reference_program_answers_alike() {
    let mut kinds: BTreeMap<String, u64> = BTreeMap::new();
    for seed in 1..=SEEDS {
        let (mut reference, mut exported) = (Console::default(), Exported::new());
        for line in script(seed, LINES) {
            if has_no_port(&line) {
                continue;
            }
            let Some(expected) = reference.answer(&line) else {
                continue;
            };
            if expected == "bad line" {
                continue;
            }
            let line = String::from_utf8(line).expect("a line of the right form is ASCII");
            let before = *exported.responder.bytes();
            let Some(answer) = exported.answer(&line) else {
                continue;
            };
            if answer.is_err() {
                assert_eq!(
                    &before,
                    exported.responder.bytes(),
                    "a refusal keeps every byte: seed {seed}: {line}"
                );
            }
            let answer = answer.unwrap_or_else(|refusal| format!("refused {}", refusal.number()));
            assert_eq!(answer, expected, "seed {seed}: {line}");
            assert_eq!(
                exported.responder.due(),
                reference.responder.dues().min(),
                "the next due time: seed {seed}: {line}"
            );
            let kind = line.split(' ').next().unwrap_or_default().to_string()
                + " "
                + answer.split(' ').next().unwrap_or_default();
            *kinds.entry(kind).or_default() += 1;
            let held = reference.responder.holds.len();
            *kinds.entry(format!("{held} held")).or_default() += 1;
        }
    }
    for kind in [
        "start started",
        "recv sent",
        "recv quiet",
        "recv unicast",
        "1 held",
        "4 held",
        "holds holds",
        "tick sent",
        "tick quiet",
        "put cached",
        "look slot",
        "table table",
        "browse browsing",
        "ask sent",
        "ask quiet",
        "list list",
        "proxy proxied",
        "question ask",
        "answer record",
        "txt value",
        "read message",
    ] {
        assert!(
            kinds.get(kind).is_some_and(|count| *count > 50),
            "{kind} is too rare: {kinds:?}"
        );
    }
}
