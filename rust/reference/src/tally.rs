//! Counts how often each kind of answer came, so that a script of nothing but
//! refusals shows.

mod proxies;
mod traces;

use std::collections::{BTreeMap, BTreeSet};
use std::fmt;

use crate::message::{Message, Record, Section};
use crate::responder::LEAST_OUT;
use crate::{class, rtype, MDNS_PORT};

pub struct Tally {
    counts: BTreeMap<String, u64>,
    /// The number of entries of the cache's table.
    entries: usize,
}

impl Default for Tally {
    fn default() -> Tally {
        Tally {
            counts: BTreeMap::new(),
            entries: 64,
        }
    }
}

impl Tally {
    pub fn count(&mut self, line: &[u8], answer: &str) {
        let line = String::from_utf8_lossy(line);
        let mut words = line.split(' ');
        let call = words.next().unwrap_or_default();
        if (call, answer) == ("table", "table") {
            let entries = words.next().and_then(|entries| entries.parse().ok());
            self.entries = entries.expect("a number of entries");
        }
        let mut kinds = match (call, answer) {
            ("trace" | "record", answer) if answer != "bad line" => traces::kinds(&line, answer),
            ("proxy" | "question" | "answer" | "cached", answer) if answer != "bad line" => {
                proxies::kinds(&line, answer)
            }
            _ => kinds(call, answer, entries_kind(self.entries)),
        };
        if call == "start" && matches!(answer, "started" | "refused 7") {
            let label = line.split(' ').nth(3).unwrap_or_default();
            kinds.push(format!("start {answer} with {}", label_kind(label)));
        }
        if call == "put" && answer.starts_with("cached") {
            kinds.extend(nsec_put(line.split(' ').nth(3).unwrap_or_default()));
        }
        if call == "look" && answer.starts_with("slot") && line.split(' ').nth(3) == Some("47") {
            kinds.push("look slot of NSEC".to_string());
        }
        if call == "update" && matches!(line.split(' ').nth(2), Some("port" | "txt")) {
            let what = line.split(' ').nth(2).unwrap_or_default();
            let answer = answer.split(' ').next().unwrap_or_default();
            kinds.push(format!("update {what} {answer}"));
        }
        if matches!(call, "recv" | "put") {
            kinds.extend(other_port(call, &line, answer));
        }
        self.add(kinds);
    }

    /// Counts what a player wrote to standard output and standard error.
    pub fn count_play(&mut self, output: &str, errors: &str) {
        self.add(traces::player_kinds(output, errors));
    }

    fn add(&mut self, kinds: Vec<String>) {
        for kind in kinds {
            *self.counts.entry(kind).or_insert(0) += 1;
        }
    }
}

/// The kind of an answer to a message from another port than 5353.
fn other_port(call: &str, line: &str, answer: &str) -> Option<String> {
    let port_at = if call == "recv" { 3 } else { 2 };
    let port = line.split(' ').nth(port_at)?;
    if answer == "bad line" || port.parse() == Ok(MDNS_PORT) {
        return None;
    }
    let words: Vec<&str> = answer.split(' ').collect();
    Some(match words[..] {
        ["refused", number] => format!("{call} refused {number} from another port"),
        [first, ..] => format!("{call} {first} from another port"),
        [] => return None,
    })
}

/// The kinds of a packet by unicast: a reply to a plain resolver repeats its
/// question, an answer to questions that want unicast has none.
fn unicast_kinds(packet: &str) -> Vec<String> {
    let message = bytes_of(packet).and_then(|bytes| Message::read(&bytes).ok());
    match message {
        None => vec!["recv unicast of no message".to_string()],
        Some(message) if message.questions.is_empty() => wanted_kinds(&message),
        Some(message) => plain_kinds(&message),
    }
}

/// The kinds of an answer to questions that want unicast.
fn wanted_kinds(message: &Message) -> Vec<String> {
    let mut kinds = vec![format!("recv wanted unicast of {}", message.records.len())];
    if message.id != 0 {
        kinds.push("recv wanted unicast with an ID".to_string());
    }
    for record in &message.records {
        match record.rtype {
            rtype::PTR => kinds.push("recv wanted unicast with PTR".to_string()),
            rtype::NSEC => kinds.push("recv wanted unicast with NSEC".to_string()),
            _ => (),
        }
    }
    kinds
}

/// The kinds of a reply to a plain resolver.
fn plain_kinds(message: &Message) -> Vec<String> {
    let mut kinds = vec![format!("recv unicast of {}", message.records.len())];
    for record in &message.records {
        match record.rtype {
            rtype::SRV => kinds.push("recv unicast with SRV".to_string()),
            rtype::PTR => kinds.push("recv unicast with PTR".to_string()),
            _ => (),
        }
        if message.questions[0].name.wire() != record.owner.wire() {
            kinds.push("recv unicast in other case".to_string());
        }
    }
    kinds
}

/// The bytes of a field, unless it is a hyphen.
fn bytes_of(field: &str) -> Option<Vec<u8>> {
    let digits = field.as_bytes().chunks(2);
    let bytes = digits.map(|pair| u8::from_str_radix(&String::from_utf8_lossy(pair), 16));
    bytes.collect::<Result<_, _>>().ok()
}

/// The records of a message in hex, if it is well formed.
fn records_of(packet: &str) -> Vec<Record> {
    let message = bytes_of(packet).and_then(|bytes| Message::read(&bytes).ok());
    message.map_or(vec![], |message| message.records)
}

/// The kinds of NSEC in a message that was put, each once.
fn nsec_put(packet: &str) -> BTreeSet<String> {
    let mut kinds = BTreeSet::new();
    for record in records_of(packet) {
        if record.rtype == rtype::NSEC
            && record.section != Section::Authority
            && record.class() == class::IN
        {
            let form = match record.is_restricted_nsec() {
                true => "a restricted NSEC",
                false => "another NSEC",
            };
            kinds.insert(format!("put cached with {form}"));
        }
    }
    kinds
}

/// What kind of text an instance label in hex is.
fn label_kind(label: &str) -> &'static str {
    let Some(bytes) = bytes_of(label) else {
        return "no bytes"; // a hyphen
    };
    match String::from_utf8(bytes) {
        Err(_) => "no UTF-8",
        Ok(text) if text.bytes().any(|byte| byte.is_ascii_control()) => "a control byte",
        Ok(text) if text.is_ascii() => "ASCII",
        Ok(_) => "UTF-8",
    }
}

fn entries_kind(entries: usize) -> &'static str {
    match entries {
        1 => "1",
        2..64 => "2 to 63",
        64 => "64",
        65..512 => "65 to 511",
        512 => "512",
        _ => "no legal size",
    }
}

/// The kinds an answer counts for, in a table of so many entries.
fn kinds(call: &str, answer: &str, entries: &str) -> Vec<String> {
    let fields: Vec<&str> = answer.split(' ').collect();
    match (call, fields.as_slice()) {
        (_, ["bad", "line"]) => vec!["bad line".to_string()],
        (_, ["refused", number]) => vec![format!("{call} refused {number}")],
        ("recv", ["sent", packet, "unicast", unicast]) => {
            let mut kinds = kinds("recv", &format!("sent {packet}"), entries);
            kinds.extend(unicast_kinds(unicast));
            kinds.push("recv sent and unicast".to_string());
            kinds
        }
        ("ask", ["sent", packet, more @ ..]) => query_kinds(packet, !more.is_empty()),
        ("list", ["list", "-"]) => vec!["list of none".to_string()],
        ("list", ["list", _, _]) => vec!["list of 1".to_string()],
        ("list", ["list", ..]) => vec!["list of several".to_string()],
        (_, ["sent", packet, more @ ..]) => {
            let more = more
                .iter()
                .map(|word| format!(" {word}"))
                .collect::<String>();
            let mut kinds = vec![format!("{call} sent {}{more}", packet_kind(packet))];
            let nsec = records_of(packet)
                .iter()
                .filter(|record| record.rtype == rtype::NSEC)
                .count();
            if nsec > 0 {
                kinds.push(format!("{call} sent response with {nsec} NSEC"));
            }
            kinds
        }
        ("recv", ["unicast", packet]) => unicast_kinds(packet),
        ("holds", ["holds", "-"]) => vec!["holds none".to_string()],
        ("holds", ["holds", shown @ ..]) => vec![format!("holds of {}", shown.len() / 2)],
        (
            "claims",
            [_, "instance", state, due, "host", host_state, host_due, "reply", reply, "updated", updated],
        ) => {
            let step = |state: &str, due: &str| match (state, due) {
                ("held", "-") => String::new(),
                ("held", _) => " with second step".to_string(),
                _ => String::new(),
            };
            let set = if *reply == "-" { "none" } else { "set" };
            let ever = if *updated == "-" { "never" } else { "once" };
            vec![
                format!("claims instance {state}{}", step(state, due)),
                format!("claims host {host_state}{}", step(host_state, host_due)),
                format!("claims reply {set}"),
                format!("claims updated {ever}"),
            ]
        }
        ("put", ["cached", turned, passed]) => {
            let mut kinds = vec![format!("put cached in a table of {entries}")];
            if *turned != "0" {
                kinds.push(format!("put turned away by a table of {entries}"));
            }
            if *passed != "0" {
                kinds.push("put cached with passed over".to_string());
            }
            kinds
        }
        ("txt", ["value", source, ..]) => vec![format!("txt value {source}")],
        ("slot", ["slot", _, rtype, _, _, received, expiry, ttl, _]) => {
            let use_of = match *rtype {
                "0" => "unused",
                "47" => "used by NSEC",
                _ => "used",
            };
            let mut kinds = vec![format!("slot {use_of}")];
            let numbers = [received, expiry, ttl].map(|number| number.parse::<u64>());
            if let [Ok(received), Ok(expiry), Ok(ttl)] = numbers {
                if expiry - received < 1000 * ttl {
                    kinds.push("slot with less than its TTL".to_string());
                }
            }
            kinds
        }
        ("read", ["message", _, _, shown @ ..]) => {
            let records = if shown.is_empty() {
                "nothing"
            } else {
                "something"
            };
            let mut kinds = vec![format!("read message with {records}")];
            kinds.extend(names_read(shown));
            kinds
        }
        ("look", ["slot", slot, _, _, _, labels, ..]) => {
            let mut kinds = vec![
                format!("look slot in a table of {entries}"),
                format!("look owner of {}", labels_kind(labels)),
            ];
            if slot.len() > 2 {
                kinds.push("look slot past 99".to_string());
            }
            kinds
        }
        (_, [first, ..]) => vec![format!("{call} {first}")],
        (_, []) => vec![],
    }
}

/// The kinds of a browser's packet: a query, or the rest of one, which has no
/// question; truncated or not, and how long.
fn query_kinds(packet: &str, more: bool) -> Vec<String> {
    let message = bytes_of(packet).and_then(|bytes| Message::read(&bytes).ok());
    let Some(message) = message else {
        return vec!["ask sent no message".to_string()];
    };
    let what = match (message.questions.is_empty(), message.is_truncated()) {
        (false, false) => "query",
        (false, true) => "truncated query",
        (true, false) => "rest",
        (true, true) => "truncated rest",
    };
    let more = if more { " more" } else { "" };
    let mut kinds = vec![format!("ask sent {what}{more}")];
    if message.records.is_empty() {
        kinds.push(format!("ask sent {what} of no known answer"));
    }
    if message.records.iter().any(|record| record.ttl == 0) {
        kinds.push(format!("ask sent {what} with TTL 0"));
    }
    if packet.len() == 2 * LEAST_OUT {
        kinds.push(format!("ask sent {what} of 1,452 bytes"));
    }
    kinds
}

/// The kinds of the names in an answer to `read`, each once.
fn names_read(mut fields: &[&str]) -> BTreeSet<String> {
    let mut kinds = BTreeSet::new();
    let mut add = |place: &str, labels: &str| {
        kinds.insert(format!("read {place} of {}", labels_kind(labels)));
    };
    loop {
        fields = match fields {
            ["q", _, labels, _, _, _, rest @ ..] => {
                add("question", labels);
                rest
            }
            ["r", _, _, owner, _, rtype @ ("12" | "33"), _, _, _, target, _, rest @ ..] => {
                add("owner", owner);
                let rtype = if *rtype == "12" { "PTR" } else { "SRV" };
                add(&format!("{rtype} target"), target);
                rest
            }
            ["r", _, _, owner, _, "47", _, _, _, next, _, rest @ ..] if *next != "r" => {
                add("owner", owner);
                add("NSEC next name", next);
                rest
            }
            ["r", _, _, owner, _, "47", _, _, _, rest @ ..] => {
                add("owner", owner);
                add("another NSEC owner", owner);
                rest
            }
            ["r", _, _, owner, _, _, _, _, _, rest @ ..] => {
                add("owner", owner);
                rest
            }
            _ => return kinds,
        };
    }
}

/// No label, one, the most there can be, or others.
fn labels_kind(labels: &str) -> &'static str {
    match labels {
        "0" => "no label",
        "1" => "1 label",
        "127" => "127 labels",
        _ => "2 to 126 labels",
    }
}

/// Whether a packet is a probe or a response, by its flags in hex, and with
/// how many records.
fn packet_kind(packet: &str) -> String {
    match packet.get(4..8) {
        Some("0000") => "probe".to_string(),
        _ => format!("response of {}", packet.get(15..16).unwrap_or("?")),
    }
}

impl fmt::Display for Tally {
    fn fmt(&self, formatter: &mut fmt::Formatter) -> fmt::Result {
        for (kind, count) in &self.counts {
            writeln!(formatter, "{count:>9}  {kind}")?;
        }
        Ok(())
    }
}
