//! The line protocol: one line a call, one line an answer.

mod proxy;
pub mod trace;

use std::fmt::Write;

use crate::browser::Browser;
use crate::cache::{Cache, Found, MOST_ENTRIES, SLOT};
use crate::message::{Message, Section};
use crate::name::Labels;
use crate::proxy::Proxy;
use crate::refusal::Refusal;
use crate::responder::holds::Address;
use crate::responder::{Arrival, Change, Claim, Outs, Responder, Sent, LEAST_OUT};
use crate::setup::Setup;
use crate::txt::{self, Answer, Source};

pub const MOST_LINE: usize = 40_000;
pub const OUT_BUFFER: usize = 4096;
/// "The table has 64 entries at first."
const FIRST_ENTRIES: usize = 64;
/// One entry more than is legal can be had, to be refused.
const MOST_TABLE: usize = MOST_ENTRIES + 1;

/// One responder, one cache, one browser and one proxy of it, and two out buffers.
pub struct Console {
    pub responder: Responder,
    pub cache: Cache,
    pub browser: Browser,
    /// None before the first that is not refused.
    proxy: Option<Proxy>,
    out: Vec<u8>,
    /// The second buffer, of packets by unicast.
    unicast: Vec<u8>,
}

/// Why a call has no ordinary answer.
enum Trouble {
    BadLine,
    Refused(Refusal),
}

impl From<Refusal> for Trouble {
    fn from(refusal: Refusal) -> Trouble {
        Trouble::Refused(refusal)
    }
}

/// The fields after the word of a line; each taking fails on a wrong form.
struct Fields<'a>(std::slice::Split<'a, u8, fn(&u8) -> bool>);

impl<'a> Fields<'a> {
    fn new(line: &'a [u8]) -> Fields<'a> {
        Fields(line.split(|byte| *byte == b' '))
    }

    fn word(&mut self) -> Result<&'a [u8], Trouble> {
        self.0.next().ok_or(Trouble::BadLine)
    }

    fn number(&mut self) -> Result<u64, Trouble> {
        parse_number(self.word()?)
    }

    /// A number that may be missing at the end of the line.
    fn optional_number(&mut self, default: u64) -> Result<u64, Trouble> {
        self.0.next().map_or(Ok(default), parse_number)
    }

    fn bytes(&mut self) -> Result<Vec<u8>, Trouble> {
        parse_bytes(self.word()?)
    }

    /// "FROM has 4 bytes (IPv4) or 16"
    fn address(&mut self) -> Result<Address, Trouble> {
        let bytes = self.bytes()?;
        let mapped = match bytes.len() {
            4 => [&[0; 10][..], &[0xff; 2], &bytes].concat(),
            _ => bytes,
        };
        mapped.try_into().map_err(|_| Trouble::BadLine)
    }

    fn end(mut self) -> Result<(), Trouble> {
        self.0.next().map_or(Ok(()), |_| Err(Trouble::BadLine))
    }
}

/// "one or more decimal digits (leading zeros allowed), 0..2^64-1"
fn parse_number(field: &[u8]) -> Result<u64, Trouble> {
    if field.is_empty() {
        return Err(Trouble::BadLine);
    }
    field.iter().try_fold(0_u64, |number, byte| {
        let digit = byte.is_ascii_digit().then(|| u64::from(byte - b'0'));
        digit
            .and_then(|digit| number.checked_mul(10)?.checked_add(digit))
            .ok_or(Trouble::BadLine)
    })
}

/// A number over `most` makes the line a bad one.
fn at_most(number: u64, most: usize) -> Result<usize, Trouble> {
    usize::try_from(number)
        .ok()
        .filter(|number| *number <= most)
        .ok_or(Trouble::BadLine)
}

fn hex_digit(byte: u8) -> Option<u8> {
    char::from(byte).to_digit(16).map(|digit| digit as u8)
}

/// "hex digits, two a byte [...] `-` is no bytes"
fn parse_bytes(field: &[u8]) -> Result<Vec<u8>, Trouble> {
    if field == b"-" {
        return Ok(Vec::new());
    }
    if field.is_empty() || !field.len().is_multiple_of(2) {
        return Err(Trouble::BadLine);
    }
    field
        .chunks(2)
        .map(|pair| Some(hex_digit(pair[0])? << 4 | hex_digit(pair[1])?))
        .collect::<Option<Vec<_>>>()
        .ok_or(Trouble::BadLine)
}

/// Lower-case hex, `-` for no bytes.
pub fn hex(bytes: &[u8]) -> String {
    const DIGITS: &[u8; 16] = b"0123456789abcdef";
    if bytes.is_empty() {
        return "-".to_string();
    }
    let digit = |number: u8| char::from(DIGITS[usize::from(number)]);
    let mut text = String::with_capacity(2 * bytes.len());
    for byte in bytes {
        text.push(digit(byte >> 4));
        text.push(digit(byte & 15));
    }
    text
}

pub fn state_word(claim: Claim) -> &'static str {
    match claim {
        Claim::Waiting { .. } => "waiting",
        Claim::Probing { .. } => "probing",
        Claim::Deferred { .. } => "deferred",
        Claim::Held { .. } => "held",
        Claim::Lost => "lost",
    }
}

/// A time, or `-` for none.
fn due_word(due: Option<u64>) -> String {
    due.map_or("-".to_string(), |due| due.to_string())
}

/// `LABELS FIRST`
fn labels_words(labels: Labels) -> String {
    format!("{} {}", labels.count, labels.first)
}

fn section_word(section: Section) -> &'static str {
    match section {
        Section::Answer => "an",
        Section::Authority => "ns",
        Section::Additional => "ar",
    }
}

/// An answer, or the words for why there is none.
fn shown(answer: Result<String, Trouble>) -> String {
    match answer {
        Ok(answer) => answer,
        Err(Trouble::BadLine) => "bad line".to_string(),
        Err(Trouble::Refused(refusal)) => format!("refused {}", refusal.number()),
    }
}

impl Default for Console {
    fn default() -> Console {
        Console {
            responder: Responder::default(),
            cache: Cache::new(FIRST_ENTRIES, SLOT * FIRST_ENTRIES),
            proxy: None,
            out: vec![0; OUT_BUFFER],
            unicast: vec![0; OUT_BUFFER],
            browser: Browser::default(),
        }
    }
}

impl Console {
    /// The answer to a line (its LF taken off), without its LF. "An empty line,
    /// or one that starts with `#`, has no answer."
    pub fn answer(&mut self, line: &[u8]) -> Option<String> {
        if line.is_empty() || line[0] == b'#' {
            return None;
        }
        let answer = if line.len() > MOST_LINE {
            Err(Trouble::BadLine)
        } else {
            self.call(Fields::new(line))
        };
        Some(shown(answer))
    }

    fn call(&mut self, mut fields: Fields) -> Result<String, Trouble> {
        match fields.word()? {
            b"start" => self.start(fields),
            b"recv" => self.recv(fields),
            b"tick" => self.tick(fields),
            b"stop" => self.stop(fields),
            b"update" => self.update(fields),
            b"claims" => self.claims(fields),
            b"holds" => self.holds(fields),
            b"out" => part("out", &self.out, fields),
            b"unicast" => part("unicast", &self.unicast, fields),
            b"put" => self.put(fields),
            b"look" => self.look(fields),
            b"slot" => self.slot(fields),
            b"clear" => self.clear(fields),
            b"table" => self.table(fields),
            b"browse" => self.browse(fields),
            b"ask" => self.ask(fields),
            b"list" => self.list(fields),
            b"txt" => txt_answer(fields),
            b"read" => read(fields),
            b"trace" => trace::trace_answer(fields),
            b"record" => trace::record_answer(fields),
            b"proxy" => self.proxy(fields),
            b"question" => self.question(fields),
            b"answer" => self.proxied_answer(fields),
            b"cached" => self.proxied_entry(fields),
            _ => Err(Trouble::BadLine),
        }
    }

    fn start(&mut self, mut fields: Fields) -> Result<String, Trouble> {
        let now = fields.number()?;
        let draw = fields.number()?;
        let setup = Setup {
            instance: fields.bytes()?,
            service: fields.bytes()?,
            protocol: fields.bytes()?,
            host: fields.bytes()?,
            domain: fields.bytes()?,
            port: u16::try_from(fields.number()?).map_err(|_| Trouble::BadLine)?,
            txt: fields.bytes()?,
            a: fields.bytes()?.try_into().map_err(|_| Trouble::BadLine)?,
            aaaa: match fields.bytes()? {
                none if none.is_empty() => None,
                address => Some(address.try_into().map_err(|_| Trouble::BadLine)?),
            },
        };
        fields.end()?;
        self.responder = Responder::start(now, draw, setup)?;
        Ok("started".to_string())
    }

    fn recv(&mut self, mut fields: Fields) -> Result<String, Trouble> {
        let now = fields.number()?;
        let from = fields.address()?;
        let port = fields.number()?;
        let draw = fields.number()?;
        let hold_draw = fields.number()?;
        let packet = fields.bytes()?;
        let lent = at_most(fields.optional_number(LEAST_OUT as u64)?, OUT_BUFFER)?;
        let lent_unicast = at_most(fields.optional_number(LEAST_OUT as u64)?, OUT_BUFFER)?;
        fields.end()?;
        let outs = Outs {
            multicast: &mut self.out[..lent],
            unicast: &mut self.unicast[..lent_unicast],
        };
        let arrival = Arrival {
            now,
            from,
            port,
            draw,
            hold_draw,
            packet: &packet,
        };
        let answered = self.responder.receive(arrival, outs)?;
        let sent = answered
            .multicast
            .map(|length| format!("sent {}", hex(&self.out[..length])));
        let unicast = answered
            .unicast
            .map(|length| format!("unicast {}", hex(&self.unicast[..length])));
        let shown: Vec<String> = sent.into_iter().chain(unicast).collect();
        Ok(match shown.is_empty() {
            true => "quiet".to_string(),
            false => shown.join(" "),
        })
    }

    fn tick(&mut self, mut fields: Fields) -> Result<String, Trouble> {
        let now = fields.number()?;
        let lent = at_most(fields.optional_number(LEAST_OUT as u64)?, OUT_BUFFER)?;
        fields.end()?;
        let sent = self.responder.tick(now, &mut self.out[..lent])?;
        Ok(self.ticked(sent))
    }

    /// The answer to a tick, of a responder or of a browser.
    fn ticked(&self, sent: Option<Sent>) -> String {
        match sent {
            None => "quiet".to_string(),
            Some(sent) => {
                let more = if sent.more { " more" } else { "" };
                format!("sent {}{more}", hex(&self.out[..sent.length]))
            }
        }
    }

    fn stop(&mut self, mut fields: Fields) -> Result<String, Trouble> {
        let now = fields.number()?;
        let lent = at_most(fields.optional_number(LEAST_OUT as u64)?, OUT_BUFFER)?;
        fields.end()?;
        let sent = self.responder.stop(now, &mut self.out[..lent])?;
        Ok(self.sent_or_quiet(sent))
    }

    fn update(&mut self, mut fields: Fields) -> Result<String, Trouble> {
        let now = fields.number()?;
        let change = match fields.word()? {
            b"port" => {
                let port = u16::try_from(fields.number()?).map_err(|_| Trouble::BadLine)?;
                Change::Port(port)
            }
            b"txt" => Change::Txt(fields.bytes()?),
            _ => return Err(Trouble::BadLine),
        };
        let lent = at_most(fields.optional_number(LEAST_OUT as u64)?, OUT_BUFFER)?;
        fields.end()?;
        let sent = self.responder.update(now, change, &mut self.out[..lent])?;
        Ok(self.sent_or_quiet(sent))
    }

    fn sent_or_quiet(&self, sent: Option<usize>) -> String {
        match sent {
            Some(length) => format!("sent {}", hex(&self.out[..length])),
            None => "quiet".to_string(),
        }
    }

    fn claims(&self, fields: Fields) -> Result<String, Trouble> {
        fields.end()?;
        let responder = &self.responder;
        Ok(format!(
            "{} instance {} {} host {} {} reply {} updated {}",
            responder.last,
            state_word(responder.instance),
            due_word(responder.instance.due()),
            state_word(responder.host),
            due_word(responder.host.due()),
            due_word(responder.reply),
            due_word(responder.updated),
        ))
    }

    /// ` FROM DUE` of each, in order of arrival.
    fn holds(&self, fields: Fields) -> Result<String, Trouble> {
        fields.end()?;
        let holds = &self.responder.holds;
        if holds.is_empty() {
            return Ok("holds -".to_string());
        }
        let shown = holds
            .iter()
            .map(|hold| format!(" {} {}", hex(&hold.from), hold.due));
        Ok(format!("holds{}", shown.collect::<String>()))
    }

    fn put(&mut self, mut fields: Fields) -> Result<String, Trouble> {
        let now = fields.number()?;
        let port = fields.number()?;
        let packet = fields.bytes()?;
        fields.end()?;
        let counts = self.cache.put(now, port, &packet)?;
        Ok(format!(
            "cached {} {}",
            counts.turned_away, counts.passed_over
        ))
    }

    fn look(&self, mut fields: Fields) -> Result<String, Trouble> {
        let now = fields.number()?;
        let name = fields.bytes()?;
        let rtype = fields.number()?;
        let from = fields.number()?;
        fields.end()?;
        Ok(match self.cache.look(now, &name, rtype, from)? {
            None => "none".to_string(),
            Some(Found {
                slot,
                entry,
                labels,
            }) => format!(
                "slot {slot} {} {} {} {} {}",
                entry.received,
                entry.expiry,
                hex(&entry.owner),
                labels_words(labels),
                hex(&entry.rdata)
            ),
        })
    }

    fn slot(&self, mut fields: Fields) -> Result<String, Trouble> {
        let slot = fields.number()?;
        fields.end()?;
        let entry = usize::try_from(slot)
            .ok()
            .and_then(|slot| self.cache.whole_slot(slot))
            .ok_or(Trouble::BadLine)?;
        Ok(format!(
            "slot {slot} {} {} {} {} {} {} {}",
            entry.rtype,
            entry.owner.len(),
            entry.rdata.len(),
            entry.received,
            entry.expiry,
            entry.ttl,
            hex(&entry.slot())
        ))
    }

    fn clear(&mut self, fields: Fields) -> Result<String, Trouble> {
        fields.end()?;
        self.cache.clear();
        Ok("cleared".to_string())
    }

    fn table(&mut self, mut fields: Fields) -> Result<String, Trouble> {
        let entries = at_most(fields.number()?, MOST_TABLE)?;
        let store = fields.optional_number((SLOT * entries) as u64)?;
        let store = at_most(store, SLOT * MOST_TABLE)?;
        fields.end()?;
        self.cache = Cache::new(entries, store);
        Ok("table".to_string())
    }

    fn browse(&mut self, mut fields: Fields) -> Result<String, Trouble> {
        let now = fields.number()?;
        let draw = fields.number()?;
        let refresh_draw = fields.number()?;
        let labels = [fields.bytes()?, fields.bytes()?, fields.bytes()?];
        fields.end()?;
        self.browser = Browser::start(now, draw, refresh_draw, labels)?;
        Ok("browsing".to_string())
    }

    fn ask(&mut self, mut fields: Fields) -> Result<String, Trouble> {
        let now = fields.number()?;
        let lent = at_most(fields.optional_number(LEAST_OUT as u64)?, OUT_BUFFER)?;
        fields.end()?;
        let sent = self.browser.tick(now, &self.cache, &mut self.out[..lent])?;
        Ok(self.ticked(sent))
    }

    /// ` K TARGET` of each, in entry order.
    fn list(&self, mut fields: Fields) -> Result<String, Trouble> {
        let now = fields.number()?;
        fields.end()?;
        let list = self.browser.list(now, &self.cache)?;
        if list.is_empty() {
            return Ok("list -".to_string());
        }
        let shown = list
            .iter()
            .map(|(slot, target)| format!(" {slot} {}", hex(target.wire())));
        Ok(format!("list{}", shown.collect::<String>()))
    }
}

/// `AT LEN` of an out buffer; past its end the line is a bad one.
fn part(word: &str, buffer: &[u8], mut fields: Fields) -> Result<String, Trouble> {
    let at = fields.number()?;
    let length = fields.number()?;
    fields.end()?;
    let end = at
        .checked_add(length)
        .filter(|end| *end <= OUT_BUFFER as u64)
        .ok_or(Trouble::BadLine)?;
    Ok(format!(
        "{word} {}",
        hex(&buffer[at as usize..end as usize])
    ))
}

fn txt_answer(mut fields: Fields) -> Result<String, Trouble> {
    let key = fields.bytes()?;
    let received = fields.bytes()?;
    let factory = fields.bytes()?;
    fields.end()?;
    Ok(match txt::lookup(&key, &received, &factory)? {
        Answer::Absent => "absent".to_string(),
        Answer::Present => "present".to_string(),
        Answer::Empty => "empty".to_string(),
        Answer::Value { source, at, value } => {
            let source = match source {
                Source::Received => "received",
                Source::Factory => "factory",
            };
            format!("value {source} {at} {}", hex(value))
        }
    })
}

fn read(mut fields: Fields) -> Result<String, Trouble> {
    let packet = fields.bytes()?;
    fields.end()?;
    let message = Message::read(&packet)?;
    let mut answer = format!("message {} {}", message.id, message.flags);
    for question in &message.questions {
        let name = hex(question.name.wire());
        let labels = labels_words(question.name.labels());
        let (rtype, class) = (question.rtype, question.wire_class);
        write!(answer, " q {name} {labels} {rtype} {class}").expect("writing to a string");
    }
    for record in &message.records {
        let section = section_word(record.section);
        let owner = hex(record.owner.wire());
        let labels = labels_words(record.owner.labels());
        let (rtype, class, ttl) = (record.rtype, record.wire_class, record.ttl);
        let rdata = hex(&record.rdata);
        write!(
            answer,
            " r {section} {owner} {labels} {rtype} {class} {ttl} {rdata}"
        )
        .expect("writing to a string");
        if let Some(target) = record.target {
            write!(answer, " {}", labels_words(target)).expect("writing to a string");
        }
    }
    Ok(answer)
}

#[cfg(test)]
mod tests;
