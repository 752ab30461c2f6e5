//! The reference program's console and player, to be called from C (`c/fuzz/reference.h`).

use std::fmt::Write;
use std::ptr;
use std::slice;

use reference::console::trace::refused_at;
use reference::console::{hex, Console};
use reference::player::play;
use reference::responder::{Claim, ProbesSent, Responder};
use reference::setup::{Kind, KINDS};
use reference::trace;

/// A console, and its last answer.
pub struct Reference {
    console: Console,
    answer: String,
}

impl Reference {
    /// The answer to a line of the console, or to `play TRACE`, which is the fuzzer's own and of the form of `trace TRACE`.
    fn answer(&mut self, line: &[u8]) -> Option<String> {
        let Some(field) = line.strip_prefix(b"play ") else {
            return self.console.answer(line);
        };
        let read = self.console.answer(&[b"trace ", field].concat())?;
        if read == "bad line" {
            return Some(read);
        }
        Some(played(&mut self.console.responder, &bytes_of(field)))
    }
}

/// The bytes of a field that has its form.
fn bytes_of(field: &[u8]) -> Vec<u8> {
    let digit = |byte: u8| char::from(byte).to_digit(16).unwrap_or(0) as u8;
    let pairs = field.chunks_exact(2);
    pairs
        .map(|pair| digit(pair[0]) << 4 | digit(pair[1]))
        .collect()
}

/// Has the player run a trace on a responder: whether the trace is refused, and a line for each claim that it records. Of a trace that is refused the
/// events before that are run.
fn played(responder: &mut Responder, bytes: &[u8]) -> String {
    let is_read = |end: &usize| trace::read(&bytes[..*end]).is_ok();
    let (end, mut answer) = match trace::read(bytes) {
        Ok(_) => (Some(bytes.len()), "played".to_string()),
        Err(broken) => ((0..=broken.offset).rev().find(is_read), refused_at(broken)),
    };
    let events = trace::read(&bytes[..end.unwrap_or(0)]).unwrap_or_default();
    for line in play(responder, &events).lines() {
        write!(answer, " {line}").expect("writing to a string");
    }
    answer
}

/// A claim's case among all, counted from 0, and when its next step is due.
fn case_of(claim: Claim) -> (u8, Option<u64>) {
    match claim {
        Claim::Waiting { due } => (0, Some(due)),
        Claim::Probing { sent, due } => match sent {
            ProbesSent::One => (1, Some(due)),
            ProbesSent::Two => (2, Some(due)),
            ProbesSent::Three => (3, Some(due)),
        },
        Claim::Deferred { due } => (4, Some(due)),
        Claim::Held {
            second_step: Some(due),
        } => (5, Some(due)),
        Claim::Held { second_step: None } => (6, None),
        Claim::Lost => (7, None),
    }
}

/// A set of own records; that of an AAAA which there is not says nothing.
fn flags_of(set: [bool; KINDS], has_aaaa: bool) -> String {
    let flag = |(kind, is_set)| match is_set {
        _ if kind == Kind::Aaaa as usize && !has_aaaa => '-',
        true => '1',
        false => '0',
    };
    set.into_iter().enumerate().map(flag).collect()
}

/// All that a responder knows, in the order in which a state has it.
fn shown(responder: &Responder) -> String {
    let setup = &responder.setup;
    let labels = [
        &setup.instance,
        &setup.service,
        &setup.protocol,
        &setup.host,
        &setup.domain,
    ];
    let mut words: Vec<String> = labels.iter().map(|label| hex(label)).collect();
    words.extend([setup.port.to_string(), hex(&setup.txt), hex(&setup.a)]);
    words.push(setup.aaaa.map_or("-".to_string(), |address| hex(&address)));
    let time = |time: Option<u64>| time.map_or("-".to_string(), |time| time.to_string());
    for claim in [responder.instance, responder.host] {
        let (case, due) = case_of(claim);
        words.extend([case.to_string(), time(due)]);
    }
    words.extend(responder.multicast.map(time));
    words.extend([time(responder.reply), time(responder.updated)]);
    for hold in &responder.holds {
        words.extend([hex(&hold.from), hold.due.to_string()]);
        let flags = [hold.asked, hold.known].map(|set| flags_of(set, setup.aaaa.is_some()));
        words.push(flags.concat());
    }
    words.extend([responder.start_draw.to_string(), responder.last.to_string()]);
    words.join(" ")
}

#[no_mangle]
pub extern "C" fn reference_new() -> *mut Reference {
    Box::into_raw(Box::new(Reference {
        console: Console::default(),
        answer: String::new(),
    }))
}

/// # Safety
/// `reference` came from [`reference_new`], and is not used again.
#[no_mangle]
pub unsafe extern "C" fn reference_free(reference: *mut Reference) {
    drop(Box::from_raw(reference));
}

/// The answer to a line without its LF, which stays until the next call; null where the line has none.
///
/// # Safety
/// `reference` came from [`reference_new`], `line` points to `bytes` bytes, and `answer_bytes` to a number.
#[no_mangle]
pub unsafe extern "C" fn reference_answer(
    reference: *mut Reference,
    line: *const u8,
    bytes: usize,
    answer_bytes: *mut usize,
) -> *const u8 {
    let (reference, line) = (&mut *reference, slice::from_raw_parts(line, bytes));
    match reference.answer(line) {
        None => ptr::null(),
        Some(answer) => {
            reference.answer = answer;
            *answer_bytes = reference.answer.len();
            reference.answer.as_ptr()
        }
    }
}

/// All that the console's responder knows, which stays until the next call.
///
/// # Safety
/// `reference` came from [`reference_new`], and `answer_bytes` points to a number.
#[no_mangle]
pub unsafe extern "C" fn reference_state(
    reference: *mut Reference,
    answer_bytes: *mut usize,
) -> *const u8 {
    let reference = &mut *reference;
    reference.answer = shown(&reference.console.responder);
    *answer_bytes = reference.answer.len();
    reference.answer.as_ptr()
}

/// When the responder's next step is due; false where none is to come.
///
/// # Safety
/// `reference` came from [`reference_new`], and `time` points to a number.
#[no_mangle]
pub unsafe extern "C" fn reference_due(reference: *const Reference, time: *mut u64) -> bool {
    let due = (*reference).console.responder.dues().min();
    *time = due.unwrap_or(0);
    due.is_some()
}
