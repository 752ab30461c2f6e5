//! The lines `trace` and `record`: a trace as events in words, and back.

use std::fmt::Write;

use super::{hex, shown, Console, Fields, Trouble};
use crate::refusal::Refusal;
use crate::trace::{self, Broken, Event, Received, Unwritten};

/// "or `refused 12 OFFSET`"
pub fn refused_at(broken: Broken) -> String {
    format!("refused {} {}", Refusal::Trace.number(), broken.offset)
}

impl Console {
    /// The answer to a `start` with the fields of this line, which lacks the word.
    pub fn start_with(&mut self, line: &[u8]) -> String {
        shown(self.start(Fields::new(line)))
    }
}

pub(super) fn trace_answer(mut fields: Fields) -> Result<String, Trouble> {
    let bytes = fields.bytes()?;
    fields.end()?;
    let events = match trace::read(&bytes) {
        Err(broken) => return Ok(refused_at(broken)),
        Ok(events) => events,
    };
    let mut answer = "events".to_string();
    for event in &events {
        write!(answer, " {}", words(event)).expect("writing to a string");
    }
    Ok(answer)
}

/// "`record SIZE` and then events in the same words"
pub(super) fn record_answer(mut fields: Fields) -> Result<String, Trouble> {
    let room = fields.number()?;
    let mut events = Vec::new();
    while let Some(word) = fields.0.next() {
        events.push(event(word, &mut fields)?);
    }
    match trace::write(&events, room) {
        Ok(trace) => Ok(format!("trace {}", hex(&trace))),
        Err(Unwritten::Value(broken)) => Ok(refused_at(broken)),
        Err(Unwritten::Room) => Err(Refusal::OutBuffer.into()),
    }
}

/// The words of an event.
pub fn words(event: &Event) -> String {
    match event {
        Event::Tick(now) => format!("tick {now}"),
        Event::Received(received) => {
            let Received { now, port, .. } = received;
            let from = hex(&received.from);
            let (draw, hold_draw) = (received.draw, received.hold_draw);
            let packet = hex(&received.packet);
            format!("recv {now} {from} {port} {draw} {hold_draw} {packet}")
        }
        Event::Claim { last, claim, state } => format!("claim {last} {claim} {state}"),
        Event::Stop(now) => format!("stop {now}"),
        Event::Port { now, port } => format!("port {now} {port}"),
        Event::Txt { now, txt } => format!("txt {now} {}", hex(txt)),
    }
}

/// The event that this word begins.
fn event(word: &[u8], fields: &mut Fields) -> Result<Event, Trouble> {
    Ok(match word {
        b"tick" => Event::Tick(fields.number()?),
        b"recv" => Event::Received(Received {
            now: fields.number()?,
            from: fields.address()?,
            port: fields.number()?,
            draw: fields.number()?,
            hold_draw: fields.number()?,
            packet: fields.bytes()?,
        }),
        b"claim" => Event::Claim {
            last: fields.number()?,
            claim: fields.number()?,
            state: fields.number()?,
        },
        b"stop" => Event::Stop(fields.number()?),
        b"port" => Event::Port {
            now: fields.number()?,
            port: fields.number()?,
        },
        b"txt" => Event::Txt {
            now: fields.number()?,
            txt: fields.bytes()?,
        },
        _ => return Err(Trouble::BadLine),
    })
}

/// The event of these words alone, if they are of their form.
pub fn event_of(words: &[u8]) -> Option<Event> {
    let mut fields = Fields::new(words);
    let word = fields.word().ok()?;
    let event = event(word, &mut fields).ok()?;
    fields.end().ok().map(|()| event)
}
