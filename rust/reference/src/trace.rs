//! "Booth trace": a list of events as bytes. A record is "one byte of kind, then a
//! body whose length the kind fixes, numbers big-endian". Kinds 1 to 4 are the
//! request's own; 5 to 8 carry what truncated queries, stops and updates need.

use crate::responder::holds::{Address, LEAST_HOLD_DRAW};

const TICK: u8 = 1;
const RECEIVED: u8 = 2;
const PIECE: u8 = 3;
const CLAIM: u8 = 4;
/// The source address and the hold draw of the kind 2 behind it.
const SOURCE: u8 = 5;
const STOP: u8 = 6;
const PORT: u8 = 7;
const TXT: u8 = 8;

/// "3 sixteen packet bytes"
const PIECE_BYTES: usize = 16;
/// "1 of claim (0 instance, 1 host)"
const MOST_CLAIM: u8 = 1;
/// "1 of state (0 waiting, 1 probing, 2 deferred, 3 held, 4 lost)"
const MOST_STATE: u8 = 4;

/// A kind 2 without a kind 5 has this address and this hold draw.
const NO_ADDRESS: Address = [0; 16];
const NO_HOLD_DRAW: u64 = LEAST_HOLD_DRAW;

/// Numbers are as wide as a caller may have them; a field may not hold them.
#[derive(Clone, Debug, PartialEq, Eq)]
pub enum Event {
    Tick(u64),
    Received(Received),
    Claim { last: u64, claim: u64, state: u64 },
    Stop(u64),
    Port { now: u64, port: u64 },
    Txt { now: u64, txt: Vec<u8> },
}

#[derive(Clone, Debug, PartialEq, Eq)]
pub struct Received {
    pub now: u64,
    pub from: Address,
    pub port: u64,
    pub draw: u64,
    pub hold_draw: u64,
    pub packet: Vec<u8>,
}

/// Refusal 12, "with the offset of the first record that is malformed or can't
/// stand where it does, or the end if one is owed there".
#[derive(Clone, Copy, Debug, PartialEq, Eq)]
pub struct Broken {
    pub offset: usize,
}

/// Why nothing is written.
#[derive(Clone, Copy, Debug, PartialEq, Eq)]
pub enum Unwritten {
    /// "a value its field can't hold, at its record's offset"
    Value(Broken),
    /// "A buffer too small for all that is written is then refused as 3."
    Room,
}

/// The length of a kind's body, unless the kind is unknown.
fn body_length(kind: u8) -> Option<usize> {
    match kind {
        TICK => Some(8),
        RECEIVED => Some(8 + 2 + 1 + 2),
        PIECE => Some(PIECE_BYTES),
        CLAIM => Some(8 + 1 + 1),
        SOURCE => Some(16 + 2),
        STOP => Some(8),
        PORT => Some(8 + 2),
        TXT => Some(8 + 2),
        _ => None,
    }
}

/// A big-endian number.
fn number(bytes: &[u8]) -> u64 {
    bytes
        .iter()
        .fold(0, |number, byte| number << 8 | u64::from(*byte))
}

/// A record with its offset.
struct Record<'a> {
    offset: usize,
    kind: u8,
    body: &'a [u8],
}

impl Record<'_> {
    fn broken(&self) -> Broken {
        Broken {
            offset: self.offset,
        }
    }

    /// The 8 bytes of time that most bodies begin with.
    fn time(&self) -> u64 {
        number(&self.body[..8])
    }
}

struct Reader<'a> {
    trace: &'a [u8],
    offset: usize,
}

impl<'a> Reader<'a> {
    /// The record that comes next. Where none is left, one was owed: it is the end
    /// that is given then.
    fn next(&mut self) -> Result<Record<'a>, Broken> {
        let offset = self.offset;
        let broken = Broken { offset };
        let kind = *self.trace.get(offset).ok_or(broken)?;
        let length = body_length(kind).ok_or(broken)?;
        let body = self.trace.get(offset + 1..offset + 1 + length);
        let body = body.ok_or(broken)?;
        self.offset += 1 + length;
        Ok(Record { offset, kind, body })
    }

    /// The next record, which has to be of this kind.
    fn next_of(&mut self, kind: u8) -> Result<Record<'a>, Broken> {
        let record = self.next()?;
        if record.kind != kind {
            return Err(record.broken());
        }
        Ok(record)
    }

    /// "A kind 2 of length n is followed by exactly n/16 rounded up of kind 3", "the
    /// last padded with zeros".
    fn pieces(&mut self, length: usize) -> Result<Vec<u8>, Broken> {
        let mut bytes = Vec::with_capacity(length);
        while bytes.len() < length {
            let piece = self.next_of(PIECE)?;
            let left = length - bytes.len();
            let (data, padding) = piece.body.split_at(left.min(PIECE_BYTES));
            if padding.iter().any(|byte| *byte != 0) {
                return Err(piece.broken());
            }
            bytes.extend(data);
        }
        Ok(bytes)
    }

    fn received(
        &mut self,
        record: &Record,
        from: Address,
        hold_draw: u64,
    ) -> Result<Event, Broken> {
        let length = number(&record.body[11..13]) as usize;
        Ok(Event::Received(Received {
            now: record.time(),
            from,
            port: number(&record.body[8..10]),
            draw: number(&record.body[10..11]),
            hold_draw,
            packet: self.pieces(length)?,
        }))
    }

    fn event(&mut self) -> Result<Event, Broken> {
        let record = self.next()?;
        let body = record.body;
        match record.kind {
            TICK => Ok(Event::Tick(record.time())),
            RECEIVED => self.received(&record, NO_ADDRESS, NO_HOLD_DRAW),
            CLAIM => {
                let (claim, state) = (body[8], body[9]);
                if claim > MOST_CLAIM || state > MOST_STATE {
                    return Err(record.broken());
                }
                Ok(Event::Claim {
                    last: record.time(),
                    claim: claim.into(),
                    state: state.into(),
                })
            }
            SOURCE => {
                let mut from = NO_ADDRESS;
                from.copy_from_slice(&body[..16]);
                let hold_draw = number(&body[16..]);
                if is_left_out(from, hold_draw) {
                    return Err(record.broken());
                }
                let received = self.next_of(RECEIVED)?;
                self.received(&received, from, hold_draw)
            }
            STOP => Ok(Event::Stop(record.time())),
            PORT => Ok(Event::Port {
                now: record.time(),
                port: number(&body[8..]),
            }),
            TXT => Ok(Event::Txt {
                now: record.time(),
                txt: self.pieces(number(&body[8..]) as usize)?,
            }),
            // a kind 3 that is not owed
            _ => Err(record.broken()),
        }
    }
}

/// "each event list has one trace": a kind 5 with exactly these values has none.
fn is_left_out(from: Address, hold_draw: u64) -> bool {
    from == NO_ADDRESS && hold_draw == NO_HOLD_DRAW
}

pub fn read(trace: &[u8]) -> Result<Vec<Event>, Broken> {
    let mut reader = Reader { trace, offset: 0 };
    let mut events = Vec::new();
    while reader.offset < trace.len() {
        events.push(reader.event()?);
    }
    Ok(events)
}

/// A record that is being written, behind those before it.
struct Draft<'a> {
    trace: &'a mut Vec<u8>,
    offset: usize,
}

impl Draft<'_> {
    fn new(trace: &mut Vec<u8>, kind: u8) -> Draft<'_> {
        let offset = trace.len();
        trace.push(kind);
        Draft { trace, offset }
    }

    /// A field of `width` bytes with a number of at most `most`.
    fn field(self, width: usize, number: u64, most: u64) -> Result<Self, Broken> {
        if number > most {
            return Err(Broken {
                offset: self.offset,
            });
        }
        self.trace.extend(&number.to_be_bytes()[8 - width..]);
        Ok(self)
    }

    fn time(self, time: u64) -> Result<Self, Broken> {
        self.field(8, time, u64::MAX)
    }

    fn byte(self, number: u64) -> Result<Self, Broken> {
        self.field(1, number, u8::MAX.into())
    }

    fn two_bytes(self, number: u64) -> Result<Self, Broken> {
        self.field(2, number, u16::MAX.into())
    }
}

fn write_pieces(trace: &mut Vec<u8>, bytes: &[u8]) {
    for piece in bytes.chunks(PIECE_BYTES) {
        trace.push(PIECE);
        trace.extend(piece);
        trace.extend(vec![0; PIECE_BYTES - piece.len()]);
    }
}

fn write_event(trace: &mut Vec<u8>, event: &Event) -> Result<(), Broken> {
    match event {
        Event::Tick(now) => {
            Draft::new(trace, TICK).time(*now)?;
        }
        Event::Received(received) => {
            if !is_left_out(received.from, received.hold_draw) {
                let source = Draft::new(trace, SOURCE);
                source.trace.extend(received.from);
                source.two_bytes(received.hold_draw)?;
            }
            Draft::new(trace, RECEIVED)
                .time(received.now)?
                .two_bytes(received.port)?
                .byte(received.draw)?
                .two_bytes(received.packet.len() as u64)?;
            write_pieces(trace, &received.packet);
        }
        Event::Claim { last, claim, state } => {
            Draft::new(trace, CLAIM)
                .time(*last)?
                .field(1, *claim, MOST_CLAIM.into())?
                .field(1, *state, MOST_STATE.into())?;
        }
        Event::Stop(now) => {
            Draft::new(trace, STOP).time(*now)?;
        }
        Event::Port { now, port } => {
            Draft::new(trace, PORT).time(*now)?.two_bytes(*port)?;
        }
        Event::Txt { now, txt } => {
            Draft::new(trace, TXT)
                .time(*now)?
                .two_bytes(txt.len() as u64)?;
            write_pieces(trace, txt);
        }
    }
    Ok(())
}

/// The trace of these events, if there is room for all of it.
pub fn write(events: &[Event], room: u64) -> Result<Vec<u8>, Unwritten> {
    let mut trace = Vec::new();
    for event in events {
        write_event(&mut trace, event).map_err(Unwritten::Value)?;
    }
    if trace.len() as u64 > room {
        return Err(Unwritten::Room);
    }
    Ok(trace)
}

#[cfg(test)]
mod tests;
