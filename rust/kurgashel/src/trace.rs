//! Traces of one responder: a reader that gives events, and a recorder that writes them. docs/TRACE.md has the format; the module `player` plays them.

use std::fmt;
use std::net::Ipv6Addr;

use crate::{Claim, Draws, Refusal};

#[repr(C)]
struct EventNumbers {
    refusal: u8,
    kind: u8,
    at: usize,
    time: u64,
    high: u64,
    low: u64,
    port: u64,
    draw: u64,
    hold: u64,
    claim: u64,
    state: u64,
    length: usize,
}

#[repr(C)]
struct Answer {
    refusal: u8,
    at: usize,
}

extern "C" {
    fn kurgashel_trace_next(trace: *const u8, trace_bytes: usize, at: usize) -> EventNumbers;
    fn kurgashel_trace_bytes(
        trace: *const u8,
        trace_bytes: usize,
        at: usize,
        out: *mut u8,
        out_bytes: usize,
    ) -> usize;
    fn kurgashel_trace_check(trace: *const u8, trace_bytes: usize) -> Answer;
    #[allow(clippy::too_many_arguments)]
    fn kurgashel_trace_write(
        out: *mut u8,
        out_bytes: usize,
        at: usize,
        kind: u8,
        time: u64,
        high: u64,
        low: u64,
        port: u64,
        draw: u64,
        hold: u64,
        claim: u64,
        state: u64,
        bytes: *const u8,
        bytes_bytes: usize,
    ) -> Answer;
}

/// One of a responder's two names.
#[derive(Clone, Copy, Debug, PartialEq, Eq)]
pub enum Which {
    /// The instance's.
    Instance,
    /// The host's.
    Host,
}

impl Which {
    pub(crate) fn of(number: u64) -> Which {
        match number {
            0 => Which::Instance,
            _ => Which::Host,
        }
    }
}

/// What happened to a responder: a call that was made, refused or not, or what was recorded of a claim.
#[derive(Clone, Debug, PartialEq, Eq)]
pub enum Event {
    /// A tick.
    Tick {
        /// Its time.
        now: u64,
    },
    /// A packet received.
    Packet {
        /// When it came.
        now: u64,
        /// Where from; an IPv4 address is mapped to IPv6.
        from: Ipv6Addr,
        /// Its source port.
        port: u16,
        /// Its draws.
        draws: Draws,
        /// Its bytes.
        packet: Vec<u8>,
    },
    /// How a claim stands.
    Claim {
        /// The last time of the responder's state.
        last: u64,
        /// Which.
        which: Which,
        /// How it stands.
        state: Claim,
    },
    /// A stop.
    Stop {
        /// Its time.
        now: u64,
    },
    /// An update of the port.
    Port {
        /// Its time.
        now: u64,
        /// The new port.
        port: u16,
    },
    /// An update of TXT.
    Txt {
        /// Its time.
        now: u64,
        /// The new TXT.
        txt: Vec<u8>,
    },
}

/// Refusal 12, with its offset: of the first record that is malformed or cannot stand where it does, or of the end where one is owed; of a recorder, of the record
/// that a value does not fit.
#[derive(Clone, Copy, Debug, PartialEq, Eq)]
pub struct TraceRefusal {
    /// The offset.
    pub offset: usize,
}

impl fmt::Display for TraceRefusal {
    fn fmt(&self, f: &mut fmt::Formatter) -> fmt::Result {
        write!(
            f,
            "refused: {:?} ({}) at {}",
            Refusal::Trace,
            Refusal::Trace.number(),
            self.offset
        )
    }
}

impl std::error::Error for TraceRefusal {}

/// By their numbers.
pub(crate) const CLAIMS: [Claim; 5] = [
    Claim::Waiting,
    Claim::Probing,
    Claim::Deferred,
    Claim::Held,
    Claim::Lost,
];

/// Whether a whole trace is read.
pub fn trace_check(trace: &[u8]) -> Result<(), TraceRefusal> {
    // SAFETY: the pointer and length are those of one slice; nothing is written.
    let answer = unsafe { kurgashel_trace_check(trace.as_ptr(), trace.len()) };
    match answer.refusal {
        0 => Ok(()),
        _ => Err(TraceRefusal { offset: answer.at }),
    }
}

/// The events of a trace, one after the other. Behind a refusal there are none; those before it stand, so that a trace whose end is lost can be used.
#[derive(Clone, Debug)]
pub struct Events<'a> {
    trace: &'a [u8],
    at: usize,
    done: bool,
}

impl<'a> Events<'a> {
    /// Those of a trace.
    pub fn new(trace: &'a [u8]) -> Events<'a> {
        Events {
            trace,
            at: 0,
            done: false,
        }
    }

    /// The offset behind the last event that was given.
    pub fn offset(&self) -> usize {
        self.at
    }

    fn bytes(&self, length: usize) -> Vec<u8> {
        let mut bytes = vec![0; length];
        // SAFETY: each pointer and length are those of one slice; the one that is written is borrowed for this call alone.
        unsafe {
            kurgashel_trace_bytes(
                self.trace.as_ptr(),
                self.trace.len(),
                self.at,
                bytes.as_mut_ptr(),
                bytes.len(),
            )
        };
        bytes
    }
}

impl Iterator for Events<'_> {
    type Item = Result<Event, TraceRefusal>;

    fn next(&mut self) -> Option<Self::Item> {
        if self.done {
            return None;
        }
        // SAFETY: as for `trace_check`.
        let n = unsafe { kurgashel_trace_next(self.trace.as_ptr(), self.trace.len(), self.at) };
        if n.refusal != 0 {
            self.done = true;
            return Some(Err(TraceRefusal { offset: n.at }));
        }
        let now = n.time;
        let event = match n.kind {
            0 => {
                self.done = true;
                return None;
            }
            1 => Event::Tick { now },
            2 => Event::Packet {
                now,
                from: Ipv6Addr::from(u128::from(n.high) << 64 | u128::from(n.low)),
                port: n.port as u16,
                draws: Draws {
                    reply: n.draw,
                    hold: n.hold,
                },
                packet: self.bytes(n.length),
            },
            4 => Event::Claim {
                last: now,
                which: Which::of(n.claim),
                state: CLAIMS[n.state as usize],
            },
            6 => Event::Stop { now },
            7 => Event::Port {
                now,
                port: n.port as u16,
            },
            _ => Event::Txt {
                now,
                txt: self.bytes(n.length),
            },
        };
        self.at = n.at;
        Some(Ok(event))
    }
}

/// Writes a trace event by event.
#[derive(Clone, Debug, Default)]
pub struct Recorder {
    trace: Vec<u8>,
}

impl Recorder {
    /// One that has recorded nothing.
    pub fn new() -> Recorder {
        Recorder::default()
    }

    /// The trace so far.
    pub fn trace(&self) -> &[u8] {
        &self.trace
    }

    /// Forgets what was recorded: for one who has written it out. Offsets count from here then.
    pub fn clear(&mut self) {
        self.trace.clear();
    }

    /// Records an event. A value that its field cannot hold, such as a draw above 255 or more than 65,535 bytes, is refused; nothing is recorded then.
    pub fn record(&mut self, event: &Event) -> Result<(), TraceRefusal> {
        let none = (Ipv6Addr::UNSPECIFIED, 0, 0, 0);
        match event {
            Event::Tick { now } => self.write(1, *now, none, (0, 0), &[]),
            Event::Packet {
                now,
                from,
                port,
                draws,
                packet,
            } => {
                let source = (*from, u64::from(*port), draws.reply, draws.hold);
                self.write(2, *now, source, (0, 0), packet)
            }
            Event::Claim { last, which, state } => {
                self.write(4, *last, none, (*which as u64, *state as u64), &[])
            }
            Event::Stop { now } => self.write(6, *now, none, (0, 0), &[]),
            Event::Port { now, port } => {
                let source = (Ipv6Addr::UNSPECIFIED, u64::from(*port), 0, 0);
                self.write(7, *now, source, (0, 0), &[])
            }
            Event::Txt { now, txt } => self.write(8, *now, none, (0, 0), txt),
        }
    }

    /// Writes an event of a kind: its time; source address, port and draws; claim and state; bytes.
    fn write(
        &mut self,
        kind: u8,
        time: u64,
        source: (Ipv6Addr, u64, u64, u64),
        claim: (u64, u64),
        bytes: &[u8],
    ) -> Result<(), TraceRefusal> {
        let at = self.trace.len();
        let from = u128::from(source.0);
        // the greatest records before the pieces, and a piece of 17 bytes for each 16
        self.trace
            .resize(at + 33 + bytes.len().div_ceil(16) * 17, 0);
        // SAFETY: each pointer and length are those of one slice; the one that is written is borrowed for this call alone.
        let answer = unsafe {
            kurgashel_trace_write(
                self.trace.as_mut_ptr(),
                self.trace.len(),
                at,
                kind,
                time,
                (from >> 64) as u64,
                from as u64,
                source.1,
                source.2,
                source.3,
                claim.0,
                claim.1,
                bytes.as_ptr(),
                bytes.len(),
            )
        };
        match answer.refusal {
            0 => {
                self.trace.truncate(answer.at);
                Ok(())
            }
            _ => {
                self.trace.truncate(at);
                Err(TraceRefusal { offset: answer.at })
            }
        }
    }
}
