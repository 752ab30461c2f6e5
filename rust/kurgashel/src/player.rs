//! A player: the calls of a trace made again on a responder, and each claim that was recorded compared with it.

use std::fmt;

use crate::trace::CLAIMS;
use crate::{Claim, Refusal, Responder, Setup, TraceRefusal, Which};

#[repr(C)]
struct Numbers {
    refusal: u8,
    turn: u8,
    call: u8,
    agrees: bool,
    at: usize,
    last: u64,
    claim: u64,
    state: u64,
}

extern "C" {
    fn kurgashel_play(
        state: *mut u8,
        state_bytes: usize,
        trace: *const u8,
        trace_bytes: usize,
        at: usize,
    ) -> Numbers;
}

/// What was recorded of a claim, beside the responder that plays the trace. It is shown as `5000 host held ok`, with `bad` where state or time differs.
#[derive(Clone, Copy, Debug, PartialEq, Eq)]
pub struct Line {
    /// The last time.
    pub last: u64,
    /// Which claim.
    pub which: Which,
    /// How it stood.
    pub state: Claim,
    /// Whether the responder's last time is the same and its claim stands so.
    pub agrees: bool,
}

impl fmt::Display for Line {
    fn fmt(&self, f: &mut fmt::Formatter) -> fmt::Result {
        let which = match self.which {
            Which::Instance => "instance",
            Which::Host => "host",
        };
        let verdict = if self.agrees { "ok" } else { "bad" };
        write!(
            f,
            "{} {} {} {}",
            self.last,
            which,
            self.state.word(),
            verdict
        )
    }
}

/// What playing an event came to.
#[derive(Clone, Copy, Debug, PartialEq, Eq)]
pub enum Played {
    /// A call was made, and taken or refused.
    Call(Result<(), Refusal>),
    /// A claim was recorded.
    Claim(Line),
}

/// An event that was played, and the offset behind it.
#[derive(Clone, Copy, Debug, PartialEq, Eq)]
pub struct Turn {
    /// What it came to.
    pub played: Played,
    /// The offset behind it.
    pub next: usize,
}

/// Plays a trace to a responder: each call is made as it was recorded, on past refused ones, with out buffers of 1,452 bytes, and what is sent is not given.
///
/// ```
/// # use kurgashel::{Player, Setup, TraceRefusal};
/// # fn show(setup: &Setup, trace: &[u8]) -> Result<(), TraceRefusal> {
/// let mut player = Player::start(setup, 0, 120).expect("a good set-up");
/// for line in player.lines(trace) {
///     println!("{}", line?);
/// }
/// # Ok(())
/// # }
/// ```
#[derive(Clone, Debug)]
pub struct Player {
    responder: Responder,
}

impl Player {
    /// One whose responder begins with a set-up, a time and a draw.
    pub fn start(setup: &Setup, now: u64, draw: u64) -> Result<Player, Refusal> {
        Ok(Player {
            responder: Responder::start(setup, now, draw)?,
        })
    }

    /// The responder as it is.
    pub fn responder(&self) -> &Responder {
        &self.responder
    }

    /// Plays the event at an offset, which is 0 or the offset behind another event; there is none at the trace's end. A refusal changes nothing.
    pub fn play(&mut self, trace: &[u8], at: usize) -> Result<Option<Turn>, TraceRefusal> {
        let state = self.responder.bytes_mut();
        // SAFETY: each pointer and length are those of one slice; the first alone is written, and it is borrowed for this call alone.
        let n = unsafe {
            kurgashel_play(
                state.as_mut_ptr(),
                state.len(),
                trace.as_ptr(),
                trace.len(),
                at,
            )
        };
        if n.refusal != 0 {
            return Err(TraceRefusal { offset: n.at });
        }
        let played = match n.turn {
            0 => return Ok(None),
            1 => Played::Call(Refusal::check(n.call)),
            _ => Played::Claim(Line {
                last: n.last,
                which: Which::of(n.claim),
                state: CLAIMS[n.state as usize],
                agrees: n.agrees,
            }),
        };
        Ok(Some(Turn { played, next: n.at }))
    }

    /// Plays a trace from its start, and gives a line for each claim that was recorded. Behind a refusal nothing is played.
    pub fn lines<'a>(&'a mut self, trace: &'a [u8]) -> Lines<'a> {
        Lines {
            player: self,
            trace,
            at: Some(0),
        }
    }
}

/// The lines of a trace that is played ([`Player::lines`]); each is played when it is asked for.
#[derive(Debug)]
pub struct Lines<'a> {
    player: &'a mut Player,
    trace: &'a [u8],
    at: Option<usize>,
}

impl Iterator for Lines<'_> {
    type Item = Result<Line, TraceRefusal>;

    fn next(&mut self) -> Option<Self::Item> {
        while let Some(at) = self.at {
            let turn = self.player.play(self.trace, at);
            self.at = turn.ok().flatten().map(|turn| turn.next);
            match turn {
                Ok(Some(turn)) => {
                    if let Played::Claim(line) = turn.played {
                        return Some(Ok(line));
                    }
                }
                Ok(None) => return None,
                Err(refusal) => return Some(Err(refusal)),
            }
        }
        None
    }
}
