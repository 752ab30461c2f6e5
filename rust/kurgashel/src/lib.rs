//! A Multicast DNS / DNS-SD responder, cache, browser and TXT reader (RFC 6762, RFC 6763), traces of a responder, and the names and records of a discovery
//! proxy (RFC 8766), proved in Rattle and called from Rust.
//!
//! Every call takes any arguments: the library itself tests them, and a refused call changes nothing. There are no sockets and no clock here; times are
//! milliseconds of a clock that never goes back, and random draws are the caller's.
//!
//! ```
//! use kurgashel::{Claim, Responder, Setup, OUT_BYTES};
//!
//! let setup = Setup::new("booth", "_voice", "_tcp", "dock", 4000, b"\x06room=3", [10, 0, 0, 7], None);
//! let mut responder = Responder::start(&setup, 0, 120).expect("a good set-up");
//! let mut out = [0; OUT_BYTES];
//! while let Some(due) = responder.due() {
//!     // wait until then, or for a packet to hand to responder.receive
//!     let sent = responder.tick(due, &mut out).expect("time goes on");
//!     // send the first sent.length bytes of out to 224.0.0.251, port 5353
//! }
//! assert_eq!(responder.instance(), Claim::Held);
//! ```

#![warn(missing_docs)]

mod browser;
mod cache;
mod pairs;
mod player;
mod proxy;
mod reader;
mod responder;
mod setup;
mod trace;

pub use browser::{Browser, BrowserDraws, Instances, Listed};
pub use cache::{Cache, Found, Taken, MOST_ENTRIES};
pub use pairs::{txt_lookup, Pair};
pub use player::{Line, Lines, Played, Player, Turn};
pub use proxy::{Asked, Passed, Proxy};
pub use reader::{
    message_refusal, name_end, name_length, Data, Message, Name, Nsec, Question, Record, Section,
    Srv, Strings,
};
pub use responder::{
    Arrival, Claim, Draws, OutBuffers, Received, Responder, Ticked, OUT_BYTES, PORT, STATE_BYTES,
};
pub use setup::{Setup, SETUP_BYTES};
pub use trace::{trace_check, Event, Events, Recorder, TraceRefusal, Which};

/// Why a call was refused, by the specification's number.
#[derive(Clone, Copy, Debug, PartialEq, Eq)]
pub enum Refusal {
    /// 1: a time too late, or before one that is kept.
    Time,
    /// 2: a draw outside 0..250 (start), 20..120 or 400..500 (packet received), or 20..120 or 0..20 (start of a browser).
    Draw,
    /// 3: an out buffer under 1,452 bytes.
    Buffer,
    /// 4: a message under 12 or over 8,972 bytes.
    Length,
    /// 5: opcode or RCODE not zero, or a response from a source port other than 5353.
    Header,
    /// 6: a malformed message, TXT or looked-up name.
    Malformed,
    /// 7: a set-up, a state or an update that breaks the rules ([`Setup::new`]), such as an instance label that is not UTF-8 or has a control character.
    Setup,
    /// 8: a cache of another size, or with an entry that breaks the rules.
    Cache,
    /// 9: a TXT key that is empty or has a byte that no key has.
    Key,
    /// 10: an update of an instance whose name is lost.
    Lost,
    /// 11: an update less than 6,000 ms after the last one.
    TooSoon,
    /// 12: a trace that breaks the rules, or an event with a value that its field cannot hold ([`TraceRefusal`]).
    Trace,
    /// 13: a mapped name of more than 255 bytes.
    TooLong,
}

impl Refusal {
    /// The specification's number.
    pub fn number(self) -> u8 {
        self as u8 + 1
    }

    /// The refusal of a number, none for 0.
    fn check(number: u8) -> Result<(), Refusal> {
        use Refusal::*;
        match number {
            0 => Ok(()),
            1 => Err(Time),
            2 => Err(Draw),
            3 => Err(Buffer),
            4 => Err(Length),
            5 => Err(Header),
            6 => Err(Malformed),
            7 => Err(Setup),
            8 => Err(Cache),
            9 => Err(Key),
            10 => Err(Lost),
            11 => Err(TooSoon),
            12 => Err(Trace),
            _ => Err(TooLong),
        }
    }
}

impl std::fmt::Display for Refusal {
    fn fmt(&self, f: &mut std::fmt::Formatter) -> std::fmt::Result {
        write!(f, "refused: {:?} ({})", self, self.number())
    }
}

impl std::error::Error for Refusal {}
