//! What the library leaves to its caller: sockets, a clock, random draws, queries and a screen. Two programs stand on it: `responder` claims two names
//! and answers for them, `browser` finds the instances of a service. Linux only.

pub mod arguments;
pub mod browse;
pub mod clock;
pub mod command;
pub mod draw;
pub mod link;
pub mod name;
pub mod notify;
pub mod places;
pub mod proxy;
pub mod query;
pub mod recording;
pub mod refusal;
pub mod respond;
pub mod stop;
pub mod strings;
pub mod timeline;

/// Record types that the browser asks for, and NSEC, which says what there is none of.
pub mod rtype {
    pub const A: u16 = 1;
    pub const PTR: u16 = 12;
    pub const TXT: u16 = 16;
    pub const AAAA: u16 = 28;
    pub const SRV: u16 = 33;
    pub const NSEC: u16 = 47;
}
