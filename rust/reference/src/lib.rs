//! A Multicast DNS / DNS-SD responder, cache, browser and TXT reader, written from
//! the specification (docs/SPECIFICATION.md), RFC 6762 and RFC 6763. Comments quote the specification.

pub mod browser;
pub mod cache;
pub mod compose;
pub mod console;
pub mod message;
pub mod name;
pub mod order;
pub mod player;
pub mod proxy;
pub mod refusal;
pub mod responder;
pub mod script;
pub mod setup;
pub mod tally;
pub mod trace;
pub mod txt;

/// Record types. The five of the specification are A, PTR, TXT, AAAA and SRV;
/// NSEC of the restricted form is a sixth one, other NSEC is unknown.
pub mod rtype {
    pub const A: u16 = 1;
    pub const PTR: u16 = 12;
    pub const TXT: u16 = 16;
    pub const AAAA: u16 = 28;
    pub const SRV: u16 = 33;
    pub const NSEC: u16 = 47;
    pub const ANY: u16 = 255;

    pub fn is_one_of_the_five(rtype: u16) -> bool {
        matches!(rtype, A | PTR | TXT | AAAA | SRV)
    }
}

/// "Class means the low 15 bits."
pub mod class {
    pub const IN: u16 = 1;
    pub const ANY: u16 = 255;
    pub const TOP_BIT: u16 = 0x8000;

    pub fn low_bits(wire: u16) -> u16 {
        wire & !TOP_BIT
    }
}

/// "Time is in milliseconds, 64 bits, at most 2^62."
pub const MOST_TIME: u64 = 1 << 62;

/// Refusal 5: "source port not 5353".
pub const MDNS_PORT: u64 = 5353;
