//! The proved library beside ordinary Rust and readers of others, and the packets that all read.

pub mod caches;
pub mod captured;
pub mod chains;
pub mod growth;
pub mod lookups;
pub mod machine;
pub mod ordinary_cache;
pub mod ordinary_table;
mod ordinary_walk;
pub mod packets;
pub mod peers;
pub mod plot;
pub mod responders;
pub mod rows;
pub mod state_bytes;
pub mod timing;

use std::hint::black_box;

use kurgashel::{Message, Section};

/// The proved reader's refusal of a message, or 0.
pub fn refusal(message: &[u8]) -> u8 {
    kurgashel::message_refusal(message).map_or_else(|refusal| refusal.number(), |()| 0)
}

/// The offset past the name at an offset, or 0 where it is malformed.
pub fn name_end(message: &[u8], at: usize) -> usize {
    kurgashel::name_end(message, at).unwrap_or(0)
}

/// The length of the name at an offset, expanded, or 0 where it is malformed.
pub fn expanded_length(message: &[u8], at: usize) -> usize {
    kurgashel::Name::read(message, at).map_or(0, |name| name.as_bytes().len())
}

/// The reference program's refusal of a message, or 0.
pub fn reference_refusal(message: &[u8]) -> u8 {
    match reference::message::check(message) {
        Ok(()) => 0,
        Err(refusal) => refusal.number(),
    }
}

/// Whether the proved reader takes a message.
pub fn reads(message: &[u8]) -> bool {
    refusal(message) == 0
}

/// Whether the ordinary reader takes a message.
pub fn ordinary_reads(message: &[u8]) -> bool {
    reference_refusal(message) == 0
}

/// Reads a message and takes it apart: each question and record, their names expanded, into values that are not kept.
pub fn takes_apart(message: &[u8]) -> bool {
    let Ok(message) = Message::read(message) else {
        return false;
    };
    for question in message.questions() {
        black_box(&question);
    }
    for section in [Section::Answer, Section::Authority, Section::Additional] {
        for record in message.records(section) {
            black_box(&record);
        }
    }
    true
}

/// The same in ordinary Rust, into vectors.
pub fn ordinary_takes_apart(message: &[u8]) -> bool {
    black_box(reference::message::Message::read(message)).is_ok()
}
