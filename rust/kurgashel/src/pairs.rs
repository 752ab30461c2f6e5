//! TXT pairs.

use crate::Refusal;

#[repr(C)]
struct PairNumbers {
    refusal: u8,
    answer: u8,
    buffer: u8,
    at: usize,
    length: usize,
}

extern "C" {
    fn kurgashel_txt_lookup(
        key: *const u8,
        key_bytes: usize,
        received: *const u8,
        received_bytes: usize,
        factory: *const u8,
        factory_bytes: usize,
    ) -> PairNumbers;
}

/// What a key says.
#[derive(Clone, Copy, Debug, PartialEq, Eq)]
pub enum Pair<'a> {
    /// No string has the key.
    Absent,
    /// The key stands alone.
    Present,
    /// The key has an empty value.
    Empty,
    /// The key has this value, a part of the TXT that held it.
    Value(&'a [u8]),
}

/// Looks a key up in the TXT that was received and, when it is absent there, in the factory TXT.
pub fn txt_lookup<'a>(
    key: &[u8],
    received: &'a [u8],
    factory: &'a [u8],
) -> Result<Pair<'a>, Refusal> {
    // SAFETY: each pointer and length are those of one slice; nothing is written.
    let pair = unsafe {
        kurgashel_txt_lookup(
            key.as_ptr(),
            key.len(),
            received.as_ptr(),
            received.len(),
            factory.as_ptr(),
            factory.len(),
        )
    };
    Refusal::check(pair.refusal)?;
    let buffer = if pair.buffer == 0 { received } else { factory };
    Ok(match pair.answer {
        0 => Pair::Absent,
        1 => Pair::Present,
        2 => Pair::Empty,
        _ => Pair::Value(&buffer[pair.at..pair.at + pair.length]),
    })
}
