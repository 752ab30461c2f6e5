//! dns-parser reads a message: whether it takes it.

/// # Safety
/// `message` has `length` bytes.
#[no_mangle]
pub unsafe extern "C" fn peer_reads(message: *const u8, length: usize) -> bool {
    let message = unsafe { std::slice::from_raw_parts(message, length) };
    // a panic counts as a refusal
    std::panic::catch_unwind(|| dns_parser::Packet::parse(message).is_ok()).unwrap_or(false)
}
