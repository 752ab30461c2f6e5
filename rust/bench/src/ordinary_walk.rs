//! A walk over a message that is known to be well formed, for the ordinary caches: nothing is allocated.

use std::ops::Range;

use reference::message::{self, HEADER};
use reference::refusal::Refusal;
use reference::MDNS_PORT;

pub const MOST_NAME: usize = 255;

const A: u16 = 1;
const PTR: u16 = 12;
const TXT: u16 = 16;
const AAAA: u16 = 28;
const SRV: u16 = 33;
const NSEC: u16 = 47;

/// The records of a message that were not taken.
#[derive(Clone, Copy, Debug, Default, PartialEq, Eq)]
pub struct Counts {
    pub turned_away: u32,
    pub passed_over: u32,
}

/// A record, its names expanded.
pub struct Record<'a> {
    pub owner: &'a [u8],
    pub rtype: u16,
    pub flushes: bool,
    pub ttl: u32,
    pub rdata: &'a [u8],
}

pub fn u16_at(message: &[u8], at: usize) -> u16 {
    u16::from_be_bytes([message[at], message[at + 1]])
}

/// The offset past a good name.
pub fn past(message: &[u8], mut at: usize) -> usize {
    loop {
        match message[at] {
            0 => return at + 1,
            length @ 1..=63 => at += 1 + usize::from(length),
            _ => return at + 2,
        }
    }
}

/// A good name, expanded into the room.
pub fn expand<'a>(message: &[u8], mut at: usize, room: &'a mut [u8; MOST_NAME]) -> &'a [u8] {
    let mut length = 0;
    loop {
        match message[at] {
            0 => {
                room[length] = 0;
                return &room[..=length];
            }
            label @ 1..=63 => {
                let next = length + 1 + usize::from(label);
                room[length..next].copy_from_slice(&message[at..at + next - length]);
                at += next - length;
                length = next;
            }
            _ => at = usize::from(u16_at(message, at) & 0x3FFF),
        }
    }
}

/// Puts rdata with its names expanded into `out`; false where its type is not one of the six.
pub fn read_rdata(
    packet: &[u8],
    rtype: u16,
    owner: &[u8],
    place: Range<usize>,
    out: &mut Vec<u8>,
) -> bool {
    let mut room = [0; MOST_NAME];
    out.clear();
    match rtype {
        A | AAAA | TXT => out.extend_from_slice(&packet[place]),
        PTR => out.extend_from_slice(expand(packet, place.start, &mut room)),
        SRV => {
            out.extend_from_slice(&packet[place.start..place.start + 6]);
            out.extend_from_slice(expand(packet, place.start + 6, &mut room));
        }
        NSEC => return read_nsec(packet, owner, place, out),
        _ => return false,
    }
    true
}

/// The same of NSEC: only a restricted one, of the owner itself and one window block without the NSEC bit.
fn read_nsec(packet: &[u8], owner: &[u8], place: Range<usize>, out: &mut Vec<u8>) -> bool {
    let Ok(end) = reference::name::name_end(packet, place.start) else {
        return false;
    };
    let Some([0, length @ 1..=32, bitmap @ ..]) = packet.get(end..place.end) else {
        return false;
    };
    let has_nsec_bit = bitmap.get(5).is_some_and(|byte| byte & 1 != 0);
    let mut room = [0; MOST_NAME];
    let next = expand(packet, place.start, &mut room);
    if bitmap.len() != usize::from(*length) || has_nsec_bit || !next.eq_ignore_ascii_case(owner) {
        return false;
    }
    out.extend_from_slice(next);
    out.extend_from_slice(&packet[end..place.end]);
    true
}

/// Whether a packet from `port` is a response; or its refusal.
pub fn check(port: u16, packet: &[u8]) -> Result<bool, Refusal> {
    let checked = message::check(packet);
    if let Err(refusal @ (Refusal::MessageLength | Refusal::Header)) = checked {
        return Err(refusal);
    }
    let is_response = packet[2] & 0x80 != 0;
    if is_response && u64::from(port) != MDNS_PORT {
        return Err(Refusal::Header);
    }
    checked.map(|()| is_response)
}

/// Calls for each record of class 1 and the six types in the Answer and Additional sections, in order. The room for rdata is used again.
pub fn each_record(packet: &[u8], rdata: &mut Vec<u8>, mut take: impl FnMut(&Record)) {
    let mut owner = [0; MOST_NAME];
    let mut at = HEADER;
    for _ in 0..u16_at(packet, 4) {
        at = past(packet, at) + 4;
    }
    for count_at in [6, 8, 10] {
        for _ in 0..u16_at(packet, count_at) {
            let fixed = past(packet, at);
            let (rtype, class) = (u16_at(packet, fixed), u16_at(packet, fixed + 2));
            let start = fixed + 10;
            let end = start + usize::from(u16_at(packet, fixed + 8));
            if count_at != 8 && class & 0x7FFF == 1 {
                let owner = expand(packet, at, &mut owner);
                if read_rdata(packet, rtype, owner, start..end, rdata) {
                    let ttl = u32::from_be_bytes(
                        packet[fixed + 4..fixed + 8].try_into().expect("four bytes"),
                    );
                    take(&Record {
                        owner,
                        rtype,
                        flushes: class & 0x8000 != 0,
                        ttl: if ttl >> 31 == 0 { ttl } else { 0 },
                        rdata,
                    });
                }
            }
            at = end;
        }
    }
}

/// Whether bytes are one uncompressed name and nothing behind it.
pub fn is_name(bytes: &[u8]) -> bool {
    let mut at = 0;
    while let Some(&length @ 1..=63) = bytes.get(at) {
        at += 1 + usize::from(length);
    }
    bytes.len() <= MOST_NAME && at + 1 == bytes.len() && bytes[at] == 0
}
