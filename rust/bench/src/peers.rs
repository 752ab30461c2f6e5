//! Readers that others wrote, each a shared object with one function, `peer_reads`: rust/peers/build.sh makes those whose Debian package is installed. One
//! that is missing is left out.

use std::ffi::{c_char, c_int, c_void, CString};
use std::path::PathBuf;

use crate::rows::Cell;
use crate::timing::{self, Reader};

/// The peers: the crate or library, and its shared object in target/peers.
const PEERS: [(&str, &str); 3] = [
    ("dns-parser", "libdns_parser.so"),
    ("trust-dns-proto", "libtrust_dns.so"),
    ("mdnsd", "libmdnsd.so"),
];

const NOW: c_int = 2;

extern "C" {
    fn dlopen(file: *const c_char, mode: c_int) -> *mut c_void;
    fn dlsym(library: *mut c_void, name: *const c_char) -> *mut c_void;
}

type Reads = unsafe extern "C" fn(*const u8, usize) -> bool;

pub struct Peer {
    pub name: &'static str,
    reads: Reads,
}

impl Peer {
    /// Whether it takes a message.
    pub fn reads(&self, message: &[u8]) -> bool {
        // SAFETY: the pointer and the length are those of one slice; rust/peers and c/peers keep to it.
        unsafe { (self.reads)(message.as_ptr(), message.len()) }
    }

    /// mdnsd's parser is given no length, so it is fed well-formed messages alone.
    pub fn takes_damaged(&self) -> bool {
        self.name != "mdnsd"
    }

    fn load(name: &'static str, file: &str) -> Option<Peer> {
        let path = folder().join(file);
        let path = CString::new(path.to_str()?).ok()?;
        // SAFETY: both strings end in a zero byte; the function has the type that rust/peers and c/peers give it, and its library stays loaded.
        unsafe {
            let library = dlopen(path.as_ptr(), NOW);
            if library.is_null() {
                return None;
            }
            let reads = dlsym(library, c"peer_reads".as_ptr());
            (!reads.is_null()).then(|| Peer {
                name,
                reads: std::mem::transmute::<*mut c_void, Reads>(reads),
            })
        }
    }
}

fn folder() -> PathBuf {
    PathBuf::from(env!("CARGO_MANIFEST_DIR")).join("../../target/peers")
}

/// Those that were built, and the names of those that were not.
pub fn installed() -> (Vec<Peer>, Vec<&'static str>) {
    let (mut peers, mut missing) = (Vec::new(), Vec::new());
    for (name, file) in PEERS {
        match Peer::load(name, file) {
            Some(peer) => peers.push(peer),
            None => missing.push(name),
        }
    }
    (peers, missing)
}

/// The proved reader and the ordinary one, which give a verdict and allocate nothing.
pub const VERDICTS: [Reader; 2] = [&crate::reads, &crate::ordinary_reads];

/// The two where they take the message apart as well, as the peers do.
pub const APART: [Reader; 2] = [&crate::takes_apart, &crate::ordinary_takes_apart];

/// Two readers and the peers on the same well-formed packets, in nanoseconds a packet. A peer is timed only where it takes all.
pub fn beside(pair: [Reader; 2], packets: &[Vec<u8>], peers: &[Peer]) -> ([f64; 2], Vec<Cell>) {
    times(pair, packets, peers, |peer| {
        let takes_all = packets.iter().all(|packet| peer.reads(packet));
        (!takes_all).then_some(Cell::Refuses)
    })
}

/// The verdicts on packets of which some are damaged: peers refuse other ones than ours does, so that times say less.
pub fn beside_on_damaged(packets: &[Vec<u8>], peers: &[Peer]) -> ([f64; 2], Vec<Cell>) {
    times(VERDICTS, packets, peers, |peer| {
        (!peer.takes_damaged()).then_some(Cell::Untried)
    })
}

fn times(
    pair: [Reader; 2],
    packets: &[Vec<u8>],
    peers: &[Peer],
    left_out: impl Fn(&Peer) -> Option<Cell>,
) -> ([f64; 2], Vec<Cell>) {
    let mut cells: Vec<Option<Cell>> = peers.iter().map(left_out).collect();
    let reads: Vec<_> = peers
        .iter()
        .zip(&cells)
        .filter(|(_, cell)| cell.is_none())
        .map(|(peer, _)| |message: &[u8]| peer.reads(message))
        .collect();
    let mut readers: Vec<Reader> = pair.to_vec();
    readers.extend(reads.iter().map(|read| read as Reader));
    let times = timing::over_all(packets, &readers);
    let timed = cells.iter_mut().filter(|cell| cell.is_none());
    for (cell, time) in timed.zip(&times[2..]) {
        *cell = Some(Cell::Time(*time));
    }
    ([times[0], times[1]], cells.into_iter().flatten().collect())
}
