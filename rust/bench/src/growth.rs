//! Time against the size of a message: of ordinary records, and of the worst legal message.

use crate::packets::{self, MOST_MESSAGE};
use crate::peers::{self, Peer};
use crate::rows::Cell;

/// Messages of one kind, by their size: a further kind is a further line of `families`.
pub struct Family {
    pub name: &'static str,
    /// The message of at most so many bytes.
    pub of: fn(usize) -> Vec<u8>,
    pub sizes: &'static [usize],
    /// How its curves are drawn.
    pub dashed: bool,
}

pub fn families() -> Vec<Family> {
    vec![
        Family {
            name: "PTR records",
            of: one_address_or_pointers,
            sizes: &[38, 96, 180, 360, 720, 1452, 2900, 5800, MOST_MESSAGE],
            dashed: false,
        },
        Family {
            name: "worst legal message",
            of: packets::worst_of,
            sizes: &[64, 128, 256, 512, 1024, 1452, 2900, 5800, MOST_MESSAGE],
            dashed: true,
        },
    ]
}

/// The announcement of an address where there is no room for a PTR record.
fn one_address_or_pointers(most: usize) -> Vec<u8> {
    if most < 96 {
        packets::address()
    } else {
        packets::pointers(most)
    }
}

/// The times of all readers at one size.
pub struct Point {
    pub bytes: usize,
    pub ours: f64,
    pub ordinary: f64,
    pub peers: Vec<Cell>,
}

/// The times of a family, size by size.
pub fn measure(family: &Family, peers: &[Peer]) -> Vec<Point> {
    family
        .sizes
        .iter()
        .map(|size| point((family.of)(*size), peers))
        .collect()
}

fn point(message: Vec<u8>, peers: &[Peer]) -> Point {
    assert!(crate::reads(&message), "legal");
    let bytes = message.len();
    let packets = [message];
    let (times, peers) = peers::beside(peers::VERDICTS, &packets, peers);
    Point {
        bytes,
        ours: times[0],
        ordinary: times[1],
        peers,
    }
}
