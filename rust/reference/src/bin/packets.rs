//! `packets`: every response that can be written of the five records of three
//! set-ups, and some with one NSEC or both, one a line: the set-up's host label,
//! the subset as seven digits in the order PTR, SRV, TXT, A, AAAA, the instance's
//! NSEC, the host's NSEC, and the packet's bytes.

use reference::compose::response;
use reference::setup::{OwnRecord, Setup};

/// The specification's set-up with an AAAA and another host label.
fn set_up(host: &[u8]) -> Setup {
    Setup {
        instance: b"booth".to_vec(),
        service: b"_voice".to_vec(),
        protocol: b"_tcp".to_vec(),
        host: host.to_vec(),
        domain: b"local".to_vec(),
        port: 4000,
        txt: vec![0],
        a: [10, 0, 0, 7],
        aaaa: Some([0xfe, 0x80, 0, 0, 0, 0, 0, 0, 0, 0, 0, 0, 0, 0, 0, 10]),
    }
}

/// Subsets with NSEC: each alone and both; with PTR, with SRV and with A, which
/// hold the names that are then pointed to; with TXT, which must not be pointed
/// into; all that goes out at once; all seven.
const WITH_NSEC: [u32; 10] = [
    0b0000010, 0b0000001, 0b0000011, 0b1000010, 0b0100010, 0b0100001, 0b0001001, 0b0010011,
    0b0111111, 0b1111111,
];

fn main() {
    // an ordinary label; one that is a label of the service's name; one that
    // differs from the instance's only in case
    for host in ["dock", "_tcp", "Booth"] {
        let records = set_up(host.as_bytes()).all_records();
        let subsets = (1..32_u32).map(|five| five << 2).chain(WITH_NSEC);
        for subset in subsets {
            let chosen = |i: usize| subset >> (6 - i) & 1 == 1;
            let picked: Vec<&OwnRecord> =
                (0..7).filter(|i| chosen(*i)).map(|i| &records[i]).collect();
            let bytes: String = response(&picked)
                .iter()
                .map(|b| format!("{b:02x}"))
                .collect();
            println!("{host} {subset:07b} {bytes}");
        }
    }
}
