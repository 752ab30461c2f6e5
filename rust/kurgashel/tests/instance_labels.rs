//! Which instance labels a set-up and a state may have: UTF-8 by the standard library's own test, without the bytes 00 to 1F and 7F.

use std::net::Ipv4Addr;

use kurgashel::{
    Arrival, Draws, OutBuffers, Received, Refusal, Responder, Setup, OUT_BYTES, PORT, STATE_BYTES,
};

/// What the specification says of a label, by the standard library.
fn is_shown(label: &[u8]) -> bool {
    let short = (1..=63).contains(&label.len());
    let plain = label.iter().all(|&b| b > 0x1f && b != 0x7f);
    short && plain && std::str::from_utf8(label).is_ok()
}

fn setup(instance: &[u8]) -> Setup {
    let a = [10, 0, 0, 7];
    Setup::new(instance, "_voice", "_tcp", "dock", 4000, &[0], a, None)
}

/// Whether a start takes the label. If not, then with 7.
fn is_taken(label: &[u8]) -> bool {
    match Responder::start(&setup(label), 0, 0) {
        Ok(_) => true,
        Err(refusal) => {
            assert_eq!(refusal, Refusal::Setup, "{label:02x?}");
            false
        }
    }
}

/// Has a responder take a packet, at a time, from a port, with a draw for the reply, and with out buffers of so many bytes.
fn receive(
    responder: &mut Responder,
    (now, port, reply): (u64, u16, u64),
    packet: &[u8],
    room: usize,
) -> Result<Received, Refusal> {
    let (mut to_all, mut to_sender) = ([0; OUT_BYTES], [0; OUT_BYTES]);
    let arrival = Arrival {
        now,
        from: (Ipv4Addr::LOCALHOST, port).into(),
        draws: Draws { reply, hold: 400 },
        packet,
    };
    let out = OutBuffers {
        to_all: &mut to_all[..room],
        to_sender: &mut to_sender[..room],
    };
    responder.receive(arrival, out)
}

fn check(label: &[u8]) {
    assert_eq!(is_taken(label), is_shown(label), "{label:02x?}");
}

/// The bytes that RFC 3629's forms give a number, also where it is no character's.
fn form(code: u32, bytes: usize) -> Vec<u8> {
    let tail = |shift: u32| 0x80 | (code >> shift & 0x3f) as u8;
    match bytes {
        1 => vec![code as u8],
        2 => vec![0xc0 | (code >> 6) as u8, tail(0)],
        3 => vec![0xe0 | (code >> 12) as u8, tail(6), tail(0)],
        _ => vec![0xf0 | (code >> 18) as u8, tail(12), tail(6), tail(0)],
    }
}

/// The number of bytes of the shortest form.
fn shortest(code: u32) -> usize {
    match code {
        0..=0x7f => 1,
        0x80..=0x7ff => 2,
        0x800..=0xffff => 3,
        _ => 4,
    }
}

#[test]
fn every_number_alone_and_among_letters() {
    let (mut taken, mut refused) = (0, 0);
    for code in 0..=0x10ffff {
        let bytes = form(code, shortest(code));
        check(&bytes);
        check(&[b"a", &bytes[..], b"z"].concat());
        let control = code < 0x20 || code == 0x7f;
        let expected = char::from_u32(code).is_some() && !control;
        assert_eq!(is_taken(&bytes), expected, "U+{code:04X}");
        if expected {
            taken += 1;
        } else {
            refused += 1;
        }
    }
    // of all 0x110000 numbers, 2,048 are surrogates and 33 control characters of ASCII
    assert_eq!((taken, refused), (0x110000 - 2048 - 33, 2048 + 33));
}

#[test]
fn forms_longer_than_the_shortest_and_past_the_last() {
    for code in 0..=0xffff {
        for bytes in shortest(code) + 1..=4 {
            assert!(!is_taken(&form(code, bytes)), "U+{code:04X} in {bytes}");
        }
    }
    for code in 0x110000..=0x1fffff {
        assert!(!is_taken(&form(code, 4)), "{code:x}");
    }
}

/// Bytes on both sides of each bound.
const EDGES: [u8; 36] = [
    0x00, 0x1f, 0x20, 0x41, 0x7e, 0x7f, 0x80, 0x8f, 0x90, 0x9f, 0xa0, 0xbf, 0xc0, 0xc1, 0xc2, 0xdf,
    0xe0, 0xe1, 0xec, 0xed, 0xee, 0xef, 0xf0, 0xf1, 0xf3, 0xf4, 0xf5, 0xf7, 0xf8, 0xfb, 0xfc, 0xfd,
    0xfe, 0xff, 0x0a, 0x61,
];

#[test]
fn all_pairs_and_edges_in_threes_and_fours() {
    for a in 0..=255 {
        check(&[a]);
        for b in 0..=255 {
            check(&[a, b]);
        }
    }
    for a in EDGES {
        for b in EDGES {
            for c in EDGES {
                check(&[a, b, c]);
                for d in EDGES {
                    check(&[a, b, c, d]);
                }
            }
        }
    }
}

#[test]
fn cut_at_every_place() {
    for whole in [
        "é",
        "€",
        "힯",
        "𝄞",
        "\u{10ffff}",
        "\u{a0}",
        "\u{800}",
        "\u{10000}",
    ] {
        for before in 0..=63 {
            for cut in 0..=whole.len() {
                let label = [&vec![b'a'; before][..], &whole.as_bytes()[..cut]].concat();
                check(&label);
                check(&[&label[..], b"z"].concat());
            }
        }
    }
    assert!(is_taken(&[&[b'a'; 59][..], "𝄞".as_bytes()].concat()));
    assert!(!is_taken(&[&[b'a'; 60][..], &"𝄞".as_bytes()[..3]].concat()));
    assert!(!is_taken(b""));
    assert!(!is_taken(&[b'a'; 64]));
}

/// Marsaglia's xorshift: the same numbers each time.
struct Random(u64);

impl Random {
    fn below(&mut self, bound: usize) -> usize {
        self.0 ^= self.0 << 13;
        self.0 ^= self.0 >> 7;
        self.0 ^= self.0 << 17;
        (self.0 >> 11) as usize % bound
    }

    /// A label of any length: whole characters, and now and then a byte from anywhere.
    fn label(&mut self) -> Vec<u8> {
        let (length, wild) = (self.below(66), self.below(4));
        let mut label = Vec::new();
        while label.len() < length {
            if self.below(40) < wild {
                label.push(EDGES[self.below(EDGES.len())]);
            } else {
                let most = [0x7f, 0x7ff, 0xffff, 0x10ffff][self.below(4)];
                let code = self.below(most + 1).max(0x20) as u32;
                label.extend(form(code, shortest(code)));
            }
        }
        if self.below(3) == 0 {
            label.truncate(length);
        }
        label
    }
}

#[test]
fn random_labels_at_a_start_and_in_a_state() {
    let mut random = Random(0x9e3779b97f4a7c15);
    let good = *Responder::start(&setup(b"booth"), 0, 0)
        .expect("good")
        .bytes();
    let (mut taken, mut out) = ([0; 2], [0; OUT_BYTES]);
    let query = [0, 0, 0, 0, 0, 0, 0, 0, 0, 0, 0, 0];
    for _ in 0..300_000 {
        let label = random.label();
        check(&label);
        taken[usize::from(is_shown(&label))] += 1;
        if label.len() > 63 {
            continue;
        }
        // a state begins with its set-up, and that with the instance label and its length
        let mut state: [u8; STATE_BYTES] = good;
        state[..63].fill(0);
        state[..label.len()].copy_from_slice(&label);
        state[63] = label.len() as u8;
        let expected = if is_shown(&label) {
            None
        } else {
            Some(Refusal::Setup)
        };
        let mut responder = Responder::from_bytes(state);
        let received = receive(&mut responder, (0, PORT, 20), &query, OUT_BYTES).err();
        assert_eq!(received, expected, "{label:02x?}");
        let ticked = responder.tick(0, &mut out).err();
        assert_eq!(ticked, expected, "{label:02x?}");
        if expected.is_some() {
            assert!(*responder.bytes() == state, "a refusal changes nothing");
        } else {
            let again = responder.tick(0, &mut out).err();
            assert_eq!(again, None, "an accepted call's state is not refused");
        }
    }
    assert!(taken.iter().all(|&n| n > 30_000), "both kinds: {taken:?}");
}

#[test]
fn seven_comes_after_the_time_the_draw_and_the_message() {
    let bad = setup(b"line\nfeed");
    let late = (1 << 62) + 1;
    assert_eq!(Responder::start(&bad, late, 251).err(), Some(Refusal::Time));
    assert_eq!(Responder::start(&bad, 0, 251).err(), Some(Refusal::Draw));
    assert_eq!(Responder::start(&bad, 0, 250).err(), Some(Refusal::Setup));
    let mut state = *Responder::start(&setup(b"line feed"), 5, 0)
        .expect("good")
        .bytes();
    state[4] = b'\n';
    let mut responder = Responder::from_bytes(state);
    let mut out = [0; OUT_BYTES];
    let query = [0; 12];
    let response = [0, 0, 0x84, 0, 0, 0, 0, 0, 0, 0, 0, 0];
    let mut receive = |now, port, draw, packet: &[u8], room| {
        receive(&mut responder, (now, port, draw), packet, room).err()
    };
    assert_eq!(receive(4, 1, 19, &[], 9), Some(Refusal::Time));
    assert_eq!(receive(5, 1, 19, &[], 9), Some(Refusal::Draw));
    assert_eq!(receive(5, 1, 20, &[], 9), Some(Refusal::Buffer));
    assert_eq!(receive(5, 1, 20, &[], OUT_BYTES), Some(Refusal::Length));
    assert_eq!(
        receive(5, 1, 20, &response, OUT_BYTES),
        Some(Refusal::Header)
    );
    assert_eq!(receive(5, 1, 20, &query, OUT_BYTES), Some(Refusal::Setup));
    assert_eq!(
        receive(5, PORT, 20, &[&[0; 5][..], &[1; 7]].concat(), OUT_BYTES),
        Some(Refusal::Malformed)
    );
    assert_eq!(
        receive(5, PORT, 20, &query, OUT_BYTES),
        Some(Refusal::Setup)
    );
    let mut responder = Responder::from_bytes(state);
    assert_eq!(
        responder.tick(5, &mut out[..9]).err(),
        Some(Refusal::Buffer)
    );
    assert_eq!(responder.tick(5, &mut out).err(), Some(Refusal::Setup));
}
