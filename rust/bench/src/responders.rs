//! The proved responder and the reference program's, each holding its names, and the calls that are timed on both.

use std::net::Ipv4Addr;

use kurgashel::{Arrival, Draws, OutBuffers, Responder, Setup, OUT_BYTES, PORT};
use reference::responder::{Arrival as ReferenceArrival, Outs, Responder as ReferenceResponder};
use reference::setup::Setup as ReferenceSetup;

use crate::state_bytes::{self, STATE_BYTES};

/// A responder with its clock and its out buffer.
pub trait Calls {
    /// Takes a packet of the asker's `gap` ms after the last call, and tells the length of what is sent to all.
    fn receive(&mut self, gap: u64, packet: &[u8]) -> usize;
    /// Ticks `gap` ms after the last call, and tells the length of what is sent.
    fn tick(&mut self, gap: u64) -> usize;
}

/// Where every packet comes from.
const ASKER: Ipv4Addr = Ipv4Addr::new(10, 0, 0, 9);
const DRAWS: Draws = Draws {
    reply: 20,
    hold: 400,
};

pub struct Proved {
    responder: Responder,
    now: u64,
    out: [u8; OUT_BYTES],
    to_sender: [u8; OUT_BYTES],
}

pub struct Reference {
    responder: ReferenceResponder,
    now: u64,
    out: [u8; OUT_BYTES],
    to_sender: [u8; OUT_BYTES],
}

/// An ordinary responder whose state is handed in as bytes; it ticks only.
pub struct OnBytes {
    state: [u8; STATE_BYTES],
    now: u64,
    out: [u8; OUT_BYTES],
}

impl OnBytes {
    /// Ticks `gap` ms after the last call, and tells the length of what is sent.
    pub fn tick(&mut self, gap: u64) -> usize {
        self.now += gap;
        state_bytes::tick(&mut self.state, self.now, &mut self.out)
            .expect("accepted")
            .map_or(0, |sent| sent.length)
    }
}

/// The ordinary responder on the bytes of the proved one.
pub fn on_bytes(instance: &str) -> OnBytes {
    let proved = proved(instance);
    OnBytes {
        state: *proved.responder.bytes(),
        now: proved.now,
        out: [0; OUT_BYTES],
    }
}

impl Calls for Proved {
    fn receive(&mut self, gap: u64, packet: &[u8]) -> usize {
        self.now += gap;
        let arrival = Arrival {
            now: self.now,
            from: (ASKER, PORT).into(),
            draws: DRAWS,
            packet,
        };
        let out = OutBuffers {
            to_all: &mut self.out,
            to_sender: &mut self.to_sender,
        };
        self.responder
            .receive(arrival, out)
            .expect("accepted")
            .to_all
    }

    fn tick(&mut self, gap: u64) -> usize {
        self.now += gap;
        self.responder
            .tick(self.now, &mut self.out)
            .expect("accepted")
            .length
    }
}

impl Calls for Reference {
    fn receive(&mut self, gap: u64, packet: &[u8]) -> usize {
        self.now += gap;
        let arrival = ReferenceArrival {
            now: self.now,
            from: ASKER.to_ipv6_mapped().octets(),
            port: PORT.into(),
            draw: DRAWS.reply,
            hold_draw: DRAWS.hold,
            packet,
        };
        let outs = Outs {
            multicast: &mut self.out,
            unicast: &mut self.to_sender,
        };
        self.responder
            .receive(arrival, outs)
            .expect("accepted")
            .multicast
            .unwrap_or(0)
    }

    fn tick(&mut self, gap: u64) -> usize {
        self.now += gap;
        self.responder
            .tick(self.now, &mut self.out)
            .expect("accepted")
            .map_or(0, |sent| sent.length)
    }
}

/// Ticks for ten seconds, until nothing is due any more.
fn settled<C: Calls>(mut calls: C) -> C {
    for _ in 0..1000 {
        calls.tick(10);
    }
    calls
}

/// The labels of instances that idle ticks are timed with: one of 63 bytes of ASCII, and one of 21 characters of three bytes.
pub const LONG: &str = "the third interpreter booth of the great hall, first floor left";
pub const WIDE: &str = "第三同声传译室在大会堂一层左侧入口处旁边间";

pub fn proved(instance: &str) -> Proved {
    let setup = Setup::new(
        instance,
        "_voice",
        "_tcp",
        "dock",
        4000,
        &[0],
        [10, 0, 0, 7],
        None,
    );
    let responder = Responder::start(&setup, 0, 0).expect("a good set-up");
    settled(Proved {
        responder,
        now: 0,
        out: [0; OUT_BYTES],
        to_sender: [0; OUT_BYTES],
    })
}

pub fn reference(instance: &str) -> Reference {
    let setup = ReferenceSetup {
        instance: instance.as_bytes().to_vec(),
        service: b"_voice".to_vec(),
        protocol: b"_tcp".to_vec(),
        host: b"dock".to_vec(),
        domain: b"local".to_vec(),
        port: 4000,
        txt: vec![0],
        a: [10, 0, 0, 7],
        aaaa: None,
    };
    let responder = ReferenceResponder::start(0, 0, setup).expect("a good set-up");
    settled(Reference {
        responder,
        now: 0,
        out: [0; OUT_BYTES],
        to_sender: [0; OUT_BYTES],
    })
}

/// A query for the host's address.
pub fn query() -> Vec<u8> {
    [
        &[0, 0, 0, 0, 0, 1, 0, 0, 0, 0, 0, 0],
        b"\x04dock\x05local\0".as_slice(),
        &[0, 1, 0, 1],
    ]
    .concat()
}

/// The same with TC, so that it is held for its known answers.
pub fn truncated() -> Vec<u8> {
    let mut query = query();
    query[2] = 2;
    query
}
