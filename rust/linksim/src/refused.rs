//! Calls that the table of refusals has a number for: "refused ones may carry any time".

use std::rc::Rc;

use reference::message::HEADER;
use reference::responder::holds::{LEAST_HOLD_DRAW, MOST_HOLD_DRAW};
use reference::responder::Change;
use reference::{MDNS_PORT, MOST_TIME};

use crate::entry::{Call, Packet, Receive};
use crate::entry::{LEAST_OUT, LEAST_REPLY_DRAW, MOST_REPLY_DRAW, MOST_START_DRAW};
use crate::random::Random;
use crate::setups;

pub fn start(random: &mut Random, clock: u64) -> Call {
    let legal = Rc::new(setups::draw(random));
    let illegal = Rc::new(setups::illegal(random));
    let start = |clock, draw, setup| Call::Start {
        clock,
        draw,
        setup,
        address: [0; 16],
    };
    match random.up_to(2) {
        0 => start(MOST_TIME + 1, 0, legal),
        1 => start(clock, MOST_START_DRAW + 1, legal),
        _ => start(clock, 0, illegal),
    }
}

pub fn tick(random: &mut Random, clock: u64, last: u64) -> Call {
    let tick = |clock, out| Call::Tick { clock, out };
    match random.up_to(1) {
        0 => tick(wrong_clock(random, last), LEAST_OUT),
        _ => tick(clock, small(random)),
    }
}

pub fn stop(random: &mut Random, clock: u64, last: u64) -> Call {
    match random.up_to(1) {
        0 => Call::Stop {
            clock: wrong_clock(random, last),
            out: LEAST_OUT,
        },
        _ => Call::Stop {
            clock,
            out: small(random),
        },
    }
}

/// Whatever state the claim is in.
pub fn update(random: &mut Random, clock: u64, last: u64) -> Call {
    let update = |clock, change, out| Call::Update { clock, change, out };
    let port = Change::Port(4000);
    match random.up_to(2) {
        0 => update(wrong_clock(random, last), port, LEAST_OUT),
        1 => update(clock, port, small(random)),
        _ => {
            let txt = random.pick(&[vec![], vec![0; 401], vec![2, 0]]);
            update(clock, Change::Txt(txt), LEAST_OUT)
        }
    }
}

/// With a packet of a responder, which another call has to bring yet.
pub fn receive(random: &mut Random, clock: u64, last: u64, packet: Packet) -> Call {
    let good = Receive {
        clock,
        from: [0; 16],
        port: MDNS_PORT,
        draw: LEAST_REPLY_DRAW,
        hold: LEAST_HOLD_DRAW,
        packet: packet.clone(),
        outs: [LEAST_OUT; 2],
    };
    Call::Receive(match random.up_to(7) {
        0 => Receive {
            clock: wrong_clock(random, last),
            ..good
        },
        1 => Receive {
            draw: random.pick(&[0, LEAST_REPLY_DRAW - 1, MOST_REPLY_DRAW + 1, u64::MAX]),
            ..good
        },
        2 => Receive {
            outs: [small(random), LEAST_OUT],
            ..good
        },
        6 => Receive {
            outs: [LEAST_OUT, small(random)],
            ..good
        },
        // "Refusal 5 for the port is now given only to responses."
        3 if packet[2] & 0x80 != 0 => Receive {
            port: random.pick(&[0, 53, MDNS_PORT - 1, MDNS_PORT + 1, 65536 + MDNS_PORT]),
            ..good
        },
        4 => Receive {
            packet: packet[..HEADER - 1].into(),
            ..good
        },
        5 => Receive {
            hold: random.pick(&[0, LEAST_HOLD_DRAW - 1, MOST_HOLD_DRAW + 1, u64::MAX]),
            ..good
        },
        _ => Receive {
            // without its last byte a record is cut off
            packet: packet[..packet.len() - 1].into(),
            ..good
        },
    })
}

/// Before the last time, or above 2^62.
fn wrong_clock(random: &mut Random, last: u64) -> u64 {
    match last {
        0 => random.pick(&[MOST_TIME + 1, u64::MAX]),
        _ => random.pick(&[last - 1, 0, MOST_TIME + 1, u64::MAX]),
    }
}

fn small(random: &mut Random) -> usize {
    random.pick(&[0, LEAST_OUT - 1])
}

#[cfg(test)]
mod tests {
    use super::*;
    use crate::entry::Before;
    use reference::compose;
    use reference::setup::ClaimName;

    #[test]
    fn each_is_refused() {
        let mut random = Random::new(1);
        for _ in 0..1000 {
            let setup = setups::draw(&mut random);
            let probe = Packet::from(compose::probe(&setup, ClaimName::Host));
            for last in [0, 1, 500] {
                let before = Before {
                    last,
                    ..Before::default()
                };
                assert!(start(&mut random, 500).refusal(before).is_some());
                assert!(tick(&mut random, 500, last).refusal(before).is_some());
                assert!(stop(&mut random, 500, last).refusal(before).is_some());
                assert!(update(&mut random, 500, last).refusal(before).is_some());
                let receive = receive(&mut random, 500, last, probe.clone());
                assert!(receive.refusal(before).is_some());
            }
        }
    }
}
