//! Set-ups from a small pool, so that names collide, in other case too, with the same data or with different ones.

use reference::responder::Change;
use reference::setup::Setup;

use crate::random::Random;

pub fn draw(random: &mut Random) -> Setup {
    let instance: &[u8] = random.pick(&[&b"booth"[..], b"booth", b"Booth", b"BOOTH", b"hall"]);
    let service: &[u8] = random.pick(&[&b"_voice"[..], b"_voice", b"_voice", b"_Voice"]);
    let protocol: &[u8] = random.pick(&[&b"_tcp"[..], b"_tcp", b"_tcp", b"_tcp", b"_udp"]);
    let host: &[u8] = random.pick(&[&b"dock"[..], b"dock", b"Dock", b"desk"]);
    let txt: &[u8] = random.pick(&[&[0][..], &[0], &[0, 0], b"\x01a", b"\x01\xff", &[0; 400]]);
    Setup {
        instance: instance.to_vec(),
        service: service.to_vec(),
        protocol: protocol.to_vec(),
        host: host.to_vec(),
        domain: b"local".to_vec(),
        port: random.pick(&[4000, 4000, 4001, 0x7fff, 0x8000]),
        txt: txt.to_vec(),
        a: random.pick(&[
            [10, 0, 0, 7],
            [10, 0, 0, 7],
            [10, 0, 0, 8],
            [169, 254, 99, 200],
            [169, 254, 200, 50],
        ]),
        aaaa: random.pick(&[None, None, Some([0xfe; 16]), Some([0x7f; 16])]),
    }
}

/// New data for an update, of the same pool.
pub fn change(random: &mut Random) -> Change {
    let other = draw(random);
    match random.chance(50) {
        true => Change::Port(other.port),
        false => Change::Txt(other.txt),
    }
}

/// A set-up that refusal 7 is given for.
pub fn illegal(random: &mut Random) -> Setup {
    let mut setup = draw(random);
    match random.up_to(4) {
        0 => setup.instance = Vec::new(),
        1 => setup.host = vec![b'h'; 64],
        2 => setup.service = b"_-voice".to_vec(),
        3 => setup.txt = vec![2, 0],
        _ => setup.txt = Vec::new(),
    }
    setup
}

#[cfg(test)]
mod tests {
    use super::*;

    #[test]
    fn legal_and_illegal() {
        let mut random = Random::new(1);
        for _ in 0..1000 {
            assert!(draw(&mut random).is_legal());
            assert!(!illegal(&mut random).is_legal());
        }
    }
}
