//! Claims booth._voice._tcp.local and dock.local on a link and answers for them, until standard input ends: a whole program to begin from.
//! Its arguments are an address of this machine and the subnet mask, such as `serve 10.0.0.7 255.255.255.0`. Built and run by tests/examples.sh.
//! It has port 5353 for itself: to share it with other programs, such as Avahi, SO_REUSEADDR has to be set before a socket is bound, for which the
//! standard library has no call (rust/udp/src/link/system.rs and c/examples/serve.c do it).

use std::net::{Ipv4Addr, SocketAddr, SocketAddrV4, UdpSocket};
use std::sync::mpsc::{channel, RecvTimeoutError, Sender};
use std::time::{Duration, Instant};
use std::{env, error::Error, fs::File, io, io::Read, thread};

use kurgashel::{Arrival, Draws, OutBuffers, Responder, Setup, OUT_BYTES, PORT};

const GROUP: SocketAddrV4 = SocketAddrV4::new(Ipv4Addr::new(224, 0, 0, 251), PORT);

/// A packet and where it came from; nothing when standard input has ended.
type Heard = Option<(Vec<u8>, SocketAddrV4)>;

/// Hands on what a socket hears, unless it may be from beyond the link (RFC 6762 section 11).
fn hear(socket: UdpSocket, heard: Sender<Heard>, is_of_link: impl Fn(&SocketAddrV4) -> bool + Send + 'static) {
    thread::spawn(move || {
        let mut packet = [0; 9000];
        while let Ok((length, SocketAddr::V4(from))) = socket.recv_from(&mut packet) {
            is_of_link(&from).then(|| heard.send(Some((packet[..length].to_vec(), from))));
        }
    });
}

fn draw(least: u64, most: u64) -> io::Result<u64> {
    let mut bytes = [0; 8];
    File::open("/dev/urandom")?.read_exact(&mut bytes)?;
    Ok(least + u64::from_ne_bytes(bytes) % (most - least + 1))
}

fn main() -> Result<(), Box<dyn Error>> {
    let addresses: Vec<Ipv4Addr> = env::args().skip(1).map(|word| word.parse()).collect::<Result<_, _>>()?;
    let [own, mask] = addresses[..] else { return Err("usage: serve ADDRESS MASK".into()) };
    let is_near = move |from: &SocketAddrV4| (u32::from(*from.ip()) ^ u32::from(own)) & u32::from(mask) == 0;
    // what it sends leaves by the interface of its address, multicasts too
    let (to_us, to_all) = (UdpSocket::bind((own, PORT))?, UdpSocket::bind(GROUP)?);
    to_us.set_ttl(255)?;
    to_us.set_multicast_ttl_v4(255)?;
    to_all.join_multicast_v4(GROUP.ip(), &own)?;
    let (heard, packets) = channel();
    hear(to_us.try_clone()?, heard.clone(), is_near);
    hear(to_all, heard.clone(), move |from| is_near(from) || from.port() == PORT);
    thread::spawn(move || io::stdin().read_to_end(&mut Vec::new()).map(|_| heard.send(None)));

    let clock = Instant::now();
    let now = || clock.elapsed().as_millis() as u64;
    let send = |packet: &[u8], to: SocketAddrV4| if packet.is_empty() { Ok(0) } else { to_us.send_to(packet, to) };
    let setup = Setup::new("booth", "_voice", "_tcp", "dock", 4000, b"\x06room=3", own.octets(), None);
    let mut responder = Responder::start(&setup, now(), draw(0, 250)?)?;
    let (mut out, mut reply, mut told) = ([0; OUT_BYTES], [0; OUT_BYTES], None);
    loop {
        let wait = responder.due().map_or(60_000, |due| due.saturating_sub(now()));
        match packets.recv_timeout(Duration::from_millis(wait)) {
            Ok(Some((packet, from))) => {
                let draws = Draws { reply: draw(20, 120)?, hold: draw(400, 500)? };
                let arrival = Arrival { now: now(), from: from.into(), draws, packet: &packet };
                let sent = responder.receive(arrival, OutBuffers { to_all: &mut out, to_sender: &mut reply }).unwrap_or_default();
                send(&out[..sent.to_all], GROUP)?;
                is_near(&from).then(|| send(&reply[..sent.to_sender], from)); // through no router; a failure is the asker's loss alone
            }
            Err(RecvTimeoutError::Timeout) => {}
            _ => break,
        }
        while responder.due().is_some_and(|due| due <= now()) {
            let sent = responder.tick(now(), &mut out)?;
            send(&out[..sent.length], GROUP)?;
        }
        let claims = (responder.instance().word(), responder.host().word());
        if told.replace(claims) != Some(claims) {
            println!("instance {}, host {}", claims.0, claims.1);
        }
    }
    let length = responder.stop(now(), &mut out)?;
    send(&out[..length], GROUP)?;
    Ok(())
}
