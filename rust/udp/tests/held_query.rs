//! A browser whose known answers take more than one packet, and the example responder, on the loopback interface. Of an address one query is held at a time: so
//! this is one test, and its names carry the process id, so that runs beside each other do not meet.

use std::io::{BufRead, BufReader};
use std::net::Ipv4Addr;
use std::process::{Child, Command, Stdio};
use std::thread::sleep;
use std::time::{Duration, Instant};

use kurgashel::{Message, Section};
use udp::link::{Hears, Link};
use udp::query::{compose, KnownAnswer, Question, Wants};
use udp::{name, rtype};

const RESPONDER: &str = env!("CARGO_BIN_EXE_responder");
/// No record goes out again within a second.
const PAUSE: Duration = Duration::from_millis(1200);
/// The flag of a query whose known answers follow in further packets (TC), in the header's third byte.
const TRUNCATED: u8 = 2;

/// A responder that is ended with the test.
struct Running(Child);

impl Drop for Running {
    fn drop(&mut self) {
        let _ = self.0.kill();
        let _ = self.0.wait();
    }
}

/// A responder that holds both its names, and has announced them for the last time.
fn responder(service: &str, host: &str) -> Running {
    let mut command = Command::new(RESPONDER);
    command.args(["--interface", "127.0.0.1", "--instance", "booth"]);
    command.args(["--service", service, "--host", host, "--port", "4000"]);
    command.args(["--seconds", "30"]);
    let mut child = command.stdout(Stdio::piped()).spawn().unwrap();
    let lines = BufReader::new(child.stdout.take().unwrap()).lines();
    let held = lines.map(Result::unwrap);
    assert_eq!(
        held.filter(|line| line.contains(" held ")).take(2).count(),
        2
    );
    sleep(Duration::from_millis(1000) + PAUSE);
    Running(child)
}

/// When the first PTR of a service comes, since `asked`, if one does in 900 ms.
fn answered(link: &mut Link, service: &[u8], asked: Instant) -> Option<Duration> {
    while asked.elapsed() < Duration::from_millis(900) {
        let Some(packet) = link.receive(20).unwrap() else {
            continue;
        };
        let Ok(message) = Message::read(packet.bytes) else {
            continue;
        };
        let is_ours = message.flags() & 0x8000 != 0
            && message
                .records(Section::Answer)
                .any(|record| record.rtype == rtype::PTR && record.owner.as_bytes() == service);
        if is_ours {
            return Some(asked.elapsed());
        }
    }
    None
}

#[test]
fn known_answers_of_a_second_packet() {
    let label = format!("_held{}", std::process::id());
    let host = format!("held-{}", std::process::id());
    let _running = responder(&format!("{label}._udp"), &host);
    let mut link = Link::open(Ipv4Addr::LOCALHOST, Hears::GroupAlone).unwrap();
    let service = name::from_labels(&[label.as_bytes(), b"_udp", b"local"]);
    let booth = name::from_labels(&[b"booth", label.as_bytes(), b"_udp", b"local"]);
    let question = Question {
        name: service.clone(),
        rtype: rtype::PTR,
    };
    let known = KnownAnswer {
        name: service.clone(),
        rtype: rtype::PTR,
        ttl: 4500,
        rdata: booth,
    };
    let (whole, _) = compose(std::slice::from_ref(&question), Wants::Multicast, &[]);
    let (rest, _) = compose(&[], Wants::Multicast, &[known]);
    let mut cut = whole.clone();
    cut[2] |= TRUNCATED;

    let asked = Instant::now();
    link.send(&whole).unwrap();
    let reply = answered(&mut link, &service, asked).expect("a reply");
    assert!(reply < Duration::from_millis(350), "{reply:?}");
    sleep(PAUSE);

    // no further packet comes: the query is answered when it has been held for 400 to 500 ms; the clocks count whole milliseconds
    let asked = Instant::now();
    link.send(&cut).unwrap();
    let reply = answered(&mut link, &service, asked).expect("a reply");
    assert!(reply >= Duration::from_millis(399), "{reply:?}");
    sleep(PAUSE);

    let asked = Instant::now();
    link.send(&cut).unwrap();
    sleep(Duration::from_millis(50));
    link.send(&rest).unwrap();
    assert_eq!(answered(&mut link, &service, asked), None);
}
