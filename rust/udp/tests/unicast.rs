//! Questions that want unicast (RFC 6762 section 5.4), asked from port 5353 of an address of the loopback interface, and the example responder at another.
//! Names and addresses carry the process id, so that runs beside each other do not meet.

use std::io::{BufRead, BufReader};
use std::net::{IpAddr, Ipv4Addr};
use std::process::{Child, ChildStdout, Command, Stdio};
use std::time::{Duration, Instant};

use udp::link::{Hears, Link, GROUP};
use udp::query::{compose, Question, Wants};
use udp::{name, rtype};

const RESPONDER: &str = env!("CARGO_BIN_EXE_responder");
const ID: [u8; 2] = [0xbe, 0xef];

/// An address that only this test uses.
fn own(number: u8) -> Ipv4Addr {
    let [.., high, low] = std::process::id().to_be_bytes();
    Ipv4Addr::new(127, 96 + number, high, low)
}

/// A responder that is ended with the test, and its lines.
struct Running {
    child: Child,
    lines: std::io::Lines<BufReader<ChildStdout>>,
}

impl Drop for Running {
    fn drop(&mut self) {
        let _ = self.child.kill();
        let _ = self.child.wait();
    }
}

impl Running {
    fn begin(interface: Ipv4Addr, service: &str, host: &str, port: &str) -> Running {
        let mut command = Command::new(RESPONDER);
        command.args(["--interface", &interface.to_string()]);
        command.args(["--instance", "booth", "--service", service]);
        command.args(["--host", host, "--port", port, "--seconds", "20"]);
        let mut child = command.stdout(Stdio::piped()).spawn().unwrap();
        let lines = BufReader::new(child.stdout.take().unwrap()).lines();
        Running { child, lines }
    }

    /// Reads its lines up to one that tells this of a name; whether there is one before another such word.
    fn tells(&mut self, word: &str, other: &str, name: &str) -> bool {
        let of_name = |line: &String| line.ends_with(&format!("  {name}"));
        let mut told = self.lines.by_ref().map(Result::unwrap).filter(of_name);
        let is_either = |line: &String| [word, other].contains(&line[11..19].trim_end());
        told.find(is_either).is_some_and(|line| line.contains(word))
    }
}

fn service(test: &str) -> String {
    format!("_{test}{}._udp", std::process::id())
}

/// Sends a query for a service's PTR, and gives where the first answer was sent to, its ID and after how long it came.
fn ask(link: &mut Link, service: &str, wants: Wants) -> Option<(IpAddr, [u8; 2], Duration)> {
    let label = service.split('.').next().unwrap();
    let name = name::from_labels(&[label.as_bytes(), b"_udp", b"local"]);
    let question = Question {
        name: name.clone(),
        rtype: rtype::PTR,
    };
    let (mut query, _) = compose(&[question], wants, &[]);
    query[..2].copy_from_slice(&ID);
    // what came before is no answer
    while link.receive(1).unwrap().is_some() {}
    let asked = Instant::now();
    link.send(&query).unwrap();
    while asked.elapsed() < Duration::from_millis(400) {
        let Some(packet) = link.receive(20).unwrap() else {
            continue;
        };
        let (destination, bytes) = (packet.header.destination, packet.bytes);
        // a response without a question, whose first record is owned by the service
        if bytes[2] == 0x84 && bytes[5] == 0 && bytes[12..].starts_with(&name) {
            return Some((destination, [bytes[0], bytes[1]], asked.elapsed()));
        }
    }
    None
}

#[test]
fn a_question_that_wants_unicast_is_answered_at_once_to_the_asker_alone() {
    let service = service("unicast");
    let host = format!("unicast-{}", std::process::id());
    let mut responder = Running::begin(own(1), &service, &host, "4000");
    assert!(responder.tells("held", "lost", &format!("booth.{service}.local")));
    let mut link = Link::open(own(2), Hears::OwnAddress).unwrap();
    // within a second of the announcement: by multicast there is no answer yet
    assert_eq!(ask(&mut link, &service, Wants::Multicast), None);
    let (destination, id, _) = ask(&mut link, &service, Wants::UnicastToo).expect("an answer");
    assert_eq!((destination, id), (own(2).into(), ID));
    std::thread::sleep(Duration::from_millis(2200));
    let (destination, id, after) = ask(&mut link, &service, Wants::Multicast).expect("an answer");
    assert_eq!((destination, id), (GROUP.into(), [0, 0]));
    assert!(after >= Duration::from_millis(19), "{after:?}");
}

#[test]
fn a_name_is_defended_by_unicast() {
    let service = service("defended");
    let name = format!("booth.{service}.local");
    let host = |which| format!("defended-{which}-{}", std::process::id());
    let mut first = Running::begin(own(3), &service, &host("one"), "4000");
    assert!(first.tells("held", "lost", &name));
    // its announcements are over, so that the second hears of it by what answers its probes, which is sent to it alone
    std::thread::sleep(Duration::from_millis(1500));
    let mut second = Running::begin(own(4), &service, &host("other"), "4001");
    assert!(second.tells("lost", "held", &name));
}
