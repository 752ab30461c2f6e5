//! A plain resolver, which asks from a port of its own, and the example responder, on the loopback interface. Names carry the process id, and each responder
//! has an address of its own, so that runs beside each other do not meet.

use std::net::{Ipv4Addr, SocketAddr, UdpSocket};
use std::process::{Child, Command, Stdio};
use std::time::Duration;

use udp::link::{GROUP, PORT};
use udp::rtype;

const RESPONDER: &str = env!("CARGO_BIN_EXE_responder");
const ID: [u8; 2] = [0xbe, 0xef];

/// A responder that is ended with the test.
struct Running(Child);

impl Drop for Running {
    fn drop(&mut self) {
        let _ = self.0.kill();
        let _ = self.0.wait();
    }
}

/// An address of the loopback interface that only this test uses.
fn own(number: u8) -> Ipv4Addr {
    let [.., high, low] = std::process::id().to_be_bytes();
    Ipv4Addr::new(127, 64 + number, high, low)
}

/// A responder for a host of this label with the address 10.0.0.7.
fn responder(interface: Ipv4Addr, host: &str) -> Running {
    let mut command = Command::new(RESPONDER);
    command.args(["--interface", &interface.to_string()]);
    command.args(["--address", "10.0.0.7"]);
    command.args(["--instance", host, "--service", "_plain._udp"]);
    command.args(["--host", host, "--port", "4000", "--seconds", "20"]);
    Running(command.stdout(Stdio::null()).spawn().unwrap())
}

fn label(test: &str) -> String {
    format!("{test}-{}", std::process::id())
}

/// The question for the A record of LABEL.local.
fn question(label: &str) -> Vec<u8> {
    let mut bytes = vec![label.len() as u8];
    bytes.extend(label.as_bytes());
    bytes.extend(b"\x05local\0");
    bytes.extend(rtype::A.to_be_bytes());
    bytes.extend([0, 1]);
    bytes
}

/// What comes back to a query of this question, if anything does in a tenth of a second, and from where.
fn ask(question: &[u8], to: Ipv4Addr) -> Option<(Vec<u8>, SocketAddr)> {
    let asker = UdpSocket::bind((Ipv4Addr::LOCALHOST, 0)).unwrap();
    let wait = Some(Duration::from_millis(100));
    asker.set_read_timeout(wait).unwrap();
    let query = [&ID, &b"\x01\0\0\x01\0\0\0\0\0\0"[..], question].concat();
    asker.send_to(&query, (to, PORT)).unwrap();
    let mut reply = [0; 9000];
    let (length, source) = asker.recv_from(&mut reply).ok()?;
    Some((reply[..length].to_vec(), source))
}

/// Asks until there is a reply: the name has to be held first.
fn ask_until_answered(question: &[u8], to: Ipv4Addr) -> (Vec<u8>, SocketAddr) {
    (0..80).find_map(|_| ask(question, to)).expect("a reply")
}

/// The reply with the A record: ID and question repeated, class 1, TTL 10.
fn reply(question: &[u8], owner: &[u8]) -> Vec<u8> {
    let header = [&ID, &b"\x84\0\0\x01\0\x01\0\0\0\0"[..]].concat();
    let data = b"\0\x01\0\x01\0\0\0\x0a\0\x04\x0a\0\0\x07";
    [&header, question, owner, &data[..]].concat()
}

#[test]
fn a_plain_query_is_answered_by_unicast() {
    let host = label("plain");
    let _running = responder(own(1), &host);
    let question = question(&host);
    for to in [GROUP, own(1)] {
        let (bytes, source) = ask_until_answered(&question, to);
        assert_eq!(bytes, reply(&question, b"\xc0\x0c"));
        assert_eq!(source, (own(1), PORT).into());
    }
}

#[test]
fn the_question_comes_back_as_it_was_spelled() {
    let host = label("spelled");
    let _running = responder(own(2), &host);
    let question = question(&host.to_uppercase());
    // the host's label is written as it is held; behind it the question's "local" is pointed to
    let mut owner = vec![host.len() as u8];
    owner.extend(host.as_bytes());
    owner.extend([0xc0, 12 + 1 + host.len() as u8]);
    let (bytes, _) = ask_until_answered(&question, GROUP);
    assert_eq!(bytes, reply(&question, &owner));
}

#[test]
fn a_name_of_no_one_is_not_answered() {
    let host = label("held");
    let _running = responder(own(3), &host);
    ask_until_answered(&question(&host), GROUP);
    for _ in 0..5 {
        assert_eq!(ask(&question(&label("of-no-one")), GROUP), None);
    }
}
