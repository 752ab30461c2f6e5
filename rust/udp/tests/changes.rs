//! Changed data by lines on standard input, and the goodbye of a responder that is asked to stop, heard on the loopback interface. Names and the address carry
//! the process id, so that runs beside each other do not meet.

use std::io::{BufRead, BufReader, Write};
use std::net::Ipv4Addr;
use std::process::{Child, ChildStdout, Command, Stdio};
use std::time::{Duration, Instant};

use kurgashel::{Message, Section};
use udp::link::{Hears, Link};
use udp::rtype;

const RESPONDER: &str = env!("CARGO_BIN_EXE_responder");

type Lines = std::io::Lines<BufReader<ChildStdout>>;

/// A responder that takes lines, at an address of its own.
fn responder(service: &str, host: &str) -> (Child, Lines) {
    let [.., high, low] = std::process::id().to_be_bytes();
    let mut command = Command::new(RESPONDER);
    command.args(["--interface", &format!("127.200.{high}.{low}")]);
    command.args(["--instance", "booth", "--service", service]);
    command.args(["--host", host, "--port", "4000", "--txt", "room=3"]);
    command.args(["--seconds", "30", "--control"]);
    let command = command.stdin(Stdio::piped()).stdout(Stdio::piped());
    let mut child = command.spawn().unwrap();
    let lines = BufReader::new(child.stdout.take().unwrap()).lines();
    (child, lines)
}

/// Reads lines up to one with these words.
fn read_to(lines: &mut Lines, words: &str) -> String {
    let mut found = lines.map(Result::unwrap);
    found.find(|line| line.contains(words)).expect(words)
}

/// A response that has a record whose owner begins with a label: its records' types and TTLs.
fn heard(link: &mut Link, label: &str) -> Vec<(u16, u32)> {
    let label = [&[label.len() as u8], label.as_bytes()].concat();
    let begun = Instant::now();
    while begun.elapsed() < Duration::from_secs(5) {
        let Some(packet) = link.receive(50).unwrap() else {
            continue;
        };
        let Ok(message) = Message::read(packet.bytes) else {
            continue;
        };
        let records: Vec<_> = message.records(Section::Answer).collect();
        let is_ours = |owner: &[u8]| owner.windows(label.len()).any(|part| part == label);
        if message.flags() & 0x8000 != 0
            && records
                .iter()
                .any(|record| is_ours(record.owner.as_bytes()))
        {
            let told = records.iter().map(|record| (record.rtype, record.ttl));
            return told.collect();
        }
    }
    Vec::new()
}

#[test]
fn a_changed_txt_is_announced_and_a_stop_says_goodbye() {
    let label = format!("_changes{}", std::process::id());
    let host = format!("changes-{}", std::process::id());
    let (mut child, mut lines) = responder(&format!("{label}._udp"), &host);
    read_to(&mut lines, " held      booth");
    read_to(&mut lines, &format!(" held      {host}"));
    // its second announcements come a second after the first
    std::thread::sleep(Duration::from_millis(1300));
    let mut link = Link::open(Ipv4Addr::LOCALHOST, Hears::GroupAlone).unwrap();
    let mut input = child.stdin.take().unwrap();
    writeln!(input, "txt room=4 PassReq").unwrap();
    assert_eq!(heard(&mut link, &label), [(rtype::TXT, 4500)]);
    read_to(&mut lines, " updated   txt room=4 PassReq");
    for (line, told) in [
        ("port 4001", " unchanged port 4001: refusal 11"),
        ("port x", "a port can't be 'x'"),
        ("stop", "'stop' is neither"),
    ] {
        writeln!(input, "{line}").unwrap();
        read_to(&mut lines, told);
    }
    // an input that ends does not end the responder
    drop(input);
    std::thread::sleep(Duration::from_millis(1300));
    while link.receive(1).unwrap().is_some() {}
    let id = child.id().to_string();
    let sent = Command::new("sh").args(["-c", "kill $0", &id]).status();
    assert!(sent.unwrap().success());
    let goodbye = [rtype::PTR, rtype::SRV, rtype::TXT, rtype::A].map(|rtype| (rtype, 0));
    assert_eq!(heard(&mut link, &label), goodbye);
    read_to(&mut lines, " goodbye");
    assert_eq!(lines.next().unwrap().unwrap(), "stopped");
    assert_eq!(child.wait().unwrap().code(), Some(0));
}
