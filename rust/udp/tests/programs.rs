//! The two programs on the loopback interface. Names carry the process id, and each responder has an address of its own, so that runs beside each other do not
//! meet.

use std::collections::BTreeSet;
use std::process::{Child, Command, Output, Stdio};

const RESPONDER: &str = env!("CARGO_BIN_EXE_responder");
const BROWSER: &str = env!("CARGO_BIN_EXE_browser");

/// A service that only this test has.
fn service(test: &str) -> String {
    format!("_{test}{}._tcp", std::process::id())
}

/// A responder at an address of the loopback interface that the port tells apart.
fn responder(service: &str, host: &str, port: u16, seconds: u64) -> Child {
    let mut command = responder_command(service, host, port, seconds);
    command.stdout(Stdio::piped()).spawn().unwrap()
}

fn responder_of(instance: &str, service: &str, host: &str, port: u16, seconds: u64) -> Child {
    let mut command = responder_command(service, host, port, seconds);
    let command = command.args(["--instance", instance]);
    command.stdout(Stdio::piped()).spawn().unwrap()
}

fn responder_command(service: &str, host: &str, port: u16, seconds: u64) -> Command {
    let [.., high, low] = std::process::id().to_be_bytes();
    let interface = format!("127.{}.{high}.{low}", 32 + port % 16);
    let (port, seconds) = (port.to_string(), seconds.to_string());
    let host = format!("{host}-{}", std::process::id());
    let mut command = Command::new(RESPONDER);
    command.args(["--interface", &interface, "--instance", "booth"]);
    command.args(["--address", "10.0.0.7", "--txt", "room=3"]);
    command.args(["--service", service, "--host", &host, "--port", &port]);
    command.args(["--seconds", &seconds]);
    command
}

/// The same, told to pick other names where one is lost.
fn renaming(service: &str, host: &str, port: u16, seconds: u64) -> Child {
    let mut command = responder_command(service, host, port, seconds);
    // another address than the others', so that their host names differ in data
    let address = format!("10.0.1.{}", port % 256);
    let command = command.args(["--rename", "--address", &address]);
    command.stdout(Stdio::piped()).spawn().unwrap()
}

fn browser(service: &str, seconds: &str) -> Output {
    let mut command = Command::new(BROWSER);
    command.args(["--interface", "127.0.0.1", "--service", service]);
    command.args(["--count", "1", "--seconds", seconds]);
    command.output().unwrap()
}

fn lines(output: &Output) -> String {
    String::from_utf8(output.stdout.clone()).unwrap()
}

#[test]
fn of_two_responders_one_holds_the_name_and_the_browser_finds_it() {
    let service = service("two");
    let first = responder(&service, "one", 4000, 5);
    let second = responder(&service, "other", 4001, 5);
    let found = browser(&service, "5");
    let name = format!("booth.{service}.local");
    let told = [first, second].map(|child| lines(&child.wait_with_output().unwrap()));
    let held = told
        .each_ref()
        .map(|lines| lines.contains(&format!("held      {name}")));
    let lost = told
        .each_ref()
        .map(|lines| lines.contains(&format!("lost      {name}")));
    // of SRV records with ports 4000 and 4001 the second is later, unless the first held the name before the second began
    assert_ne!(held[0], held[1], "{told:?}");
    assert_eq!(lost, [held[1], held[0]], "{told:?}");
    assert_eq!(found.status.code(), Some(0));
    for line in [
        "found     booth",
        if held[0] {
            "port     4000"
        } else {
            "port     4001"
        },
        "address  10.0.0.7",
        "txt      room=3",
    ] {
        assert!(lines(&found).contains(line), "{}", lines(&found));
    }
}

#[test]
fn signals_stop_a_program_cleanly() {
    for signal in ["INT", "TERM"] {
        let child = responder(&service("stop"), "stop", 4002, 20);
        std::thread::sleep(std::time::Duration::from_millis(1000));
        let id = child.id().to_string();
        let sent = Command::new("sh")
            .args(["-c", "kill -s $0 $1", signal, &id])
            .status();
        assert!(sent.unwrap().success());
        let output = child.wait_with_output().unwrap();
        assert_eq!(output.status.code(), Some(0));
        assert!(lines(&output).ends_with("stopped\n"), "{}", lines(&output));
    }
}

#[test]
fn names_alone_and_a_full_cache() {
    let service = service("names");
    let booth = responder_of("booth", &service, "booth", 4004, 5);
    let hall = responder_of("hall", &service, "hall", 4005, 5);
    let mut command = Command::new(BROWSER);
    command.args(["--interface", "127.0.0.1", "--service", &service, "--names"]);
    command.args(["--entries", "1", "--seconds", "4"]);
    let found = lines(&command.output().unwrap());
    for child in [booth, hall] {
        child.wait_with_output().unwrap();
    }
    let count = |word: &str| found.lines().filter(|line| line.starts_with(word)).count();
    assert_eq!((count("found"), count("  ")), (1, 0), "{found}");
    assert_eq!(count("full      1 PTR records are known"), 1, "{found}");
    assert!(found.contains(" PTR records were turned away, "), "{found}");
}

#[test]
fn a_service_that_no_one_has_is_not_found() {
    let none = browser(&service("none"), "1");
    assert_eq!(none.status.code(), Some(3));
    assert!(!lines(&none).contains("found"));
}

#[test]
fn names_that_are_taken_are_picked_anew() {
    let service = service("anew");
    let ours = [4004, 4005, 4006].map(|port| renaming(&service, "anew", port, 8));
    let told = ours.map(|child| lines(&child.wait_with_output().unwrap()));
    // what each held in the end, of both kinds of names
    for kind in ["  booth", "  anew-"] {
        let last = |lines: &String| {
            let mut lines = lines.lines().rev();
            let line = lines.find(|line| line.contains(kind)).unwrap();
            assert!(line.contains(" held "), "{told:?}");
            line[21..].to_string()
        };
        let names: BTreeSet<String> = told.iter().map(last).collect();
        assert_eq!(names.len(), 3, "{told:?}");
    }
    let all = told.concat();
    for name in [
        format!("booth (2).{service}"),
        format!("anew-{}-2", std::process::id()),
    ] {
        assert!(all.contains(&format!("held      {name}.local")), "{told:?}");
    }
}

#[test]
fn help_and_errors() {
    for program in [RESPONDER, BROWSER] {
        let help = Command::new(program).arg("--help").output().unwrap();
        assert_eq!(help.status.code(), Some(0));
        assert!(lines(&help).contains("usage:"));
        let wrong = Command::new(program).arg("--dog").output().unwrap();
        assert_eq!(wrong.status.code(), Some(2));
        assert!(String::from_utf8_lossy(&wrong.stderr).contains("no option '--dog'"));
    }
    let mut refused = responder("_no--good._tcp", "no", 4003, 1);
    assert_eq!(refused.wait().unwrap().code(), Some(2));
    let words = "--instance a\nb --service _voice._tcp --host dock --port 1 --seconds 1";
    let feed = Command::new(RESPONDER)
        .args(words.split(' '))
        .output()
        .unwrap();
    assert_eq!(feed.status.code(), Some(2));
    assert!(String::from_utf8_lossy(&feed.stderr)
        .contains("without control characters such as a line feed"));
}
