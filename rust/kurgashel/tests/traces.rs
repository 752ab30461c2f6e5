//! Traces: what is recorded is read back and played; the worked example of docs/TRACE.md; refusals with their offsets; a trace whose end is lost; the stored recording
//! of the program `player`, and random ones that the reference program plays too.

use std::net::{Ipv4Addr, Ipv6Addr};

use kurgashel::{
    trace_check, Claim, Draws, Event, Events, Played, Player, Recorder, Refusal, Responder, Setup,
    TraceRefusal, Turn, Which, OUT_BYTES,
};
use reference::script::traces::plays;

/// The trace of docs/TRACE.md.
fn example() -> Vec<Event> {
    let question = b"\0\0\0\0\0\x01\0\0\0\0\0\0\x05local\0\0\x01\0\x01";
    vec![
        Event::Tick { now: 5000 },
        Event::Claim {
            last: 5000,
            which: Which::Host,
            state: Claim::Held,
        },
        Event::Packet {
            now: 5100,
            from: Ipv6Addr::UNSPECIFIED,
            port: 5353,
            draws: Draws {
                reply: 20,
                hold: 400,
            },
            packet: vec![0; 12],
        },
        Event::Packet {
            now: 5200,
            from: Ipv4Addr::new(192, 0, 2, 7).to_ipv6_mapped(),
            port: 5353,
            draws: Draws {
                reply: 20,
                hold: 450,
            },
            packet: question.to_vec(),
        },
        Event::Port {
            now: 6000,
            port: 8080,
        },
        Event::Txt {
            now: 13000,
            txt: b"\x05a=123".to_vec(),
        },
        Event::Stop { now: 20000 },
    ]
}

fn setup() -> Setup {
    Setup::new(
        "booth",
        "_voice",
        "_tcp",
        "dock",
        4000,
        b"\x06room=3",
        [10, 0, 0, 7],
        None,
    )
}

fn bytes_of(events: &[Event]) -> Vec<u8> {
    let mut recorder = Recorder::new();
    for event in events {
        recorder.record(event).expect("each value fits");
    }
    recorder.trace().to_vec()
}

fn read(trace: &[u8]) -> (Vec<Event>, Option<usize>) {
    let mut events = Vec::new();
    for event in Events::new(trace) {
        match event {
            Ok(event) => events.push(event),
            Err(refusal) => return (events, Some(refusal.offset)),
        }
    }
    (events, None)
}

#[test]
fn the_worked_example() {
    let text = include_str!("../../../docs/TRACE.md");
    let start = text
        .find("<!-- the example -->")
        .expect("the document marks it");
    let block = text[start..].split("```").nth(1).expect("in a block");
    let hex: String = block
        .lines()
        .filter_map(|line| line.split('#').next())
        .flat_map(|line| line.chars().filter(char::is_ascii_hexdigit))
        .collect();
    let bytes: Vec<u8> = (0..hex.len())
        .step_by(2)
        .map(|i| u8::from_str_radix(&hex[i..i + 2], 16).unwrap())
        .collect();
    assert_eq!(bytes, bytes_of(&example()));
    assert_eq!(read(&bytes), (example(), None));
    assert_eq!(trace_check(&bytes), Ok(()));
}

#[test]
fn every_beginning_gives_the_events_that_are_whole() {
    let trace = bytes_of(&example());
    for n in 0..trace.len() {
        let (events, fault) = read(&trace[..n]);
        assert_eq!(events[..], example()[..events.len()]);
        match fault {
            None => assert_eq!(n, bytes_of(&events).len()),
            Some(offset) => assert!(bytes_of(&events).len() <= offset && offset <= n),
        }
    }
}

#[test]
fn values_that_do_not_fit() {
    let mut recorder = Recorder::new();
    recorder.record(&Event::Tick { now: 1 }).unwrap();
    let packet = |reply, hold, length| Event::Packet {
        now: 2,
        from: Ipv6Addr::LOCALHOST,
        port: 1,
        draws: Draws { reply, hold },
        packet: vec![0; length],
    };
    let refused = |offset| Err(TraceRefusal { offset });
    assert_eq!(recorder.record(&packet(20, 65536, 0)), refused(9));
    assert_eq!(recorder.record(&packet(256, 400, 0)), refused(28));
    assert_eq!(recorder.record(&packet(20, 400, 65536)), refused(28));
    assert_eq!(recorder.trace().len(), 9);
    recorder.record(&packet(20, 400, 65535)).unwrap();
    assert_eq!(trace_check(recorder.trace()), Ok(()));
}

#[test]
fn a_recorded_run_is_played_as_it_went() {
    let setup = setup();
    let mut responder = Responder::start(&setup, 0, 120).expect("a good set-up");
    let mut recorder = Recorder::new();
    let mut out = [0; OUT_BYTES];
    while let Some(now) = responder.due() {
        responder.tick(now, &mut out).expect("time goes on");
        recorder.record(&Event::Tick { now }).unwrap();
        for (which, state) in [
            (Which::Instance, responder.instance()),
            (Which::Host, responder.host()),
        ] {
            let last = responder.last();
            recorder
                .record(&Event::Claim { last, which, state })
                .unwrap();
        }
    }
    // a refused call is recorded and passed
    assert!(responder.tick(0, &mut out).is_err());
    recorder.record(&Event::Tick { now: 0 }).unwrap();
    recorder
        .record(&Event::Claim {
            last: responder.last(),
            which: Which::Host,
            state: Claim::Held,
        })
        .unwrap();
    let mut player = Player::start(&setup, 0, 120).expect("the same set-up");
    let lines: Result<Vec<_>, _> = player.lines(recorder.trace()).collect();
    let lines = lines.expect("it is read");
    assert!(lines.len() > 8 && lines.iter().all(|line| line.agrees));
    assert_eq!(player.responder().bytes(), responder.bytes());
    let last = lines.last().expect("there is one");
    assert_eq!(
        last.to_string(),
        format!("{} host held ok", responder.last())
    );
    let other = bytes_of(&[Event::Claim {
        last: responder.last(),
        which: Which::Instance,
        state: Claim::Lost,
    }]);
    let line = player.lines(&other).next().expect("a line").unwrap();
    assert_eq!(
        line.to_string(),
        format!("{} instance lost bad", responder.last())
    );
}

#[test]
fn each_call_tells_whether_it_was_refused() {
    let trace = bytes_of(&example());
    let mut player = Player::start(&setup(), 0, 0).expect("a good set-up");
    let mut calls = Vec::new();
    let mut at = 0;
    while let Some(turn) = player.play(&trace, at).expect("it is read") {
        calls.push(turn.played);
        at = turn.next;
    }
    assert_eq!(at, trace.len());
    let Played::Claim(line) = calls.remove(1) else {
        panic!("a claim was recorded");
    };
    assert_eq!(line.to_string(), "5000 host held bad");
    // an update while the name is still to be probed for is taken, and so is one 7,000 ms later
    assert_eq!(calls, [Played::Call(Ok(())); 6]);
    let again = bytes_of(&[
        Event::Tick { now: 19999 },
        Event::Port {
            now: 20000,
            port: 1,
        },
    ]);
    let before = player.responder().bytes().to_vec();
    let refused = |refusal, next| {
        let played = Played::Call(Err(refusal));
        Ok(Some(Turn { played, next }))
    };
    assert_eq!(player.play(&again, 0), refused(Refusal::Time, 9));
    assert_eq!(player.play(&again, 9), refused(Refusal::Lost, 20));
    assert_eq!(player.play(&again, 20), Ok(None));
    assert_eq!(player.responder().bytes()[..], before);
}

#[test]
fn a_torn_trace_is_played_to_its_last_whole_event() {
    let trace = bytes_of(&example());
    let mut player = Player::start(&setup(), 0, 0).expect("a good set-up");
    let lines: Vec<_> = player.lines(&trace[..trace.len() - 1]).collect();
    let torn = Err(TraceRefusal { offset: 157 });
    assert_eq!((lines.len(), lines[1]), (2, torn));
    assert_eq!(player.responder().last(), 13000);
    let state = player.responder().bytes().to_vec();
    assert_eq!(player.play(&trace, 1), Err(TraceRefusal { offset: 1 }));
    assert_eq!(player.responder().bytes()[..], state);
}

/// What the program `player` writes of a recording whose first line is of its form: to standard output, or else to standard error.
fn play(recording: &[u8]) -> Result<String, String> {
    let end = recording.iter().position(|byte| *byte == b'\n').unwrap();
    let line = std::str::from_utf8(&recording[..end]).unwrap();
    let fields: Vec<_> = line.split(' ').collect();
    let number = |n: usize| fields[n].parse::<u64>().unwrap();
    let setup = Setup::new(
        bytes_in(fields[2]),
        bytes_in(fields[3]),
        bytes_in(fields[4]),
        bytes_in(fields[5]),
        number(7) as u16,
        &bytes_in(fields[8]),
        bytes_in(fields[9]).try_into().unwrap(),
        bytes_in(fields[10]).try_into().ok(),
    );
    let player = Player::start(
        &setup.with_domain(bytes_in(fields[6])),
        number(0),
        number(1),
    );
    let mut player = player.map_err(|refusal| format!("refused {}\n", refusal.number()))?;
    let lines = player.lines(&recording[end + 1..]);
    lines
        .map(|line| match line {
            Ok(line) => Ok(format!("{line}\n")),
            Err(refusal) => Err(format!("refused 12 {}\n", refusal.offset)),
        })
        .collect()
}

#[test]
fn the_lines_of_the_program_player() {
    let stored = play(include_bytes!("../../../crates/player/stdin"));
    let expected = include_str!("../../../crates/player/stdout");
    assert!(expected.lines().count() > 100);
    assert_eq!(stored.as_deref(), Ok(expected));
}

#[test]
fn random_recordings_are_played_as_the_reference_program_plays_them() {
    let (mut lines, mut refused) = (0, 0);
    for recording in (1..=3).flat_map(|seed| plays(seed, 20_000)) {
        let expected = reference::player::run(&recording);
        if expected == Err("bad line\n".into()) {
            continue;
        }
        let played = play(&recording);
        assert_eq!(played, expected, "{recording:x?}");
        lines += played.as_ref().map_or(0, |lines| lines.lines().count());
        refused += usize::from(played.is_err());
    }
    assert!(lines > 1000 && refused > 10, "{lines}, {refused}");
}

/// The bytes of a field in hex, none for `-`.
fn bytes_in(field: &str) -> Vec<u8> {
    let digits = field.trim_matches('-');
    (0..digits.len())
        .step_by(2)
        .map(|i| u8::from_str_radix(&digits[i..i + 2], 16).unwrap())
        .collect()
}
