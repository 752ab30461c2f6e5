//! Traces: lists of events that are written, read, broken in every way at any
//! place; and, for players, the calls of whole lives with claim states between them.

use super::packet::txt_of;
use super::random::Random;
use super::Script;
use crate::console::trace::{event_of, words};
use crate::console::{hex, Console};
use crate::player::{play, state_number};
use crate::trace::{read, write, Event, Received};
use crate::MOST_TIME;

/// The lengths of the records, kind byte included, by kind.
const LENGTHS: [usize; 9] = [0, 9, 14, 17, 11, 19, 9, 11, 11];
/// Lines that are not of their form.
const BAD_LINES: [&str; 24] = [
    "trace",
    "trace ",
    "trace 0",
    "trace - -",
    "trace 01 0000000000000000",
    "Trace -",
    "traces -",
    "record",
    "record ",
    "record -",
    "record 9 ",
    "record 9 tick",
    "record 9 tick 0 0",
    "record 9 tick -",
    "record 9 tick 18446744073709551616",
    "record 9 claim 0 0",
    "record 9 claim 0 instance held",
    "record 99 recv 0 0a000001 5353 20 400",
    "record 99 recv 0 5353 20 -",
    "record 99 port 0",
    "record 99 txt 0 0",
    "record 99 update 0 port 80",
    "record 99 start 0",
    "record tick 0",
];

/// Lengths of packets and TXT: none, and around multiples of 16.
const SIZES: [usize; 16] = [0, 0, 1, 1, 2, 12, 15, 15, 16, 16, 17, 17, 31, 32, 33, 48];

fn time(random: &mut Random) -> u64 {
    let any = random.number();
    let edges = [
        0,
        1,
        255,
        256,
        5000,
        1 << 32,
        MOST_TIME,
        u64::MAX,
        0x0102_0304_0506_0708,
        any,
    ];
    random.pick(&edges)
}

/// Bytes for pieces; often with zeros at the end, as padding has.
fn pieced_bytes(random: &mut Random) -> Vec<u8> {
    let size = match random.below(40) {
        0 => random.pick(&[255, 256, 257, 400, 401, 1452, 4000]),
        1 => random.below(300),
        _ => random.pick(&SIZES),
    };
    let mut bytes = random.bytes(size);
    if random.chance(30) {
        let zeros = random.below(size + 1);
        bytes[size - zeros..].fill(0);
    }
    bytes
}

fn received(random: &mut Random) -> Received {
    let mut from = [0; 16];
    match random.below(4) {
        0 | 1 => (),
        2 => from[random.below(16)] = 1 + random.byte() / 2,
        _ => from.copy_from_slice(&random.bytes(16)),
    }
    let any = random.within(0..=65_535);
    Received {
        now: time(random),
        from,
        port: random.pick(&[5353, 5353, 0, 53, 0xe914, 65_535, any]),
        draw: random.pick(&[20, 120, 0, 127, 128, 255]),
        hold_draw: random.pick(&[400, 400, 400, 0x9001, 144, 0, 399, 401, 500, 65_535, any]),
        packet: pieced_bytes(random),
    }
}

/// An event that a trace can hold.
fn some_event(random: &mut Random) -> Event {
    match random.below(10) {
        0 | 1 => Event::Tick(time(random)),
        2..=4 => Event::Received(received(random)),
        5 | 6 => Event::Claim {
            last: time(random),
            claim: random.within(0..=1),
            state: random.within(0..=4),
        },
        7 => Event::Stop(time(random)),
        8 => Event::Port {
            now: time(random),
            port: random.pick(&[0, 1, 80, 255, 256, 4000, 65_535]),
        },
        _ => Event::Txt {
            now: time(random),
            txt: match random.chance(30) {
                true => txt_of(random, 20),
                false => pieced_bytes(random),
            },
        },
    }
}

fn some_events(random: &mut Random) -> Vec<Event> {
    let count = match random.below(10) {
        0 => 0,
        1..=4 => 1,
        5..=8 => 2 + random.below(4),
        _ => random.below(30),
    };
    (0..count).map(|_| some_event(random)).collect()
}

/// A number just over what a field can hold, or far over it.
fn too_great(random: &mut Random, most: u64) -> u64 {
    let next = most + 1;
    random.pick(&[next, next, 2 * next, next << 8, 1 << 32, u64::MAX])
}

/// Makes one value of an event too great for its field; some have none.
fn overfill(random: &mut Random, event: &mut Event) {
    match event {
        Event::Received(received) => match random.below(4) {
            0 => received.port = too_great(random, 65_535),
            1 => received.draw = too_great(random, 255),
            // one that looks like the draw that is left out
            2 => received.hold_draw = 65_536 * random.within(1..=9) + 400,
            _ => received.hold_draw = too_great(random, 65_535),
        },
        Event::Claim { claim, state, .. } => match random.chance(50) {
            true => {
                let great = too_great(random, 1);
                *claim = random.pick(&[2, 3, 255, 256, 257, great]);
            }
            false => {
                let great = too_great(random, 4);
                *state = random.pick(&[5, 6, 255, 256, 260, great]);
            }
        },
        Event::Port { port, .. } => *port = too_great(random, 65_535),
        _ => (),
    }
}

/// The offsets of the records of a trace that was written, its end too.
fn offsets(trace: &[u8]) -> Vec<usize> {
    let mut offsets = vec![0];
    let mut at = 0;
    while at < trace.len() {
        at += LENGTHS[usize::from(trace[at])];
        offsets.push(at);
    }
    offsets
}

/// One record of any kind, most times of the right length.
fn some_record(random: &mut Random) -> Vec<u8> {
    let kind = random.pick(&[0, 1, 2, 2, 3, 3, 4, 5, 5, 6, 7, 8, 8, 9, 255]);
    let length = LENGTHS.get(usize::from(kind)).copied().unwrap_or(9);
    let mut record = vec![0; length.max(1)];
    record[0] = kind;
    match kind {
        // with the values that are left out, or a zero address, or that draw
        5 => {
            let draw = random.pick(&[400_u16, 400, 401]);
            record[17..].copy_from_slice(&draw.to_be_bytes());
            if random.chance(50) {
                record[1 + random.below(16)] = 1;
            }
        }
        4 => {
            record[9] = random.pick(&[0, 1, 1, 2, 255]);
            record[10] = random.pick(&[0, 3, 4, 4, 5, 255]);
        }
        3 if random.chance(50) => record[16] = 1,
        2 | 8 => record[length - 1] = random.pick(&[0, 0, 0, 1, 16]),
        _ => (),
    }
    record
}

/// The trace with something broken, or at least changed.
fn damaged(random: &mut Random, mut trace: Vec<u8>) -> Vec<u8> {
    let offsets = offsets(&trace);
    let place = random.below(offsets.len());
    let at = offsets[place];
    let end = offsets.get(place + 1).copied().unwrap_or(at);
    match random.below(12) {
        // cut between two records, or in one
        0 => trace.truncate(at),
        1 => trace.truncate(random.below(trace.len() + 1)),
        2 => trace.truncate(trace.len().saturating_sub(1)),
        3 | 4 => {
            // a record more
            let record = some_record(random);
            trace.splice(at..at, record);
        }
        5 => {
            // a record fewer
            trace.drain(at..end);
        }
        6 => {
            // the same record twice
            let record = trace[at..end].to_vec();
            trace.splice(at..at, record);
        }
        7 if at < end => {
            // another kind, in the length of the first
            trace[at] = random.pick(&[0, 1, 2, 3, 4, 5, 6, 7, 8, 9, 10, 0x83, 255]);
        }
        8 if at < end => {
            // the end of a record: a length, padding, a state, a hold draw
            trace[end - 1] = match random.below(3) {
                0 => trace[end - 1].wrapping_add(1),
                1 => trace[end - 1].wrapping_sub(1),
                _ => random.pick(&[0, 1, 4, 5, 15, 16, 17, 0x90]),
            };
        }
        9 if at < end => {
            let at = at + random.below(end - at);
            trace[at] ^= 1 << random.below(8);
        }
        10 if at < end => {
            // padding, or data: the last bytes of a record
            let back = 1 + random.below((end - at - 1).min(16));
            trace[end - back] ^= random.pick(&[1, 0x80, 0xff]);
        }
        _ => {
            let record = some_record(random);
            trace.extend(record);
        }
    }
    trace
}

impl Script {
    /// Traces that are read and event lists that are written.
    pub(super) fn traces(&mut self) {
        for _ in 0..self.random.below(60) {
            match self.random.below(40) {
                0 => {
                    let line = self.random.pick(&BAD_LINES);
                    self.say(line);
                }
                1..=15 => self.record_events(),
                _ => self.read_trace(),
            }
        }
    }

    fn record_events(&mut self) {
        let mut events = some_events(&mut self.random);
        let trace = write(&events, u64::MAX).expect("values that fit");
        for _ in 0..self.random.pick(&[0, 0, 0, 1, 1, 2, 3]) {
            if let Some(last) = events.len().checked_sub(1) {
                let any = self.random.below(last + 1);
                let at = self.random.pick(&[any, last]);
                overfill(&mut self.random, &mut events[at]);
            }
        }
        let length = trace.len() as u64;
        let short = length.saturating_sub(1);
        let room = self.random.pick(&[
            length,
            length,
            length + 1,
            short,
            short,
            0,
            40_000,
            u64::MAX,
        ]);
        let mut line = format!("record {room}");
        for event in &events {
            line += &format!(" {}", words(event));
        }
        if self.random.chance(5) {
            // an address of 4 bytes, and some that are none
            let from = self
                .random
                .pick(&["0a000001", "00000000", "-", "0a0000", "0a00000100"]);
            line += &format!(" recv 0 {from} 5353 20 400 -");
        }
        if self.random.chance(4) {
            let line = self.spoil(line.into_bytes());
            self.say(line);
            return;
        }
        self.say(line);
    }

    fn read_trace(&mut self) {
        let events = some_events(&mut self.random);
        let mut trace = write(&events, u64::MAX).expect("values that fit");
        match self.random.below(20) {
            0..=5 => (),
            6..=16 => trace = damaged(&mut self.random, trace),
            17 | 18 => {
                for _ in 0..2 {
                    let events = some_events(&mut self.random);
                    let other = write(&events, u64::MAX).expect("values that fit");
                    let other = damaged(&mut self.random, other);
                    trace.extend(other);
                }
            }
            _ => {
                trace.clear();
                for _ in 0..self.random.below(9) {
                    let record = some_record(&mut self.random);
                    trace.extend(record);
                }
            }
        }
        let line = format!("trace {}", self.hex(&trace));
        self.say(line);
    }
}

/// The event of a call's line, without the lengths of its buffers.
fn event_of_call(line: &[u8]) -> Option<Event> {
    let line = String::from_utf8_lossy(line);
    let words: Vec<&str> = line.split(' ').collect();
    let words = match words[..] {
        ["tick", now, ..] => format!("tick {now}"),
        ["stop", now, ..] => format!("stop {now}"),
        ["update", now, what @ ("port" | "txt"), new, ..] => format!("{what} {now} {new}"),
        ["recv", ..] if words.len() > 6 => words[..7].join(" "),
        _ => return None,
    };
    let event = event_of(words.as_bytes())?;
    write(std::slice::from_ref(&event), u64::MAX)
        .ok()
        .map(|_| event)
}

/// A claim's state as it is now, or nearly.
fn claim_event(random: &mut Random, console: &Console) -> Event {
    let responder = &console.responder;
    let claim = random.within(0..=1);
    let now = [responder.instance, responder.host][claim as usize];
    let (mut last, mut state) = (responder.last, state_number(now));
    match random.below(10) {
        0 => state = random.within(0..=4),
        1 => last = random.pick(&[last.wrapping_add(1), last.saturating_sub(1), 0]),
        _ => (),
    }
    Event::Claim { last, claim, state }
}

/// Inputs for players, from the lives in a script of `count` lines: the fields of
/// each start, and the calls that follow it as a trace.
pub fn plays(seed: u64, count: usize) -> Vec<Vec<u8>> {
    let mut random = Random::new(!seed);
    let mut inputs = vec![b"".to_vec(), b"\n".to_vec()];
    let mut console = Console::default();
    let mut fields: Vec<u8> = b"0 0".to_vec();
    let mut events = Vec::new();
    let end = vec![b"start 0".to_vec()];
    for line in super::script(seed, count).into_iter().chain(end) {
        if let Some(rest) = line.strip_prefix(b"start ") {
            // of many starts in a row, a few
            if !events.is_empty() || random.chance(20) {
                inputs.push(input(&mut random, &fields, &events));
            }
            events.clear();
            fields = rest.to_vec();
            // of a refused start, the events are those of one that is none
            console = Console::default();
            console.start_with(rest);
        }
        let Some(event) = event_of_call(&line) else {
            continue;
        };
        play(&mut console.responder, std::slice::from_ref(&event));
        events.push(event);
        for _ in 0..random.below(3) {
            events.push(claim_event(&mut random, &console));
        }
    }
    inputs
}

/// About how many bytes a trace of a fuzzer's line has.
const SOME_BYTES: usize = 400;

/// The same as lines for a fuzzer: `start` and its fields, then `play` and a trace, as
/// often as it takes. A broken trace is one line.
pub fn play_lines(seed: u64, count: usize) -> Vec<Vec<u8>> {
    let mut lines = Vec::new();
    for input in plays(seed, count) {
        let mut halves = input.splitn(2, |byte| *byte == b'\n');
        let (fields, trace) = (halves.next().unwrap_or(b""), halves.next().unwrap_or(b""));
        lines.push([b"start ", fields].concat());
        let pieces = read(trace).map_or(vec![trace.to_vec()], |events| pieces_of(&events));
        lines.extend(
            pieces
                .iter()
                .map(|piece| format!("play {}", hex(piece)).into_bytes()),
        );
    }
    lines
}

/// Events as several traces, each ended by the event that makes it long enough.
fn pieces_of(events: &[Event]) -> Vec<Vec<u8>> {
    let mut pieces = vec![Vec::new()];
    for event in events {
        let event = write(std::slice::from_ref(event), u64::MAX).expect("values that fit");
        let last = pieces.last_mut().expect("a piece");
        last.extend(event);
        if last.len() >= SOME_BYTES {
            pieces.push(Vec::new());
        }
    }
    pieces
}

/// The fields of a start and a trace, now and then broken.
fn input(random: &mut Random, fields: &[u8], events: &[Event]) -> Vec<u8> {
    let mut trace = write(events, u64::MAX).expect("values that fit");
    let mut fields = fields.to_vec();
    match random.below(40) {
        0..=7 => trace = damaged(random, trace),
        8 => {
            let at = random.below(fields.len());
            fields[at] = random.pick(b" 0-x\r\n");
        }
        9 => fields.push(b' '),
        10 => fields = [b"start ", &fields[..]].concat(),
        11 => return fields,
        _ => (),
    }
    [&fields[..], b"\n", &trace].concat()
}

#[cfg(test)]
mod tests {
    use super::*;
    use crate::player::run;

    #[test]
    fn what_is_written_is_read() {
        let mut random = Random::new(5);
        for _ in 0..5000 {
            let events = some_events(&mut random);
            let trace = write(&events, u64::MAX).unwrap();
            assert_eq!(read(&trace), Ok(events));
            let broken = damaged(&mut random, trace);
            // a trace that can be read is the one of its events
            if let Ok(events) = read(&broken) {
                assert_eq!(write(&events, u64::MAX), Ok(broken));
            }
        }
    }

    #[test]
    fn pieces_are_the_whole() {
        let mut random = Random::new(7);
        for _ in 0..500 {
            let events = some_events(&mut random);
            let pieces = pieces_of(&events);
            assert_eq!(write(&events, u64::MAX), Ok(pieces.concat()));
            let all = pieces.iter().flat_map(|piece| read(piece).unwrap());
            assert_eq!(all.collect::<Vec<_>>(), events);
        }
    }

    #[test]
    fn plays_are_right_most_times() {
        let (mut right, mut wrong, mut refused) = (0, 0, 0);
        for input in plays(1, 6000) {
            match run(&input) {
                Ok(lines) => {
                    right += lines.lines().filter(|line| line.ends_with(" ok")).count();
                    wrong += lines.lines().filter(|line| line.ends_with(" bad")).count();
                }
                Err(_) => refused += 1,
            }
        }
        assert!(right > 2 * wrong && wrong > 50 && refused > 10);
    }
}
