//! A recording, played: from the states of the player's responder to the times at which names were held.

use std::fmt;

use kurgashel::{Claim, Event, Events, Played, Player};

use super::spans::{Event as Mark, Mark as At, Span, Timeline};
use crate::name::{from_labels, text};
use crate::recording::Start;
use crate::refusal;

/// What is left out of a recording whose end is torn off.
#[derive(Clone, Copy, Debug, PartialEq, Eq)]
pub struct Torn {
    offset: usize,
    left_out: usize,
}

impl fmt::Display for Torn {
    fn fmt(&self, f: &mut fmt::Formatter) -> fmt::Result {
        let Torn { offset, left_out } = self;
        write!(
            f,
            "torn at byte {offset} of the trace: {left_out} bytes are left out"
        )
    }
}

/// Adds what a recording says; what of its end was left out, if anything was.
pub fn add(
    timeline: &mut Timeline,
    device: &str,
    bytes: &[u8],
    distance: u64,
    is_restart: bool,
) -> Result<Option<Torn>, String> {
    let end = bytes.iter().position(|byte| *byte == b'\n');
    let end = end.ok_or("no recording: its first line has no end")?;
    let line = std::str::from_utf8(&bytes[..end]).ok();
    let start = line.and_then(Start::read);
    let start = start.ok_or("no recording: its first line is not how a responder was started")?;
    let player = Player::start(&start.setup(), start.now, start.draw);
    let mut replay = Replay {
        player: player.map_err(refusal::text)?,
        names: names(&start),
        held_since: [None; 2],
        device,
        distance,
        last: start.now,
    };
    replay.mark(
        timeline,
        start.now,
        if is_restart {
            Mark::Restarted
        } else {
            Mark::Started
        },
    );
    let trace = &bytes[end + 1..];
    let mut events = Events::new(trace);
    let mut torn = None;
    let mut at = 0;
    while let Some(event) = events.next() {
        match event {
            Ok(event) => replay.take(timeline, trace, at, &event),
            // the event that is cut begins at the last one's end
            Err(_) => {
                torn = Some(Torn {
                    offset: at,
                    left_out: trace.len() - at,
                });
            }
        }
        at = events.offset();
    }
    replay.close(timeline);
    Ok(torn)
}

struct Replay<'a> {
    player: Player,
    names: [String; 2],
    /// Since when each name is held, on the recording's clock.
    held_since: [Option<u64>; 2],
    device: &'a str,
    distance: u64,
    /// The last time that was recorded.
    last: u64,
}

impl Replay<'_> {
    /// Plays the event that stands at an offset.
    fn take(&mut self, timeline: &mut Timeline, trace: &[u8], at: usize, event: &Event) {
        let before = self.claims();
        let turn = self.player.play(trace, at).ok().flatten();
        self.last = self.last.max(time(event));
        let played = turn.map(|turn| turn.played);
        if matches!(played, Some(Played::Claim(line)) if !line.agrees) {
            self.mark(timeline, self.last, Mark::Contradicted);
        }
        let now = self.last;
        for (n, (was, is)) in before.into_iter().zip(self.claims()).enumerate() {
            if is == Claim::Held && was != is {
                self.held_since[n] = Some(now);
            }
            if was == Claim::Held && was != is {
                self.end(timeline, n, now, false);
            }
            if is == Claim::Lost && was != is && !matches!(event, Event::Stop { .. }) {
                let mark = self.at(now, Mark::Lost);
                timeline.row(&self.names[n]).marks.push(mark);
            }
        }
    }

    fn claims(&self) -> [Claim; 2] {
        let responder = self.player.responder();
        [responder.instance(), responder.host()]
    }

    fn at(&self, now: u64, event: Mark) -> At {
        At {
            at: now + self.distance,
            device: self.device.into(),
            event,
        }
    }

    fn mark(&self, timeline: &mut Timeline, now: u64, event: Mark) {
        for name in &self.names {
            timeline.row(name).marks.push(self.at(now, event));
        }
    }

    fn end(&mut self, timeline: &mut Timeline, n: usize, now: u64, is_open: bool) {
        if let Some(since) = self.held_since[n].take() {
            timeline.row(&self.names[n]).spans.push(Span {
                from: since + self.distance,
                to: now + self.distance,
                device: self.device.into(),
                is_open,
            });
        }
    }

    fn close(&mut self, timeline: &mut Timeline) {
        for n in 0..2 {
            self.end(timeline, n, self.last, true);
        }
    }
}

/// The instance's name and the host's.
fn names(start: &Start) -> [String; 2] {
    let instance: [&[u8]; 4] = [
        &start.instance,
        &start.service,
        &start.protocol,
        &start.domain,
    ];
    let host: [&[u8]; 2] = [&start.host, &start.domain];
    [text(&from_labels(&instance)), text(&from_labels(&host))]
}

fn time(event: &Event) -> u64 {
    match event {
        Event::Tick { now }
        | Event::Packet { now, .. }
        | Event::Stop { now }
        | Event::Port { now, .. }
        | Event::Txt { now, .. } => *now,
        Event::Claim { last, .. } => *last,
    }
}

#[cfg(test)]
mod tests {
    use kurgashel::{Recorder, Responder, Which, OUT_BYTES};

    use super::*;
    use crate::recording::start::tests::LINE;

    /// A recording of a responder that comes to hold its names, with the claims' states, and this behind it.
    fn recording(more: &[Event]) -> Vec<u8> {
        let start = Start::read(LINE).unwrap();
        let mut responder = Responder::start(&start.setup(), start.now, start.draw).unwrap();
        let mut recorder = Recorder::new();
        while let Some(now) = responder.due() {
            responder.tick(now, &mut [0; OUT_BYTES]).unwrap();
            recorder.record(&Event::Tick { now }).unwrap();
        }
        for event in more {
            recorder.record(event).unwrap();
        }
        [format!("{LINE}\n").as_bytes(), recorder.trace()].concat()
    }

    fn spans(bytes: &[u8]) -> (Vec<(u64, u64, bool)>, Option<Torn>) {
        let mut timeline = Timeline::default();
        let torn = add(&mut timeline, "one", bytes, 1000, false).unwrap();
        let row = timeline.row("booth._voice._tcp.local");
        let spans = row.spans.iter();
        (spans.map(|s| (s.from, s.to, s.is_open)).collect(), torn)
    }

    #[test]
    fn a_name_is_held_from_the_fourth_step_to_a_stop() {
        // a draw of 211 and three times 250 ms; the last step, a second announcement, a second later
        let held = 211 + 750 + 1000;
        assert_eq!(spans(&recording(&[])).0, [(held, held + 1000, true)]);
        let stopped = recording(&[Event::Stop { now: 9000 }]);
        assert_eq!(spans(&stopped), (vec![(held, 10_000, false)], None));
    }

    #[test]
    fn a_torn_end_is_said() {
        let whole = recording(&[Event::Stop { now: 9000 }]);
        let (found, torn) = spans(&whole[..whole.len() - 3]);
        assert!(found[0].2);
        assert_eq!(torn.unwrap().left_out, 6);
        assert!(torn.unwrap().to_string().contains("6 bytes are left out"));
    }

    #[test]
    fn a_state_that_is_not_the_players_is_marked() {
        let wrong = Event::Claim {
            last: 5,
            which: Which::Host,
            state: Claim::Lost,
        };
        let mut timeline = Timeline::default();
        add(&mut timeline, "one", &recording(&[wrong]), 0, true).unwrap();
        let marks: Vec<_> = timeline
            .row("dock.local")
            .marks
            .iter()
            .map(|m| m.event)
            .collect();
        assert_eq!(marks, [Mark::Restarted, Mark::Contradicted]);
    }

    #[test]
    fn what_is_no_recording() {
        for bytes in [&b""[..], b"x", b"x\n", b"\xff\n"] {
            assert!(add(&mut Timeline::default(), "one", bytes, 0, false).is_err());
        }
    }
}
