//! An ordinary tick on a state that is handed in as 850 bytes, as the proved one's is: it reads what changes from the bytes, makes the tests of refusals 1, 3
//! and 7 on them, the set-up's rules in place, and writes what changes back. Only where a step is due is the set-up copied, for `reference::responder`.

use reference::refusal::Refusal;
use reference::responder::holds::{Address, Hold, MOST_HOLDS};
use reference::responder::{Claim, ProbesSent, Responder, Sent, LEAST_OUT};
use reference::setup::{Setup, KINDS};
use reference::{txt, MOST_TIME};

pub const STATE_BYTES: usize = 850;
const SETUP_BYTES: usize = 579;
const MOST_KEPT_TIME: u64 = MOST_TIME + 2000;
const MOST_START_DRAW: u64 = 250;

/// A case byte and a number.
const CASE: usize = 9;
const HOST_CLAIM: usize = CASE;
const MULTICASTS: usize = 2 * CASE;
const REPLY: usize = MULTICASTS + KINDS * CASE;
const UPDATED: usize = REPLY + CASE;
const HOLDS: usize = UPDATED + CASE;
/// A held query: the address that it came from, when it is due, and of each record whether it is asked for and whether it is known.
const HOLD: usize = ADDRESS + CASE + 2 * KINDS;
const ADDRESS: usize = 16;
const DRAW: usize = HOLDS + MOST_HOLDS * HOLD;
const LAST: usize = DRAW + 8;

/// What changes.
struct Progress {
    instance: Claim,
    host: Claim,
    multicast: [Option<u64>; KINDS],
    reply: Option<u64>,
    holds: [Place; MOST_HOLDS],
    updated: Option<u64>,
    draw: u64,
    last: u64,
}

/// The place of a held query, free where none is due.
#[derive(Clone, Copy, Default)]
struct Place {
    from: Address,
    due: Option<u64>,
    asked: [bool; KINDS],
    known: [bool; KINDS],
}

/// Ticks on the state's bytes.
pub fn tick(
    state: &mut [u8; STATE_BYTES],
    now: u64,
    out: &mut [u8],
) -> Result<Option<Sent>, Refusal> {
    let (setup, changes) = state.split_at_mut(SETUP_BYTES);
    let mut progress = Progress::read(changes);
    progress.check_time(now)?;
    if out.len() < LEAST_OUT {
        return Err(Refusal::OutBuffer);
    }
    if !is_legal(setup) || progress.draw > MOST_START_DRAW {
        return Err(Refusal::Setup);
    }
    let sent = if progress.is_due(now) {
        progress.step(setup, now, out)?
    } else {
        progress.last = now;
        None
    };
    progress.write(changes);
    Ok(sent)
}

impl Progress {
    fn read(b: &[u8]) -> Progress {
        Progress {
            instance: claim_at(b, 0),
            host: claim_at(b, HOST_CLAIM),
            multicast: std::array::from_fn(|kind| time_at(b, MULTICASTS + kind * CASE)),
            reply: time_at(b, REPLY),
            holds: std::array::from_fn(|place| Place::read(&b[HOLDS + place * HOLD..][..HOLD])),
            updated: time_at(b, UPDATED),
            draw: number_at(b, DRAW),
            last: number_at(b, LAST),
        }
    }

    fn write(&self, b: &mut [u8]) {
        put_claim(b, 0, self.instance);
        put_claim(b, HOST_CLAIM, self.host);
        for (kind, time) in self.multicast.into_iter().enumerate() {
            put_case(b, MULTICASTS + kind * CASE, time.is_some() as u8, time);
        }
        put_case(b, REPLY, self.reply.is_some() as u8, self.reply);
        for (place, bytes) in self.holds.iter().zip(b[HOLDS..DRAW].chunks_exact_mut(HOLD)) {
            place.write(bytes);
        }
        put_case(b, UPDATED, self.updated.is_some() as u8, self.updated);
        b[DRAW..LAST].copy_from_slice(&self.draw.to_be_bytes());
        b[LAST..].copy_from_slice(&self.last.to_be_bytes());
    }

    /// Refusal 1.
    fn check_time(&self, now: u64) -> Result<(), Refusal> {
        let too_late = |time: Option<u64>| time.is_some_and(|time| time > MOST_KEPT_TIME);
        if now > MOST_TIME
            || now < self.last
            || self.last > MOST_KEPT_TIME
            || too_late(self.instance.due())
            || too_late(self.host.due())
            || too_late(self.reply)
            || too_late(self.updated)
            || self.multicast.into_iter().any(too_late)
            || self.holds.iter().any(|place| too_late(place.due))
        {
            return Err(Refusal::Time);
        }
        Ok(())
    }

    fn is_due(&self, now: u64) -> bool {
        let due = |time: Option<u64>| time.is_some_and(|time| time <= now);
        due(self.instance.due())
            || due(self.host.due())
            || due(self.reply)
            || self.holds.iter().any(|place| due(place.due))
    }

    /// Takes the steps that are due.
    fn step(&mut self, setup: &[u8], now: u64, out: &mut [u8]) -> Result<Option<Sent>, Refusal> {
        let mut responder = Responder {
            setup: owned(setup),
            start_draw: self.draw,
            last: self.last,
            instance: self.instance,
            host: self.host,
            reply: self.reply,
            multicast: self.multicast,
            holds: self.holds.iter().filter_map(Place::hold).collect(),
            updated: self.updated,
        };
        let held = responder.holds.len();
        let sent = responder.tick(now, out)?;
        self.free(held - responder.holds.len(), now);
        self.last = responder.last;
        (self.instance, self.host) = (responder.instance, responder.host);
        (self.reply, self.multicast) = (responder.reply, responder.multicast);
        Ok(sent)
    }

    /// Frees so many places: of those that are due, the first.
    fn free(&mut self, count: usize, now: u64) {
        let due = |place: &&mut Place| place.due.is_some_and(|due| due <= now);
        for place in self.holds.iter_mut().filter(due).take(count) {
            *place = Place::default();
        }
    }
}

impl Place {
    fn read(b: &[u8]) -> Place {
        Place {
            from: b[..ADDRESS].try_into().expect("sixteen bytes"),
            due: time_at(b, ADDRESS),
            asked: flags_at(b, ADDRESS + CASE),
            known: flags_at(b, ADDRESS + CASE + KINDS),
        }
    }

    fn write(&self, b: &mut [u8]) {
        b[..ADDRESS].copy_from_slice(&self.from);
        put_case(b, ADDRESS, self.due.is_some() as u8, self.due);
        put_flags(b, ADDRESS + CASE, self.asked);
        put_flags(b, ADDRESS + CASE + KINDS, self.known);
    }

    /// The query that is held there, if one is.
    fn hold(&self) -> Option<Hold> {
        let &Place {
            from, asked, known, ..
        } = self;
        self.due.map(|due| Hold {
            from,
            due,
            asked,
            known,
        })
    }
}

fn flags_at(b: &[u8], at: usize) -> [bool; KINDS] {
    std::array::from_fn(|kind| b[at + kind] % 2 == 1)
}

fn put_flags(b: &mut [u8], at: usize, flags: [bool; KINDS]) {
    b[at..at + KINDS].copy_from_slice(&flags.map(u8::from));
}

fn number_at(b: &[u8], at: usize) -> u64 {
    u64::from_be_bytes(b[at..at + 8].try_into().expect("eight bytes"))
}

fn time_at(b: &[u8], at: usize) -> Option<u64> {
    (b[at] % 2 == 1).then(|| number_at(b, at + 1))
}

fn claim_at(b: &[u8], at: usize) -> Claim {
    let due = number_at(b, at + 1);
    let probing = |sent| Claim::Probing { sent, due };
    match b[at] {
        0 => Claim::Waiting { due },
        1 => probing(ProbesSent::One),
        2 => probing(ProbesSent::Two),
        3 => probing(ProbesSent::Three),
        4 => Claim::Deferred { due },
        5 => Claim::Held {
            second_step: Some(due),
        },
        6 => Claim::Held { second_step: None },
        _ => Claim::Lost,
    }
}

fn put_case(b: &mut [u8], at: usize, case: u8, time: Option<u64>) {
    b[at] = case;
    b[at + 1..at + CASE].copy_from_slice(&time.unwrap_or(0).to_be_bytes());
}

fn put_claim(b: &mut [u8], at: usize, claim: Claim) {
    let case = match claim {
        Claim::Waiting { .. } => 0,
        Claim::Probing {
            sent: ProbesSent::One,
            ..
        } => 1,
        Claim::Probing {
            sent: ProbesSent::Two,
            ..
        } => 2,
        Claim::Probing {
            sent: ProbesSent::Three,
            ..
        } => 3,
        Claim::Deferred { .. } => 4,
        Claim::Held {
            second_step: Some(_),
        } => 5,
        Claim::Held { second_step: None } => 6,
        Claim::Lost => 7,
    };
    put_case(b, at, case, claim.due());
}

/// The bytes of a field of so many, of which a length byte behind them says how many count.
fn label(setup: &[u8], at: usize, room: usize) -> Option<&[u8]> {
    setup[at..at + room].get(..usize::from(setup[at + room]))
}

fn strings(setup: &[u8]) -> Option<&[u8]> {
    setup[156..556].get(..usize::from(u16::from_be_bytes([setup[556], setup[557]])))
}

/// The rules of a set-up, on its bytes.
fn is_legal(setup: &[u8]) -> bool {
    let shown = |label: &[u8]| {
        !label.is_empty()
            && !label.iter().any(u8::is_ascii_control)
            && std::str::from_utf8(label).is_ok()
    };
    label(setup, 0, 63).is_some_and(shown)
        && label(setup, 64, 16).is_some_and(is_service)
        && (&setup[81..85] == b"_tcp" || &setup[81..85] == b"_udp")
        && label(setup, 85, 63).is_some_and(|label| !label.is_empty())
        && &setup[149..154] == b"local"
        && strings(setup).is_some_and(|strings| !strings.is_empty() && txt::is_well_formed(strings))
}

fn is_service(label: &[u8]) -> bool {
    let Some((b'_', service)) = label.split_first() else {
        return false;
    };
    let hyphens_apart = !service.starts_with(b"-")
        && !service.ends_with(b"-")
        && !service.windows(2).any(|pair| pair == b"--");
    hyphens_apart
        && service
            .iter()
            .all(|byte| byte.is_ascii_alphanumeric() || *byte == b'-')
        && service.iter().any(u8::is_ascii_alphabetic)
}

/// The set-up as values, of bytes that keep the rules.
fn owned(setup: &[u8]) -> Setup {
    let of = |bytes: Option<&[u8]>| bytes.expect("a good set-up").to_vec();
    Setup {
        instance: of(label(setup, 0, 63)),
        service: of(label(setup, 64, 16)),
        protocol: setup[81..85].to_vec(),
        host: of(label(setup, 85, 63)),
        domain: setup[149..154].to_vec(),
        port: u16::from_be_bytes([setup[154], setup[155]]),
        txt: of(strings(setup)),
        a: setup[558..562].try_into().expect("four bytes"),
        aaaa: (setup[562] % 2 == 1).then(|| setup[563..579].try_into().expect("sixteen bytes")),
    }
}
