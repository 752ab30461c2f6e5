//! What is timed beside the proved library answers as it does: the ordinary caches, and the ordinary tick on a state's bytes. Both are also tried on damage.

use bench::captured;
use bench::ordinary_cache::OrdinaryCache;
use bench::ordinary_table::{Entry, OrdinaryTable};
use bench::packets::{self, Random};
use bench::state_bytes::{self, STATE_BYTES};
use kurgashel::{Arrival, Cache, Draws, OutBuffers, Responder, Setup};
use kurgashel::{MOST_ENTRIES, OUT_BYTES, PORT};
use reference::cache::{Cache as ReferenceCache, SLOT};

/// A response with an NSEC of dock.local whose bitmap of six bytes ends in a byte: with its low bit it names NSEC itself, and is none of the restricted kind.
fn nsec(last: u8) -> Vec<u8> {
    let mut message = packets::address();
    let rdata = message.len() - 4;
    message[rdata - 10..rdata - 8].copy_from_slice(&[0, 47]);
    message[rdata - 2..rdata].copy_from_slice(&[0, 10]);
    message.truncate(rdata);
    message.extend([0xC0, 12, 0, 6, 0x40, 0, 0, 0, 0, last]);
    message
}

/// The same record with TTL 0: its TTL stands ten bytes before the end.
fn goodbye(mut address: Vec<u8>) -> Vec<u8> {
    let ttl = address.len() - 10;
    address[ttl..ttl + 4].fill(0);
    address
}

/// Messages that caches take: those that are timed, records that share a name and are flushed, of many hosts, goodbyes, NSEC, and of real responders.
fn messages() -> Vec<Vec<u8>> {
    let mut messages = vec![packets::service(), packets::full()];
    for number in 0..12 {
        messages.push(packets::address());
        messages.push(packets::address_of(number));
        messages.push(goodbye(packets::address_of(number)));
        messages.push(nsec(number as u8));
        messages.push(packets::host_address(number));
        messages.push(goodbye(packets::host_address(number)));
    }
    messages.extend(captured::all());
    messages
}

/// A table's entries, by lookups of each name and type from each slot on.
fn same_entries(
    now: u64,
    proved: &Cache,
    ordinary: &OrdinaryCache,
    table: &OrdinaryTable,
    reference: &ReferenceCache,
) {
    for (slot, entry) in reference.entries().iter().enumerate() {
        if entry.owner.is_empty() {
            continue;
        }
        let name = entry.owner.to_ascii_uppercase();
        let (rtype, from) = (entry.rtype, slot / 2);
        let theirs = reference
            .look(now, &name, rtype.into(), from as u64)
            .map(|found| {
                found.map(|f| (f.slot, &f.entry.rdata[..], f.entry.received, f.entry.expiry))
            });
        let slot = table.look_up(now, &name, rtype, from);
        assert_eq!(slot, theirs.map(|found| found.map(|f| f.0)));
        let ours = proved.look_up(now, &name, rtype, from);
        let ordinary = ordinary.look_up(now, &name, rtype, from);
        if let Ok(Some(found)) = ours {
            let (entry, bytes) = (table.table[found.slot], &table.store[SLOT * found.slot..]);
            let (owner, rdata) = (entry.owner.into(), entry.rdata as usize);
            assert_eq!(
                (&bytes[..owner], &bytes[256..256 + rdata]),
                (found.owner, found.rdata)
            );
            let numbers = (entry.received, entry.expiry, entry.ttl);
            assert_eq!(numbers, (found.received, found.expiry, found.ttl));
        }
        if let (Ok(ours), Ok(ordinary)) = (&ours, &ordinary) {
            assert_eq!(ours.map(|f| f.ttl), ordinary.map(|f| f.ttl.into()));
        }
        let ours = ours.map(|found| found.map(|f| (f.slot, f.rdata, f.received, f.expiry)));
        let ordinary = ordinary.map(|found| found.map(|f| (f.slot, f.rdata, f.received, f.expiry)));
        assert_eq!(ordinary, theirs);
        assert_eq!(
            ours.map_err(|refusal| refusal.number()),
            theirs.map_err(|refusal| refusal.number())
        );
    }
}

#[test]
fn four_caches_take_alike() {
    let mut random = Random(6763);
    let messages = messages();
    let mut taken = 0;
    for entries in [1, 7, 64, MOST_ENTRIES] {
        let mut proved = Cache::with_entries(entries).expect("a size");
        let mut ordinary = OrdinaryCache::with_entries(entries);
        let mut table = OrdinaryTable::with_entries(entries);
        let mut reference = ReferenceCache::new(entries, SLOT * entries);
        let mut now = 1_000;
        for i in 0..1_500 {
            // where a record is flushed or not, and now and then back in time
            now += [0, 1, 500, 999, 1_000, 1_001, 40_000][random.below(7)];
            let now = if i % 40 == 0 { now - 1 } else { now };
            let port = if i % 50 == 0 { 5354 } else { PORT };
            let mut message = messages[random.below(messages.len())].clone();
            if i % 3 == 0 {
                message = packets::damaged(&message, &mut random);
            }
            let theirs = reference.put(now, port.into(), &message);
            let theirs = theirs.map(|counts| (counts.turned_away, counts.passed_over));
            let ours = ordinary
                .take(now, port, &message)
                .map(|counts| (counts.turned_away.into(), counts.passed_over.into()));
            assert_eq!(ours, theirs, "{message:02x?}");
            let ours = table
                .take(now, port, &message)
                .map(|counts| (counts.turned_away.into(), counts.passed_over.into()));
            assert_eq!(ours, theirs, "{message:02x?}");
            let counted = proved
                .take(now, port, &message)
                .map(|counts| (counts.turned_away.into(), counts.passed_over.into()));
            assert_eq!(
                counted.map_err(|refusal| refusal.number()),
                theirs.map_err(|refusal| refusal.number())
            );
            taken += theirs.is_ok() as usize;
            if i % 5 == 0 || entries < 64 {
                same_entries(now, &proved, &ordinary, &table, &reference);
            }
        }
    }
    assert!(taken > 3_000, "{taken} were taken");
}

/// A table that is refused as 1 or 8, before the message is looked at.
#[test]
fn the_same_table_is_refused() {
    let entry = |owner, rdata, received| Entry {
        owner,
        rdata,
        received,
        ..Entry::default()
    };
    let refusal = |table: Vec<Entry>, bytes: usize| {
        let mut cache = OrdinaryTable::with_entries(table.len());
        cache.table = table;
        cache.store = vec![0; bytes];
        let looked = cache.look_up(1_000, b"", 1, 0).map(|_| ());
        let taken = cache.take(1_000, PORT, b"").map(|_| ());
        (
            looked.map_err(|r| r.number()),
            taken.map_err(|r| r.number()),
        )
    };
    let blank = Entry::default();
    for (table, bytes, expected) in [
        (vec![blank; 2], 2 * SLOT, (6, 4)),
        (vec![blank; 2], SLOT, (8, 8)),
        (vec![], 0, (8, 8)),
        (vec![blank; 513], 513 * SLOT, (8, 8)),
        (vec![blank, entry(255, 768, 1_000)], 2 * SLOT, (6, 4)),
        (vec![blank, entry(256, 0, 0)], 2 * SLOT, (8, 8)),
        (vec![entry(0, 769, 0), blank], 2 * SLOT, (8, 8)),
        (vec![entry(256, 769, 0), entry(0, 0, 1_001)], SLOT, (1, 1)),
    ] {
        assert_eq!(refusal(table, bytes), (Err(expected.0), Err(expected.1)));
    }
}

/// What a tick on the proved side answers, and the state after it: a refusal's number, or the packet and whether more is due.
type Ticked = (Result<(Vec<u8>, bool), u8>, [u8; STATE_BYTES]);

fn proved_tick(state: &[u8; STATE_BYTES], now: u64) -> Ticked {
    let mut out = [0; OUT_BYTES];
    let mut responder = Responder::from_bytes(*state);
    let answer = responder.tick(now, &mut out);
    let answer = answer.map(|sent| (out[..sent.length].to_vec(), sent.more));
    (
        answer.map_err(|refusal| refusal.number()),
        *responder.bytes(),
    )
}

fn ordinary_tick(state: &[u8; STATE_BYTES], now: u64) -> Ticked {
    let (mut out, mut state) = ([0; OUT_BYTES], *state);
    let answer = state_bytes::tick(&mut state, now, &mut out);
    let answer = answer.map(|sent| {
        sent.map_or((Vec::new(), false), |sent| {
            (out[..sent.length].to_vec(), sent.more)
        })
    });
    (answer.map_err(|refusal| refusal.number()), state)
}

/// Where the places of held queries stand in a state, and of one place the flag whether it is taken, behind which its due time stands.
const HOLDS: std::ops::Range<usize> = 678..834;
const HOLD: usize = 39;
const TAKEN: usize = 16;

fn holds(state: &[u8; STATE_BYTES]) -> usize {
    let places = state[HOLDS].chunks_exact(HOLD);
    places.filter(|place| place[TAKEN] % 2 == 1).count()
}

/// The state after a query with TC for the host's name and a type, from one of six addresses.
fn after_truncated(state: &[u8; STATE_BYTES], now: u64, random: &mut Random) -> [u8; STATE_BYTES] {
    let mut packet = bench::responders::truncated();
    let types = [1, 16, 28, 255];
    packet[25] = types[random.below(types.len())];
    let mut responder = Responder::from_bytes(*state);
    let (mut to_all, mut to_sender) = ([0; OUT_BYTES], [0; OUT_BYTES]);
    let arrival = Arrival {
        now,
        from: ([10, 0, 0, random.below(6) as u8], PORT).into(),
        draws: Draws {
            reply: 20,
            hold: 400 + random.below(101) as u64,
        },
        packet: &packet,
    };
    let out = OutBuffers {
        to_all: &mut to_all,
        to_sender: &mut to_sender,
    };
    responder.receive(arrival, out).expect("accepted");
    *responder.bytes()
}

/// Takes a place for a query that asks for anything, due just before now or just after it.
fn with_a_hold(state: &mut [u8; STATE_BYTES], now: u64, random: &mut Random) {
    let at = HOLDS.start + HOLD * random.below(4);
    for byte in &mut state[at..at + HOLD] {
        *byte = random.number() as u8;
    }
    let due = (now + random.below(600) as u64).saturating_sub(300);
    state[at + TAKEN] |= 1;
    state[at + TAKEN + 1..at + TAKEN + 9].copy_from_slice(&due.to_be_bytes());
}

#[test]
fn ticks_on_bytes_are_alike() {
    let mut random = Random(841);
    let setup = Setup::new(
        "bo\u{f6}th",
        "_voice",
        "_tcp",
        "dock",
        4000,
        b"\x06room=3",
        [10, 0, 0, 7],
        Some([7; 16]),
    );
    let mut state = *Responder::start(&setup, 0, 7)
        .expect("a good set-up")
        .bytes();
    let mut answers = [0usize; 8];
    let (mut now, mut sent) = (0, 0);
    let (mut held, mut answered, mut damaged_answered) = ([0usize; 5], 0, 0);
    for _ in 0..4_000 {
        now += random.below(4) as u64;
        if random.below(60) == 0 {
            state = after_truncated(&state, now, &mut random);
        }
        let (answer, after) = proved_tick(&state, now);
        assert_eq!(
            (&answer, &after),
            (&ordinary_tick(&state, now).0, &ordinary_tick(&state, now).1)
        );
        let sends = answer.is_ok_and(|(packet, _)| !packet.is_empty());
        sent += sends as usize;
        answered += (sends && holds(&after) < holds(&state)) as usize;
        held[holds(&state)] += 1;
        state = after;
        for _ in 0..20 {
            let mut damaged = state;
            for _ in 0..=random.below(2) {
                damaged[random.below(STATE_BYTES)] = random.number() as u8;
            }
            for _ in 0..random.below(4) {
                with_a_hold(&mut damaged, now, &mut random);
            }
            let (answer, after) = proved_tick(&damaged, now);
            let ordinary = ordinary_tick(&damaged, now);
            assert_eq!(answer, ordinary.0);
            assert!(after == ordinary.1, "one state after a damaged one");
            let sends = answer.as_ref().is_ok_and(|(packet, _)| !packet.is_empty());
            damaged_answered += (sends && holds(&after) < holds(&damaged)) as usize;
            answers[usize::from(answer.err().unwrap_or(0))] += 1;
        }
    }
    assert!(sent >= 8, "{sent} packets were sent");
    assert!(
        held.iter().all(|&times| times > 50),
        "none to four held: {held:?}"
    );
    assert!(
        answered >= 5 && damaged_answered > 1000,
        "held queries were answered {answered} and {damaged_answered} times"
    );
    for number in [0, 1, 7] {
        assert!(
            answers[number] > 100,
            "answer {number} came {} times",
            answers[number]
        );
    }
}
