//! Limits on time that hold on a busy machine too: each compares two calls of one run, whose rounds take turns, and leaves twice or thrice what is measured
//! (docs/BENCHMARKS.md). The first is the one that is asked for; the others notice where time grows faster than it should.

use std::hint::black_box;
use std::sync::{Mutex, PoisonError};

use bench::caches::Caches;
use bench::packets::{self, MOST_MESSAGE};
use bench::responders::{self, Calls};
use bench::{captured, chains, peers, timing};

/// The QR bit, in the third byte of a message.
const RESPONSE: u8 = 0x80;

/// Only one of these tests is timed at once.
static ALONE: Mutex<()> = Mutex::new(());

fn within_twice_the_ordinary_reader(packets: &[Vec<u8>]) {
    let _alone = ALONE.lock().unwrap_or_else(PoisonError::into_inner);
    let [ours, ordinary] = timing::readers(packets);
    assert!(
        ours <= 2.0 * ordinary,
        "{ours:.0} ns a packet, the ordinary reader's {ordinary:.0} ns"
    );
}

#[test]
fn the_mix() {
    within_twice_the_ordinary_reader(&packets::mix());
}

#[test]
fn messages_of_real_responders() {
    within_twice_the_ordinary_reader(&captured::all());
}

/// Messages taken apart, within twice the ordinary reader's time.
#[test]
fn messages_taken_apart() {
    let _alone = ALONE.lock().unwrap_or_else(PoisonError::into_inner);
    let mut messages = captured::all();
    messages.extend([packets::address(), packets::service(), packets::full()]);
    let times = timing::over_all(&messages, &peers::APART);
    let [ours, ordinary] = [times[0], times[1]];
    assert!(
        ours <= 2.0 * ordinary,
        "{ours:.0} ns a message, the ordinary reader's {ordinary:.0} ns"
    );
}

#[test]
fn the_worst_legal_message() {
    within_twice_the_ordinary_reader(&[packets::worst()]);
}

/// A byte of a message of 8,972 bytes of PTR records takes no longer than one of 1,452: at most thrice.
#[test]
fn reading_grows_with_the_message() {
    let _alone = ALONE.lock().unwrap_or_else(PoisonError::into_inner);
    let (short, long) = (packets::full(), packets::pointers(MOST_MESSAGE));
    let [a, b] = timing::least(
        || _ = black_box(bench::refusal(black_box(&short))),
        || _ = black_box(bench::refusal(black_box(&long))),
    );
    let growth = (b / long.len() as f64) / (a / short.len() as f64);
    assert!(growth <= 3.0, "{growth:.1} times as long for a byte");
}

/// With eight times the entries, taking an announcement takes eight times as long: at most 24 times.
#[test]
fn taking_grows_with_the_table() {
    let _alone = ALONE.lock().unwrap_or_else(PoisonError::into_inner);
    let message = packets::address();
    let (mut few, mut many) = (Caches::among(64, &message), Caches::among(512, &message));
    let [a, b] = timing::least(
        || _ = black_box(few.proved.take(&message)),
        || _ = black_box(many.proved.take(&message)),
    );
    assert!(b <= 24.0 * a, "{a:.0} ns among 64, {b:.0} ns among 512");
}

/// A record's names are followed once and not for each entry, however long the way to them: with eight times the entries of its type and lengths, taking records
/// behind chains takes at most four times as long.
#[test]
fn chains_are_not_followed_for_each_entry() {
    let _alone = ALONE.lock().unwrap_or_else(PoisonError::into_inner);
    let mut response = chains::knowing(MOST_MESSAGE);
    response[2] |= RESPONSE;
    let (mut few, mut many) = (Caches::full_of_alike(64), Caches::full_of_alike(512));
    let [a, b] = timing::least(
        || _ = black_box(few.proved.take(&response)),
        || _ = black_box(many.proved.take(&response)),
    );
    assert!(b <= 4.0 * a, "{a:.0} ns among 64, {b:.0} ns among 512");
}

/// Where the chains of a long message end is noted before it is walked: receiving one takes at most 200 times as long as reading it. Rdata under an own name is
/// compared without notes, and left out here.
#[test]
fn chains_are_noted_for_a_responder() {
    let _alone = ALONE.lock().unwrap_or_else(PoisonError::into_inner);
    for (name, query) in chains::all(MOST_MESSAGE) {
        if name.ends_with("under an own name") {
            continue;
        }
        let mut responder = responders::proved("booth");
        let [read, receive] = timing::least(
            || _ = black_box(bench::refusal(black_box(&query))),
            || _ = black_box(responder.receive(1000, black_box(&query))),
        );
        assert!(
            receive <= 200.0 * read,
            "{name}: {read:.0} ns to read, {receive:.0} ns to receive"
        );
    }
}
