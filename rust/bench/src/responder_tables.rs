//! The table of the responders: packets received, and ticks with nothing due.

use std::hint::black_box;

use bench::responders::{on_bytes, proved, query, reference, truncated, Calls, LONG, WIDE};
use bench::{packets, rows, timing};

/// Both responders, each of which holds its names.
fn call(name: &str, instance: &str, sends: bool, call: impl Fn(&mut dyn Calls) -> usize) {
    let (mut proved, mut reference) = (proved(instance), reference(instance));
    call(&mut proved);
    call(&mut reference);
    assert_eq!(
        (call(&mut proved) > 0, call(&mut reference) > 0),
        (sends, sends),
        "{name}: what is timed is what is said"
    );
    let times = timing::least(
        || _ = black_box(call(&mut proved)),
        || _ = black_box(call(&mut reference)),
    );
    rows::row(name, times, &[]);
}

/// An idle tick beside an ordinary one that is handed the same bytes.
fn tick_on_bytes(name: &str, instance: &str) {
    let (mut proved, mut ordinary) = (proved(instance), on_bytes(instance));
    assert_eq!((proved.tick(10), ordinary.tick(10)), (0, 0));
    let times = timing::least(
        || _ = black_box(proved.tick(10)),
        || _ = black_box(ordinary.tick(10)),
    );
    rows::row(name, times, &[]);
}

pub fn responders() {
    rows::head(&[
        "a responder that holds its names, ns",
        "ratio",
        "proved",
        "ordinary",
    ]);
    let (query, truncated, full) = (query(), truncated(), packets::full());
    call(
        "receive: a query that is answered at once",
        "booth",
        true,
        |responder| responder.receive(1000, &query),
    );
    call(
        "receive: the same asked again at once, left out",
        "booth",
        false,
        |responder| responder.receive(0, &query),
    );
    call(
        "receive: a response with 1,452 bytes of PTR records",
        "booth",
        false,
        |responder| responder.receive(10, &full),
    );
    call(
        "receive and tick: a query with TC is held, then answered",
        "booth",
        true,
        |responder| responder.receive(500, &truncated) + responder.tick(500),
    );
    for (name, instance) in [
        ("tick: nothing due", "booth"),
        ("tick: nothing due, a label of 63 bytes", LONG),
        ("tick: nothing due, 21 characters of three bytes", WIDE),
    ] {
        call(
            &format!("{name}; ordinary keeps values"),
            instance,
            false,
            |responder| responder.tick(10),
        );
        tick_on_bytes(
            &format!("{name}; ordinary reads and tests the same 850 bytes"),
            instance,
        );
    }
}
