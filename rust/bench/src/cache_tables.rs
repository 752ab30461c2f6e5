//! Tables of the caches: taking a message, and looking up.

use std::hint::black_box;

use bench::caches::Caches;
use bench::lookups::Lookups;
use bench::{packets, rows, timing};

/// The columns: the ratios to the ordinary cache and to that on a table and a store, and the times.
fn head(what: &str) -> [&str; 6] {
    [
        what,
        "ratio",
        "ratio, same table",
        "proved",
        "ordinary",
        "ordinary, same table",
    ]
}

/// Taking a message into a table whose entries are all live, the message's own records last: they are found and refreshed.
pub fn takes() {
    rows::head(&head("taking into a cache, ns"));
    for entries in [64, 512] {
        for (name, message) in [
            ("38 bytes, one A", packets::address()),
            ("a service, 4 records", packets::service()),
            ("1,452 bytes of PTR", packets::full()),
        ] {
            let mut caches = Caches::among(entries, &message);
            let times = timing::least_of_three(
                || _ = black_box(caches.proved.take(black_box(&message))),
                || _ = black_box(caches.ordinary.take(black_box(&message))),
                || _ = black_box(caches.table.take(black_box(&message))),
            );
            rows::row_of_three(&format!("{name}, among {entries}"), times);
        }
    }
}

pub fn lookups() {
    rows::head(&head("looking up a name of 200 bytes, ns"));
    for entries in [64, 512] {
        let among = Lookups::among(entries);
        for (name, lookup) in [
            ("found in the first slot", &among.first),
            ("found in the last slot", &among.last),
            ("no entry has the type", &among.other_type),
            ("no entry has type or length", &among.other_length_and_type),
            ("all differ in a middle letter", &among.other_letter),
        ] {
            assert_eq!(among.slot(lookup), among.ordinary_slot(lookup));
            assert_eq!(among.slot(lookup), among.table_slot(lookup));
            let times = among.beside_ordinary(lookup);
            rows::row_of_three(&format!("{name}, among {entries}"), times);
        }
    }
}
