//! What reading, receiving and taking into a cache cost on the messages of `bench::chains`, whose names take long to follow: the least of seven, in
//! microseconds. `receive` and `take` walk a message again after it was read, and follow each name anew; `take` compares what it expanded with each entry of
//! the record's type and lengths.

use std::time::Instant;

use bench::caches::Caches;
use bench::chains;
use bench::responders::{self, Calls};

/// The QR bit, in the third byte of a message.
const RESPONSE: u8 = 0x80;

fn least(mut call: impl FnMut()) -> f64 {
    let mut least = f64::MAX;
    for _ in 0..7 {
        let begun = Instant::now();
        call();
        least = least.min(begun.elapsed().as_secs_f64() * 1e6);
    }
    least
}

fn main() {
    println!("| bytes | message | read | receive: query | receive: response | take |");
    println!("|---|---|--:|--:|--:|--:|");
    for size in [1452, 8972] {
        for (name, query) in chains::all(size) {
            let mut response = query.clone();
            response[2] |= RESPONSE;
            let mut responder = responders::proved("booth");
            let mut caches = Caches::empty(64);
            let read = least(|| assert_eq!(bench::refusal(&query), 0));
            let asked = least(|| {
                responder.receive(1000, &query);
            });
            let told = least(|| {
                responder.receive(1000, &response);
            });
            let taken = least(|| {
                caches.proved.take(&response);
            });
            println!("| {size} | {name} | {read:.0} | {asked:.0} | {told:.0} | {taken:.0} |");
        }
    }
    println!("\n| bytes | entries alike | take |");
    println!("|---|---|--:|");
    for size in [1452, 8972] {
        for entries in [64, 512] {
            let mut response = chains::knowing(size);
            response[2] |= RESPONSE;
            let mut caches = Caches::full_of_alike(entries);
            let taken = least(|| {
                caches.proved.take(&response);
            });
            println!("| {size} | {entries} | {taken:.0} |");
        }
    }
}
