//! Calls timed beside each other.

use std::hint::black_box;
use std::time::Instant;

/// Whether a reader takes a message.
pub type Reader<'a> = &'a dyn Fn(&[u8]) -> bool;

/// How many rounds there are, and how long one is, in nanoseconds: so short that many of them are not broken off by other work.
pub const ROUNDS: usize = 100;
const ROUND: f64 = 500_000.0;
const MEDIAN_ROUNDS: usize = 101;

/// The time of `repeat` calls, in nanoseconds a call.
fn time(repeat: usize, call: &mut dyn FnMut()) -> f64 {
    let start = Instant::now();
    for _ in 0..repeat {
        call();
    }
    start.elapsed().as_nanos() as f64 / repeat as f64
}

/// How often a call is made in a round, at least once.
fn repeats(call: &mut dyn FnMut()) -> usize {
    let mut repeat = 1;
    loop {
        let once = time(repeat, call);
        if once * repeat as f64 > ROUND / 10.0 {
            return ((ROUND / once) as usize).max(1);
        }
        repeat *= 4;
    }
}

/// The least times of the calls, in nanoseconds a call. Their rounds take turns, so that other work on the machine meets all alike.
pub fn least_of(calls: &mut [&mut dyn FnMut()]) -> Vec<f64> {
    let repeats: Vec<usize> = calls.iter_mut().map(|call| repeats(call)).collect();
    let mut least = vec![f64::MAX; calls.len()];
    for _ in 0..ROUNDS {
        for (i, call) in calls.iter_mut().enumerate() {
            least[i] = least[i].min(time(repeats[i], call));
        }
    }
    least
}

/// The least times of two calls.
pub fn least(mut ours: impl FnMut(), mut ordinary: impl FnMut()) -> [f64; 2] {
    let times = least_of(&mut [&mut ours, &mut ordinary]);
    [times[0], times[1]]
}

/// The least times of three calls.
pub fn least_of_three(mut a: impl FnMut(), mut b: impl FnMut(), mut c: impl FnMut()) -> [f64; 3] {
    let times = least_of(&mut [&mut a, &mut b, &mut c]);
    [times[0], times[1], times[2]]
}

/// The median times of the two, in nanoseconds a call; their rounds take turns.
pub fn medians(repeat: usize, mut a: impl FnMut(), mut b: impl FnMut()) -> [f64; 2] {
    let mut times = [Vec::new(), Vec::new()];
    for _ in 0..MEDIAN_ROUNDS {
        times[0].push(time(repeat, &mut a));
        times[1].push(time(repeat, &mut b));
    }
    times.map(|mut times| {
        times.sort_by(f64::total_cmp);
        times[times.len() / 2]
    })
}

/// Readers over all packets: the least times, in nanoseconds a packet.
pub fn over_all(packets: &[Vec<u8>], readers: &[Reader]) -> Vec<f64> {
    let mut runs: Vec<_> = readers
        .iter()
        .map(|reads| {
            move || {
                packets
                    .iter()
                    .for_each(|packet| _ = black_box(reads(black_box(packet))))
            }
        })
        .collect();
    let mut calls: Vec<&mut dyn FnMut()> = runs.iter_mut().map(|run| run as _).collect();
    let times = least_of(&mut calls);
    times
        .iter()
        .map(|time| time / packets.len() as f64)
        .collect()
}

/// The proved reader and the ordinary one over all packets: the least times, in nanoseconds a packet.
pub fn readers(packets: &[Vec<u8>]) -> [f64; 2] {
    let times = over_all(packets, &[&crate::reads, &crate::ordinary_reads]);
    [times[0], times[1]]
}
