//! The time for a message grows with its length, whatever chains of pointers its names lead through; and long messages are read as the reference program
//! reads them.

use std::hint::black_box;

use bench::packets::{self, Random};
use bench::{chains, timing};

/// Sizes over that of a frame: such a message is read with notes.
const LONG: [usize; 4] = [1_473, 2_243, 4_486, 8_972];

#[test]
fn all_are_legal_in_a_stack_of_64_kib() {
    std::thread::Builder::new()
        .stack_size(64 * 1024)
        .spawn(|| {
            for size in [300, 512, 1_452, 1_472, 1_473, 4_486, 8_972] {
                for (name, packet) in chains::all(size) {
                    assert!(size - 18 < packet.len() && packet.len() <= size, "{name}");
                    assert_eq!(bench::refusal(&packet), 0, "{name}, {size} bytes");
                    assert_eq!(bench::reference_refusal(&packet), 0, "{name}, {size} bytes");
                }
            }
        })
        .expect("a thread")
        .join()
        .expect("an answer");
}

#[test]
fn long_messages_are_read_alike() {
    let mut random = Random(1035);
    let mut good: Vec<Vec<u8>> = LONG
        .iter()
        .flat_map(|&size| chains::all(size))
        .map(|(_, packet)| packet)
        .collect();
    good.push(packets::worst());
    good.extend(LONG.map(chains::ordinary));
    let mut refused = [0usize; 7];
    for i in 0..8_000 {
        let packet = packets::damaged(&good[i % good.len()], &mut random);
        let ours = bench::refusal(&packet);
        assert_eq!(ours, bench::reference_refusal(&packet), "{packet:02x?}");
        refused[ours as usize] += 1;
    }
    for number in [0, 6] {
        assert!(
            refused[number] > 1_000,
            "refusal {number} came {} times",
            refused[number]
        );
    }
}

/// Twice the bytes take twice the time; a chain that each name follows by itself would take four times as long.
#[test]
fn the_time_grows_with_the_length() {
    let [half, whole] = [4_486, 8_972].map(chains::all);
    for ((name, half), (_, whole)) in half.into_iter().zip(whole) {
        let [half, whole] = timing::least(
            || _ = black_box(bench::refusal(black_box(&half))),
            || _ = black_box(bench::refusal(black_box(&whole))),
        );
        assert!(whole < 3.0 * half, "{name}: {half:.0} ns, {whole:.0} ns");
    }
}
