//! The proved reader and the reference program's answer alike on many packets, good and damaged.

use bench::packets::{self, Random};

#[test]
fn both_readers_answer_alike() {
    let mut random = Random(6762);
    let good = [
        packets::address(),
        packets::service(),
        packets::full(),
        packets::worst(),
        packets::label_by_label().0,
    ];
    let mut refused = [0usize; 7];
    for packet in &good {
        assert_eq!(bench::refusal(packet), 0);
    }
    for i in 0..200_000 {
        let packet = packets::damaged(
            &good[if i % 50 == 0 { 3 + i / 50 % 2 } else { i % 3 }],
            &mut random,
        );
        let ours = bench::refusal(&packet);
        assert_eq!(ours, bench::reference_refusal(&packet), "{packet:02x?}");
        refused[ours as usize] += 1;
    }
    // the damage reaches every answer
    for number in [0, 4, 5, 6] {
        assert!(
            refused[number] > 100,
            "refusal {number} came {} times",
            refused[number]
        );
    }
}
