//! Messages of real responders: both readers take each, and refuse the same where one is damaged; so do the peers that are installed, as far as their rules go.

use bench::packets::{self, Random};
use bench::{captured, peers};

#[test]
fn both_readers_take_each() {
    for (sender, name) in captured::SENDERS {
        let messages = captured::of(sender);
        assert!(messages.len() >= 5, "{name}");
        for message in messages {
            assert_eq!(
                (bench::refusal(&message), bench::reference_refusal(&message)),
                (0, 0),
                "{name}"
            );
        }
    }
}

#[test]
fn both_readers_refuse_alike_what_is_damaged() {
    let mut random = Random(353);
    let messages = captured::all();
    let mut refused = 0;
    for i in 0..50_000 {
        let damaged = packets::damaged(&messages[i % messages.len()], &mut random);
        let refusal = bench::refusal(&damaged);
        assert_eq!(
            refusal,
            bench::reference_refusal(&damaged),
            "{damaged:02x?}"
        );
        refused += (refusal != 0) as usize;
    }
    assert!(refused > 5_000, "{refused} were refused");
}

#[test]
fn the_peers_take_each() {
    let (peers, missing) = peers::installed();
    for name in missing {
        println!("skipped: {name} is not installed");
    }
    for peer in peers {
        for message in captured::all() {
            assert!(peer.reads(&message), "{}: {message:02x?}", peer.name);
        }
    }
}
