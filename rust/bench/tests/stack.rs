//! The reader runs in a stack of 64 KiB, whatever the packet, and so do the calls of the responder and of the cache; the player, which puts a packet together first,
//! in 128 KiB.

use bench::packets;
use bench::responders::Calls;

/// Runs `work` on a thread with a stack of 64 KiB.
fn in_64_kib(work: fn()) {
    in_stack(64, work);
}

/// Runs `work` on a thread with a stack of so many KiB; one that overflows ends the test with a fault.
fn in_stack(kib: usize, work: fn()) {
    std::thread::Builder::new()
        .stack_size(kib * 1024)
        .spawn(work)
        .expect("a thread")
        .join()
        .expect("an answer");
}

#[test]
fn the_longest_chain_of_pointers() {
    in_64_kib(|| {
        let (packet, at) = packets::longest_chain();
        assert!(packet.len() > 8960 && packet.len() <= 8972);
        assert_eq!(bench::refusal(&packet), 0);
        assert_eq!(bench::name_end(&packet, at), at + 2);
        assert_eq!(bench::expanded_length(&packet, at), 1);
    });
}

#[test]
fn a_name_of_127_labels_each_behind_a_pointer() {
    in_64_kib(|| {
        let (packet, at) = packets::label_by_label();
        assert_eq!(bench::refusal(&packet), 0);
        assert_eq!(bench::name_end(&packet, at), at + 4);
        assert_eq!(bench::expanded_length(&packet, at), 255);
    });
}

#[test]
fn the_message_that_takes_longest() {
    in_64_kib(|| {
        let packet = packets::worst();
        assert!(packet.len() > 8900 && packet.len() <= 8972);
        assert_eq!(bench::refusal(&packet), 0);
    });
}

#[test]
fn a_responder_that_receives_each() {
    in_64_kib(|| {
        let mut responder = bench::responders::proved("booth");
        for packet in [
            packets::longest_chain().0,
            packets::label_by_label().0,
            packets::worst(),
            bench::responders::query(),
            bench::responders::truncated(),
        ] {
            responder.receive(1000, &packet);
            responder.tick(1000);
        }
    });
}

#[test]
fn a_player_that_plays_each() {
    in_stack(128, || {
        let mut recorder = kurgashel::Recorder::new();
        for packet in [
            packets::longest_chain().0,
            packets::label_by_label().0,
            packets::worst(),
            bench::responders::query(),
            bench::responders::truncated(),
            vec![0; 65535],
        ] {
            let arrival = kurgashel::Event::Packet {
                now: 1000,
                from: std::net::Ipv6Addr::LOCALHOST,
                port: kurgashel::PORT,
                draws: kurgashel::Draws {
                    reply: 20,
                    hold: 400,
                },
                packet,
            };
            recorder.record(&arrival).expect("each value fits");
            let tick = kurgashel::Event::Tick { now: 1000 };
            recorder.record(&tick).expect("a time fits");
        }
        let setup = kurgashel::Setup::new(
            "booth",
            "_voice",
            "_tcp",
            "dock",
            4000,
            b"\0",
            [10, 0, 0, 7],
            None,
        );
        let mut player = kurgashel::Player::start(&setup, 0, 0).expect("a good set-up");
        let (mut at, mut taken) = (0, 0);
        while let Some(turn) = player.play(recorder.trace(), at).expect("it is read") {
            taken += usize::from(turn.played == kurgashel::Played::Call(Ok(())));
            at = turn.next;
        }
        // all but the packet of 65,535 bytes
        assert_eq!(taken, 11);
    });
}

#[test]
fn a_cache_that_takes_each() {
    in_64_kib(|| {
        let mut cache = kurgashel::Cache::default();
        for packet in [
            packets::longest_chain().0,
            packets::label_by_label().0,
            packets::worst(),
            packets::address(),
        ] {
            cache
                .take(1000, kurgashel::PORT, &packet)
                .expect("taken, whatever it holds");
        }
        let found = cache
            .look_up(1000, b"\x04dock\x05local\0", 1, 0)
            .expect("an answer")
            .expect("the address that was announced");
        assert_eq!(found.rdata, [10, 0, 0, 7]);
    });
}

#[test]
fn a_full_cache_of_512_entries() {
    in_64_kib(|| {
        let entries = kurgashel::MOST_ENTRIES;
        let mut cache = kurgashel::Cache::with_entries(entries).expect("a size");
        for number in 0..entries {
            let taken = cache
                .take(1000, kurgashel::PORT, &packets::address_of(number as u16))
                .expect("taken");
            assert_eq!((taken.turned_away, taken.passed_over), (0, 0), "{number}");
        }
        let worst = cache
            .take(1000, kurgashel::PORT, &packets::worst())
            .expect("taken, whatever it holds");
        assert!(worst.turned_away > 0);
        let last = cache
            .look_up(1000, b"\x04dock\x05local\0", 1, entries - 1)
            .expect("an answer")
            .expect("the address that was announced last");
        assert_eq!((last.slot, last.rdata), (entries - 1, &[10, 0, 1, 255][..]));
    });
}
