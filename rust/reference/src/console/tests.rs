//! Dialogues, and lines that are of their form or not.

use super::*;

const START: &str =
    "start 0 0 626f6f7468 5f766f696365 5f746370 646f636b 6c6f63616c 4000 00 0a000007 -";

fn ask(console: &mut Console, line: &str) -> String {
    console.answer(line.as_bytes()).expect("an answer")
}

#[test]
fn the_example_dialogue() {
    let mut console = Console::default();
    assert_eq!(
        ask(&mut console, "claims"),
        "0 instance lost - host lost - reply - updated -"
    );
    assert_eq!(ask(&mut console, "tick 0"), "refused 7");
    assert_eq!(ask(&mut console, START), "started");
    assert_eq!(
        ask(&mut console, "claims"),
        "0 instance waiting 0 host waiting 0 reply - updated -"
    );
    let first = ask(&mut console, "tick 0");
    assert!(first.starts_with("sent 000000000001000000020000"));
    assert!(first.ends_with(" more"));
    assert_eq!(
        ask(&mut console, "tick 0"),
        "sent 00000000000100000001000004646f636b056c6f63616c0000ff8001c00c000100010000007800040a000007"
    );
    assert_eq!(ask(&mut console, "tick 0"), "quiet");
    assert_eq!(
        ask(&mut console, "claims"),
        "0 instance probing 250 host probing 250 reply - updated -"
    );
    assert_eq!(ask(&mut console, "out 12 6"), "out 04646f636b05");
}

#[test]
fn a_reply_to_a_plain_resolver() {
    let mut console = Console::default();
    ask(&mut console, START);
    for now in [0, 0, 250, 250, 500, 500, 750, 750] {
        ask(&mut console, &format!("tick {now}"));
    }
    let question = "04444f434b056c6f63616c0000010001";
    let packet = format!("123401000001000000000000{question}");
    let reply =
        format!("123484000001000100000000{question}04646f636bc011000100010000000a00040a000007");
    assert_eq!(
        ask(
            &mut console,
            &format!("recv 750 0a000001 53 20 400 {packet}")
        ),
        format!("unicast {reply}")
    );
    assert_eq!(ask(&mut console, "unicast 0 4"), "unicast 12348400");
    assert_eq!(ask(&mut console, "out 0 4"), "out 00008400");
    assert_eq!(
        ask(
            &mut console,
            &format!("recv 750 0a000001 5353 20 400 {packet}")
        ),
        "quiet"
    );
}

#[test]
fn answers_by_unicast_and_both_ways() {
    let mut console = Console::default();
    ask(&mut console, START);
    for now in [0, 0, 250, 250, 500, 500, 750, 750] {
        ask(&mut console, &format!("tick {now}"));
    }
    let host = "04646f636b056c6f63616c00";
    let a = "800100000078";
    let unicast = format!("123484000000000100000000{host}0001{a}00040a000007");
    let nsec = format!("000084000000000100000000{host}002f{a}0005c00c000140");
    let wanted = format!("{host}00018001");
    for (packet, answer) in [
        (
            format!("123400000001000000000000{wanted}"),
            format!("unicast {unicast}"),
        ),
        (
            format!("123400000002000000000000{wanted}c00c001c0001"),
            format!("sent {nsec} unicast {unicast}"),
        ),
    ] {
        let line = format!("recv 750 0a000001 5353 20 400 {packet}");
        assert_eq!(ask(&mut console, &line), answer);
    }
    assert_eq!(ask(&mut console, "out 0 6"), "out 000084000000");
    assert_eq!(ask(&mut console, "unicast 0 6"), "unicast 123484000000");
}

#[test]
fn stops_and_updates() {
    let mut console = Console::default();
    for (line, answer) in [
        ("stop 0", "refused 7"),
        ("update 0 port 80", "refused 7"),
        ("stop 4611686018427387905 0", "refused 1"),
        ("stop 0 1451", "refused 3"),
        (START, "started"),
        ("update 10 port 80", "quiet"),
        (
            "claims",
            "10 instance waiting 10 host waiting 0 reply - updated 10",
        ),
        ("update 6009 txt 00", "refused 11"),
        ("update 6010 txt -", "refused 7"),
        ("update 6010 txt 0161 1451", "refused 3"),
        ("update 6010 txt 0161 4096", "quiet"),
        (
            "claims",
            "6010 instance waiting 6010 host waiting 0 reply - updated 6010",
        ),
        ("stop 6010", "quiet"),
        (
            "claims",
            "6010 instance lost - host lost - reply - updated 6010",
        ),
        ("update 6010 port 1", "refused 10"),
        ("stop 6011", "quiet"),
    ] {
        assert_eq!(ask(&mut console, line), answer, "{line}");
    }
}

#[test]
fn holds_are_shown_in_order_of_arrival() {
    let mut console = Console::default();
    assert_eq!(ask(&mut console, "holds"), "holds -");
    ask(&mut console, START);
    let truncated = "000002000000000000000000";
    for (from, hold) in [
        ("0A000001", 450),
        ("fe800000000000000000000000000001", 400),
        ("00000000000000000000ffff0a000001", 401),
    ] {
        let line = format!("recv 7 {from} 5353 20 {hold} {truncated}");
        assert_eq!(ask(&mut console, &line), "quiet");
    }
    // an IPv4 address is the mapped one
    assert_eq!(
        ask(&mut console, "holds"),
        "holds 00000000000000000000ffff0a000001 457 fe800000000000000000000000000001 407"
    );
    ask(&mut console, "tick 407");
    assert_eq!(
        ask(&mut console, "holds"),
        "holds 00000000000000000000ffff0a000001 457 fe800000000000000000000000000001 407"
    );
    // two probes go before them
    ask(&mut console, "tick 407");
    assert_eq!(ask(&mut console, "tick 407"), "quiet");
    assert_eq!(
        ask(&mut console, "holds"),
        "holds 00000000000000000000ffff0a000001 457"
    );
    assert_eq!(ask(&mut console, START), "started");
    assert_eq!(ask(&mut console, "holds"), "holds -");
}

#[test]
fn lines_without_answer() {
    let mut console = Console::default();
    assert_eq!(console.answer(b""), None);
    assert_eq!(console.answer(b"#claims"), None);
}

#[test]
fn bad_lines() {
    let mut console = Console::default();
    for line in [
        " ",
        " claims",
        "claims ",
        "claims\r",
        "Claims",
        "claims 1",
        "tick",
        "tick ",
        "tick  0",
        "tick\t0",
        "tick -1",
        "tick +1",
        "tick 0x1",
        "tick 18446744073709551616",
        "tick 0 4097",
        "tick 0 1452 0",
        "recv 0 0a000001 5353 20 400",
        "recv 0 0a000001 5353 20 400 0",
        "recv 0 0a000001 5353 20 400 0g",
        "recv 0 0a000001 5353 20 400 --",
        "recv 0 0a000001 5353 20 400 - 4097",
        "recv 0 5353 20 000000000000000000000000",
        "recv 0 - 5353 20 400 -",
        "recv 0 0a0000 5353 20 400 -",
        "recv 0 0a00000100 5353 20 400 -",
        "recv 0 00000000000000000000ffff0a0000 5353 20 400 -",
        "recv 0 00000000000000000000ffff0a00000100 5353 20 400 -",
        "recv 0 0a000001 5353 20 x -",
        "holds 0",
        "holds ",
        "stop",
        "stop ",
        "stop -",
        "stop 0 4097",
        "stop 0 1452 0",
        "update",
        "update 0",
        "update 0 port",
        "update 0 port 65536",
        "update 0 port 00 -",
        "update 0 port 80 4097",
        "update 0 port 80 1452 0",
        "update 0 txt",
        "update 0 txt 0",
        "update 0 txt 00 4097",
        "update 0 Port 80",
        "update 0 a 0a000007",
        "update port 80",
        "recv 0 0a000001 5353 20 400 - 1452 4097",
        "recv 0 0a000001 5353 20 400 - 1452 -",
        "recv 0 0a000001 5353 20 400 - 1452 1452 0",
        "recv 0 0a000001 5353 20 400 - 1452 ",
        "unicast",
        "unicast 0",
        "unicast 4096 1",
        "unicast 0 4097",
        "unicast 18446744073709551615 1",
        "unicast 0 0 0",
        "out 4096 1",
        "out 18446744073709551615 1",
        "out 4097 0",
        "slot 64",
        "table",
        "table ",
        "table -1",
        "table x",
        "table 514",
        "table 1 525313",
        "table 1 -",
        "table 1 1024 0",
        "table 18446744073709551616",
        "txt 61 -",
        "read",
        "start 0 0 61 5f61 5f746370 61 6c6f63616c 65536 00 00000000 -",
        "start 0 0 61 5f61 5f746370 61 6c6f63616c 1 00 000000 -",
        "start 0 0 61 5f61 5f746370 61 6c6f63616c 1 00 - -",
        "start 0 0 61 5f61 5f746370 61 6c6f63616c 1 00 00000000 00",
    ] {
        assert_eq!(ask(&mut console, line), "bad line", "{line:?}");
    }
    let long = format!("tick {}", "0".repeat(MOST_LINE - 5));
    assert_eq!(ask(&mut console, &long), "refused 7");
    assert_eq!(ask(&mut console, &(long + "0")), "bad line");
    assert_eq!(console.answer(b"tick \xff"), Some("bad line".to_string()));
}

#[test]
fn numbers_wider_than_a_field_keep_their_meaning() {
    let mut console = Console::default();
    ask(&mut console, START);
    let header = "000084000000000000000000";
    for (line, answer) in [
        ("recv 0 0a000001 70889 20 400 H", "refused 5"),
        ("recv 0 0a000001 70889 20 400 000000000000000000000000", "quiet"),
        ("recv 0 0a000001 5353 276 400 H", "refused 2"),
        ("recv 0 0a000001 5353 18446744073709551615 400 H", "refused 2"),
        ("recv 0 0a000001 5353 20 399 H", "refused 2"),
        ("recv 0 0a000001 5353 20 501 H", "refused 2"),
        ("recv 0 0a000001 5353 20 65936 H", "refused 2"),
        ("recv 0 0a000001 5353 020 0500 H", "quiet"),
        ("recv 0 0a000001 5353 20 400 H 1451", "refused 3"),
        ("recv 0 0a000001 5353 20 400 H 4096", "quiet"),
        ("recv 0 0a000001 5353 20 400 H 1452 1451", "refused 3"),
        ("recv 0 0a000001 5353 20 400 H 1451 1452", "refused 3"),
        ("recv 0 0a000001 5353 20 400 H 1452 01452", "quiet"),
        ("recv 0 0a000001 5353 20 400 H 4096 4096", "quiet"),
        ("unicast 4096 0", "unicast -"),
        ("put 0 70889 H", "refused 5"),
        ("put 0 70889 000000000000000000000000", "cached 0 0"),
        ("put 0 5353 H", "cached 0 0"),
        ("look 0 00 65537 18446744073709551615", "none"),
        ("look 0 - 1 0", "refused 6"),
        ("look 4611686018427387905 - 1 0", "refused 1"),
        ("tick 4611686018427387905", "refused 1"),
        ("out 4096 0", "out -"),
        ("read 00", "refused 4"),
        ("read H", "message 0 33792"),
        (
            "read 0000000000010000000000000161016200000c0001",
            "message 0 0 q 0161016200 2 1 12 1",
        ),
        (
            "read 00008400000000020000000004646f636b00000c0001000000090002c00c000010000100000009000100",
            "message 0 33792 r an 04646f636b00 1 4 12 1 9 04646f636b00 1 4 r an 00 0 0 16 1 9 00",
        ),
        (
            "put 0 5353 000084000000000100000000016100000100010000000900040a000007",
            "cached 0 0",
        ),
        ("look 0 014100 1 0", "slot 0 0 9000 016100 1 1 0a000007"),
        ("txt - 01 -", "refused 9"),
        ("txt 41 04613d3d31 -", "value received 3 3d31"),
    ] {
        let line = line.replace('H', header);
        assert_eq!(ask(&mut console, &line), answer, "{line}");
    }
}

#[test]
fn tables_of_other_sizes() {
    let mut console = Console::default();
    let zeros = format!(" 0 0 0 0 0 0 {}", "00".repeat(1024));
    for (line, answer) in [
        ("slot 63", &format!("slot 63{zeros}")[..]),
        ("table 0", "table"),
        ("slot 0", "bad line"),
        ("look 0 00 1 0", "refused 8"),
        ("look 0 - 1 0", "refused 8"),
        ("look 4611686018427387905 - 1 0", "refused 1"),
        ("put 0 1 -", "refused 8"),
        ("table 02 002047", "table"),
        ("put 0 1 -", "refused 8"),
        ("slot 1", "bad line"),
        ("slot 0", &format!("slot 0{zeros}")),
        ("table 2", "table"),
        ("put 0 1 -", "refused 4"),
        ("slot 1", &format!("slot 1{zeros}")),
        ("slot 2", "bad line"),
        ("look 0 00 1 2", "none"),
        ("clear", "cleared"),
        ("slot 2", "bad line"),
        ("table 514", "bad line"),
        ("slot 1", &format!("slot 1{zeros}")),
        ("table 513 525312", "table"),
        ("put 0 1 -", "refused 8"),
        ("slot 512", &format!("slot 512{zeros}")),
        ("slot 513", "bad line"),
        ("table 512", "table"),
        ("put 0 1 -", "refused 4"),
        ("table 1 525312", "table"),
        ("put 0 1 -", "refused 8"),
        ("slot 1", "bad line"),
    ] {
        assert_eq!(ask(&mut console, line), answer, "{line}");
    }
}

#[test]
fn start_refusals() {
    let mut console = Console::default();
    for (line, answer) in [
        (
            "start 4611686018427387905 251 - - - - - 0 - 00000000 -",
            "refused 1",
        ),
        (
            "start 4611686018427387904 251 - - - - - 0 - 00000000 -",
            "refused 2",
        ),
        (
            "start 4611686018427387904 250 - - - - - 0 - 00000000 -",
            "refused 7",
        ),
    ] {
        assert_eq!(ask(&mut console, line), answer);
    }
    let long = format!(
        "start 0 0 {} 5f61 5f746370 61 6c6f63616c 1 00 00000000 -",
        "61".repeat(257)
    );
    assert_eq!(ask(&mut console, &long), "refused 7");
    assert_eq!(
        ask(&mut console, "claims"),
        "0 instance lost - host lost - reply - updated -"
    );
}

#[test]
fn a_browser() {
    const NAME: &str = "065f766f696365045f746370056c6f63616c00";
    let mut console = Console::default();
    let record = format!("{NAME}000c00010000000a000805626f6f7468c00c");
    let record_again = record.replace("626f6f7468", "424f4f5448");
    let put = |now: u64, record: &str| format!("put {now} 5353 000084000000000100000000{record}");
    let query = |count: u8| format!("sent 00000000000100{count:02}00000000{NAME}000c0001");
    let known = "c00c000c00010000000a000805626f6f7468c00c";
    for (line, answer) in [
        ("ask 0".to_string(), "refused 7".to_string()),
        ("ask 0 1451".to_string(), "refused 3".to_string()),
        ("list 0".to_string(), "refused 7".to_string()),
        ("browse 0 19 0 - - -".to_string(), "refused 2".to_string()),
        (
            "browse 0 20 0 5f766f696365 5f746370 -".to_string(),
            "refused 7".to_string(),
        ),
        ("ask 0".to_string(), "refused 7".to_string()),
        (
            "browse 0 20 0 5f766f696365 5f746370 6c6f63616c".to_string(),
            "browsing".to_string(),
        ),
        ("list 0".to_string(), "list -".to_string()),
        ("ask 19".to_string(), "quiet".to_string()),
        ("ask 18".to_string(), "refused 1".to_string()),
        ("ask 20 4097".to_string(), "bad line".to_string()),
        ("ask 20".to_string(), query(0)),
        (put(1020, &record), "cached 0 0".to_string()),
        (put(1020, &record_again), "cached 0 0".to_string()),
        (
            "list 1020".to_string(),
            format!("list 0 05626f6f7468{NAME}"),
        ),
        ("list 1019".to_string(), "refused 1".to_string()),
        (
            "ask 1020 4096".to_string(),
            format!(
                "{}{known}{}",
                query(2),
                known.replace("626f6f7468", "424f4f5448")
            ),
        ),
        ("ask 1020".to_string(), "quiet".to_string()),
        (
            "browse 1020 20 21 5f766f696365 5f746370 6c6f63616c".to_string(),
            "refused 2".to_string(),
        ),
        ("ask 3019".to_string(), "quiet".to_string()),
        ("list 11020".to_string(), "list -".to_string()),
    ] {
        assert_eq!(ask(&mut console, &line), answer, "{line}");
    }
    let slot = ask(&mut console, "slot 0");
    assert!(
        slot.starts_with("slot 0 12 19 25 1020 11020 10 06"),
        "{slot}"
    );
}
