//! TXT lookups, and lines that are no calls or no lines.

use super::packet::txt_of;
use super::Script;
use crate::cache::SLOT;
use crate::console::{MOST_LINE, OUT_BUFFER};

impl Script {
    pub(super) fn txt_lookups(&mut self) {
        for _ in 0..self.random.below(25) {
            let key = self.txt_key();
            let received = self.txt_rdata(&key);
            let factory = self.txt_rdata(&key);
            let key = if self.random.chance(50) {
                self.random.recase(&key)
            } else {
                key
            };
            let line = format!(
                "txt {} {} {}",
                self.hex(&key),
                self.hex(&received),
                self.hex(&factory)
            );
            self.say(line);
        }
    }

    fn txt_key(&mut self) -> Vec<u8> {
        let key: &[u8] = self.random.pick(&[
            &b"PassReq"[..],
            b"papersize",
            b"k",
            b"K9 ~!",
            b" ",
            b"[a]",
            b"txtvers",
            b"a@z",
        ]);
        let mut key = key.to_vec();
        if self.random.chance(8) {
            let odd = self.random.pick(b"=\x1f\x7f\x00\x80\xe9\x20\x7e");
            let at = self.random.below(key.len() + 1);
            key.insert(at, odd);
        }
        if self.random.chance(2) {
            key.clear();
        }
        if self.random.chance(2) {
            key = vec![b'x'; self.random.pick(&[254, 255, 256, 300])];
        }
        key
    }

    /// TXT rdata with strings near the key.
    fn txt_rdata(&mut self, key: &[u8]) -> Vec<u8> {
        let mut txt = Vec::new();
        for _ in 0..self.random.below(6) {
            let mut string = if self.random.chance(40) {
                self.random.recase(key)
            } else {
                key.to_vec()
            };
            match self.random.below(16) {
                0 => string.clear(),
                1 => string.insert(0, b'='),
                2 => {
                    string.pop();
                }
                3 => string.push(b'x'),
                4 => string.extend(b" =1"),
                5 => {
                    let at = self.random.below(string.len() + 1);
                    string.insert(at, 0);
                }
                6 | 7 => string = b"other=thing".to_vec(),
                8 | 9 => string.extend(b"="),
                10 => string.extend(b"=="),
                11 => string.extend(b"=a=b"),
                12 => {
                    let length = self.random.below(20);
                    string.push(b'=');
                    string.extend(self.random.bytes(length));
                }
                13 => {
                    string.push(b'=');
                    string.resize(string.len().max(255), b'v');
                }
                _ => (),
            }
            string.truncate(255);
            txt.push(string.len() as u8);
            txt.extend(string);
        }
        match self.random.below(40) {
            0 => txt.push(1),
            1 => {
                txt.pop();
            }
            2 => {
                let length = self.random.below(2000);
                txt.extend(txt_of(&mut self.random, length));
            }
            _ => (),
        }
        txt
    }

    /// Lines that are no calls, at the length limit, empty or comments.
    pub(super) fn bad_lines(&mut self) {
        for _ in 0..self.random.below(12) {
            match self.random.below(12) {
                0 => {
                    let line = self.random.pick(&["", "#", "# claims", "#tick 0"]);
                    self.say(line);
                }
                1 => {
                    let word =
                        self.random
                            .pick(&["tick ", "slot ", "recv 0 0a000001 5353 20 400 - "]);
                    let length =
                        self.random
                            .pick(&[MOST_LINE - 1, MOST_LINE, MOST_LINE + 1, MOST_LINE + 9]);
                    let line = format!("{word}{}", "0".repeat(length - word.len()));
                    self.say(line);
                }
                2 => {
                    let (at, length) = self.random.pick(&[
                        (0, OUT_BUFFER),
                        (0, OUT_BUFFER + 1),
                        (1, OUT_BUFFER),
                        (OUT_BUFFER, 0),
                        (OUT_BUFFER, 1),
                        (OUT_BUFFER + 1, 0),
                        (usize::MAX, 1),
                        (1, usize::MAX),
                        (1000, 700),
                    ]);
                    let buffer = self.random.pick(&["out", "unicast"]);
                    self.say(format!("{buffer} {at} {length}"));
                }
                3 => {
                    let line: &[u8] = self.random.pick(&[
                        &b"\xff"[..],
                        b"tick \xff",
                        b"\x00",
                        b"claims\x00",
                        b"quit",
                        b"starts",
                        b"tic",
                        b"txt",
                        b"CLEAR",
                        b"slot 64",
                        b"slot 18446744073709551615",
                        b"slot 18446744073709551616",
                        b"slot 99999999999999999999999999",
                        b"slot -",
                        b"read 0",
                        b"read --",
                        b"read 00-",
                        b"look 0 00 1",
                        b"start 0",
                        b"tick 1 2 3",
                        b"recv 0 0a000001 5353 20 400",
                        b"recv 0 5353 20 000000000000000000000000",
                        b"recv 0 0a0001 5353 20 400 000000000000000000000000",
                        b"recv 0 - 5353 20 400 000000000000000000000000",
                        b"recv 0 0a000001 5353 20 400 000000000000000000000000 1452 4097",
                        b"recv 0 0a000001 5353 20 400 000000000000000000000000 1452 -",
                        b"recv 0 0a000001 5353 20 400 000000000000000000000000 1452 1452 1452",
                        b"unicast",
                        b"unicast 0",
                        b"unicast 0 -",
                        b"unicast 0 0 0",
                        b"Unicast 0 0",
                        b"unicasts 0 0",
                        b"stop",
                        b"stop ",
                        b"stop 0 4097",
                        b"stop 0 1452 0",
                        b"Stop 0",
                        b"update",
                        b"update 0",
                        b"update 0 port",
                        b"update 0 port 65536",
                        b"update 0 port 18446744073709551615",
                        b"update 0 port 80 4097",
                        b"update 0 txt",
                        b"update 0 txt 0",
                        b"update 0 txt 00 1452 0",
                        b"update 0 a 0a000007",
                        b"update 0 TXT 00",
                        b"holds 0",
                        b"hold",
                        b"put 0 5353",
                        b"clear 0",
                        b"table",
                        b"table ",
                        b"table -",
                        b"table 514",
                        b"table 1 525313",
                        b"table 0 525313",
                        b"table 1 1024 0",
                        b"table 1 -",
                        b"table 65600",
                        b"table 18446744073709551615",
                        b"tables 1",
                        b"browse",
                        b"browse 0 20 0",
                        b"browse 0 20 0 5f61 5f746370",
                        b"browse 0 20 0 5f61 5f746370 6c6f63616",
                        b"browse 0 20 0 5f61 5f746370 6c6f63616c 0",
                        b"browse 0 20 - 5f61 5f746370 6c6f63616c",
                        b"Browse 0 20 0 5f61 5f746370 6c6f63616c",
                        b"browses 0 20 0 5f61 5f746370 6c6f63616c",
                        b"ask",
                        b"ask -",
                        b"ask 0 4097",
                        b"ask 0 1452 0",
                        b"asks 0",
                        b"list",
                        b"list -",
                        b"list 0 0",
                        b"lists 0",
                    ]);
                    self.say(line);
                }
                _ => {
                    let line = self.good_line();
                    let line = self.spoil(line);
                    self.say(line);
                }
            }
        }
    }

    /// A line of the right form.
    fn good_line(&mut self) -> Vec<u8> {
        let last = self.model.responder.last;
        let received = self
            .model
            .cache
            .entries()
            .iter()
            .map(|entry| entry.received);
        let received = received.max().unwrap_or(0);
        let entries = self.model.cache.entries().len();
        let asked = self.model.browser.last.max(received);
        let line = match self.random.below(16) {
            13 => format!("browse {asked} 20 0 5f766f696365 5f746370 6c6f63616c"),
            14 => format!("ask {asked} 1452"),
            15 => format!("list {asked}"),
            10 => format!("stop {last}"),
            11 => format!("update {last} port 80 1452"),
            12 => format!("update {last} txt 0161"),
            0 => format!("tick {last}"),
            1 => format!("tick {last} 1452"),
            2 => format!("recv {last} 0a000001 5353 20 400 000000000000000000000000"),
            3 => {
                let rooms = self.random.pick(&["4096", "4096 4096", "1452 1452"]);
                format!("recv {last} 0a000001 5353 20 400 000000000000000000000000 {rooms}")
            }
            4 => format!("put {received} 5353 000084000000000000000000"),
            5 => format!("look {received} 046465736b056c6f63616c00 1 0"),
            6 => "txt 6b 036b3d31 -".to_string(),
            7 => format!("table {entries} {}", SLOT * entries),
            8 => format!("slot {}", entries / 2),
            _ => {
                "start 0 0 626f6f7468 5f766f696365 5f746370 646f636b 6c6f63616c 4000 00 0a000007 -"
                    .to_string()
            }
        };
        line.into_bytes()
    }

    /// Breaks the form of a line, most times.
    pub(super) fn spoil(&mut self, mut line: Vec<u8>) -> Vec<u8> {
        let spaces: Vec<usize> = (0..line.len()).filter(|at| line[*at] == b' ').collect();
        let space = self.random.pick(&spaces);
        match self.random.below(13) {
            0 => line.insert(space, b' '),
            1 => line.push(b' '),
            2 => line.insert(0, b' '),
            3 => line.push(b'\r'),
            4 => line[space] = b'\t',
            5 => line.truncate(space),
            6 => line.extend(b" 0"),
            7 => line[0] = line[0].to_ascii_uppercase(),
            8 => line.insert(space + 1, b'0'),
            9 => {
                line.remove(space);
            }
            10 => {
                let at = self.random.below(line.len());
                line[at] = self.random.byte();
            }
            11 => {
                let at = self.random.below(line.len());
                line[at] = self.random.pick(b"0123456789abcdefABCDEF-gx+ ");
            }
            _ => {
                let number = self.random.pick(&[
                    "18446744073709551615",
                    "18446744073709551616",
                    "65535",
                    "65536",
                    "00000000000000000000000000001",
                    "4097",
                    "-",
                    "0x10",
                    "1e3",
                ]);
                let end = spaces.iter().copied().find(|at| *at > space);
                line.splice(space + 1..end.unwrap_or(line.len()), number.bytes());
            }
        }
        // a line feed would make two lines of it, a number sign a comment
        line.retain(|byte| *byte != b'\n');
        if line.first() == Some(&b'#') && line.len() > MOST_LINE {
            line.truncate(MOST_LINE);
        }
        line
    }
}
