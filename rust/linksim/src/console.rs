//! A console process, talked to line by line through pipes.

use std::io::{self, BufRead, BufReader, Write};
use std::process::{Child, ChildStdin, ChildStdout, Command, Stdio};

use reference::responder::holds::MOST_HOLDS;

pub struct Console {
    process: Child,
    /// Taken when the console is closed: it ends at the end of its input.
    input: Option<ChildStdin>,
    output: BufReader<ChildStdout>,
}

#[derive(Clone, Debug, PartialEq, Eq)]
pub enum Answer {
    Started,
    Quiet,
    Sent(Sent),
    Refused(u8),
}

/// The packets of a call, one at least.
#[derive(Clone, Debug, PartialEq, Eq)]
pub struct Sent {
    pub to_all: Option<Vec<u8>>,
    /// To the address and port that the message came from.
    pub unicast: Option<Vec<u8>>,
}

/// Instance, host, PTR reply, then the held queries in order of arrival: when the next step is due, on the responder's clock.
pub type Dues = [Option<u64>; 3 + MOST_HOLDS];

/// What `claims` and `holds` show. Only the due times are used to play a list; the states are only counted.
#[derive(Clone, Debug, PartialEq, Eq)]
pub struct Claims {
    /// Instance, host.
    pub states: [State; 2],
    pub due: Dues,
}

#[derive(Clone, Copy, Debug, PartialEq, Eq)]
pub enum State {
    Waiting,
    Probing,
    Deferred,
    Held,
    Lost,
}

impl Console {
    pub fn open(path: &str) -> io::Result<Console> {
        let mut process = Command::new(path)
            .stdin(Stdio::piped())
            .stdout(Stdio::piped())
            .spawn()?;
        let input = process.stdin.take();
        let output = BufReader::new(process.stdout.take().expect("a piped output"));
        Ok(Console {
            process,
            input,
            output,
        })
    }

    /// Makes the call and then asks for the claims and the held queries.
    pub fn call(&mut self, line: &str) -> io::Result<(Answer, Claims)> {
        let input = self.input.as_mut().expect("an open console");
        input.write_all(format!("{line}\nclaims\nholds\n").as_bytes())?;
        let answer = self.read(line, answer_of)?;
        let mut claims = self.read("claims", claims_of)?;
        let holds = self.read("holds", holds_of)?;
        claims.due[3..].copy_from_slice(&holds);
        Ok((answer, claims))
    }

    /// Reads the answer to a line.
    fn read<T>(&mut self, line: &str, parse: fn(&str) -> Option<T>) -> io::Result<T> {
        let mut answer = String::new();
        self.output.read_line(&mut answer)?;
        parse(answer.trim_end_matches('\n')).ok_or_else(|| {
            let text = format!("the console's answer to '{line}' is '{answer}'");
            io::Error::new(io::ErrorKind::InvalidData, text)
        })
    }
}

impl Drop for Console {
    fn drop(&mut self) {
        self.input = None;
        // nothing can be done about a console that does not end well
        let _ = self.process.wait();
    }
}

fn answer_of(line: &str) -> Option<Answer> {
    let words: Vec<&str> = line.split(' ').collect();
    match words[..] {
        ["started"] => Some(Answer::Started),
        ["quiet"] => Some(Answer::Quiet),
        ["refused", number] => Some(Answer::Refused(number.parse().ok()?)),
        ["sent", packet] | ["sent", packet, "more"] => sent_of(Some(packet), None),
        ["unicast", packet] => sent_of(None, Some(packet)),
        ["sent", packet, "unicast", other] => sent_of(Some(packet), Some(other)),
        _ => None,
    }
}

fn sent_of(to_all: Option<&str>, unicast: Option<&str>) -> Option<Answer> {
    let packet_of = |hex: Option<&str>| hex.map(|hex| bytes_of(hex).ok_or(())).transpose();
    Some(Answer::Sent(Sent {
        to_all: packet_of(to_all).ok()?,
        unicast: packet_of(unicast).ok()?,
    }))
}

fn claims_of(line: &str) -> Option<Claims> {
    let words: Vec<&str> = line.split(' ').collect();
    match words[..] {
        [_, "instance", instance, instance_due, "host", host, host_due, "reply", reply, "updated", updated] =>
        {
            due_of(updated)?;
            Some(Claims {
                states: [state_of(instance)?, state_of(host)?],
                due: dues(&[due_of(instance_due)?, due_of(host_due)?, due_of(reply)?]),
            })
        }
        _ => None,
    }
}

/// These, and none of what is not given.
pub fn dues(given: &[Option<u64>]) -> Dues {
    let mut dues = Dues::default();
    dues[..given.len()].copy_from_slice(given);
    dues
}

/// When each held query is due; more than four are no answer, nor is one from an address twice.
fn holds_of(line: &str) -> Option<[Option<u64>; MOST_HOLDS]> {
    let words: Vec<&str> = line.split(' ').collect();
    let shown = match words[..] {
        ["holds", "-"] => &[],
        ["holds", ref shown @ ..] if !shown.is_empty() && shown.len() % 2 == 0 => shown,
        _ => return None,
    };
    let mut holds = [None; MOST_HOLDS];
    for (at, hold) in shown.chunks(2).enumerate() {
        let again = shown[..2 * at]
            .iter()
            .step_by(2)
            .any(|from| *from == hold[0]);
        if again || hold[0].len() != 32 {
            return None;
        }
        *holds.get_mut(at)? = Some(hold[1].parse().ok()?);
    }
    Some(holds)
}

fn state_of(word: &str) -> Option<State> {
    match word {
        "waiting" => Some(State::Waiting),
        "probing" => Some(State::Probing),
        "deferred" => Some(State::Deferred),
        "held" => Some(State::Held),
        "lost" => Some(State::Lost),
        _ => None,
    }
}

fn due_of(word: &str) -> Option<Option<u64>> {
    match word {
        "-" => Some(None),
        number => number.parse().ok().map(Some),
    }
}

fn bytes_of(hex: &str) -> Option<Vec<u8>> {
    let pairs = hex.as_bytes().chunks(2);
    let byte = |pair| u8::from_str_radix(std::str::from_utf8(pair).ok()?, 16).ok();
    pairs.map(byte).collect()
}

#[cfg(test)]
mod tests {
    use super::*;

    #[test]
    fn answers() {
        assert_eq!(answer_of("started"), Some(Answer::Started));
        assert_eq!(answer_of("refused 7"), Some(Answer::Refused(7)));
        let sent = |to_all: &[u8], unicast: &[u8]| {
            let packet = |bytes: &[u8]| (!bytes.is_empty()).then(|| bytes.to_vec());
            Some(Answer::Sent(Sent {
                to_all: packet(to_all),
                unicast: packet(unicast),
            }))
        };
        assert_eq!(answer_of("sent 00ff"), sent(&[0, 0xff], &[]));
        assert_eq!(answer_of("sent 00ff more"), sent(&[0, 0xff], &[]));
        assert_eq!(answer_of("unicast 00ff"), sent(&[], &[0, 0xff]));
        assert_eq!(answer_of("sent 01 unicast 02"), sent(&[1], &[2]));
        for wrong in [
            "",
            "bad line",
            "sent",
            "unicast",
            "sent 0g",
            "sent 01 unicast 0g",
            "unicast 01 sent 02",
            "refused",
        ] {
            assert_eq!(answer_of(wrong), None);
        }
    }

    #[test]
    fn claims() {
        let line = "5 instance waiting 7 host lost - reply - updated 3";
        let claims = claims_of(line).unwrap();
        assert_eq!(claims.states, [State::Waiting, State::Lost]);
        assert_eq!(claims.due, dues(&[Some(7), None, None]));
        assert_eq!(claims_of("quiet"), None);
        assert_eq!(claims_of(&line.replace('3', "x")), None);
    }

    #[test]
    fn holds() {
        assert_eq!(holds_of("holds -"), Some([None; 4]));
        let (one, two) = ("1".repeat(32), "2".repeat(32));
        assert_eq!(
            holds_of(&format!("holds {one} 5 {two} 4")),
            Some([Some(5), Some(4), None, None])
        );
        for wrong in [
            "holds",
            "holds 5",
            "hold -",
            &format!("holds {one} 5 {one} 6"),
        ] {
            assert_eq!(holds_of(wrong), None);
        }
    }
}
