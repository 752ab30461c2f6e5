//! Changed data, by lines on standard input.

use std::fmt;
use std::fs::File;
use std::io::{self, ErrorKind, Read};
use std::os::fd::{AsFd, BorrowedFd};
use std::time::Duration;

use crate::link::ready;

/// What a line asks for.
#[derive(Clone, Debug, PartialEq, Eq)]
pub enum Order {
    /// Another port in SRV.
    Port(u16),
    /// Other strings in TXT.
    Txt(Vec<String>),
}

impl Order {
    /// 'port NUMBER', or 'txt' and the strings; in double quotes where a string has spaces.
    pub fn read(line: &str) -> Result<Order, String> {
        let words = words(line).ok_or(format!("a quote is not closed in '{line}'"))?;
        match words.split_first() {
            Some((word, [number])) if word == "port" => number
                .parse()
                .map(Order::Port)
                .map_err(|_| format!("a port can't be '{number}'")),
            Some((word, strings)) if word == "txt" => Ok(Order::Txt(strings.to_vec())),
            _ => Err(format!(
                "'{line}' is neither 'port NUMBER' nor 'txt STRING ..'"
            )),
        }
    }
}

impl fmt::Display for Order {
    fn fmt(&self, f: &mut fmt::Formatter) -> fmt::Result {
        match self {
            Order::Port(port) => write!(f, "port {port}"),
            Order::Txt(strings) => write!(f, "txt {}", strings.join(" ")),
        }
    }
}

/// The words of a line; double quotes keep spaces in one. Nothing where a quote is not closed.
fn words(line: &str) -> Option<Vec<String>> {
    let mut words = Vec::new();
    let (mut word, mut quoted) = (None::<String>, false);
    for character in line.chars() {
        match character {
            '"' => {
                quoted = !quoted;
                word.get_or_insert_default();
            }
            ' ' if !quoted => words.extend(word.take()),
            _ => word.get_or_insert_default().push(character),
        }
    }
    words.extend(word);
    (!quoted).then_some(words)
}

/// Standard input, until it ends.
pub struct Control {
    input: Option<File>,
    /// What was read of a line that is not whole yet.
    begun: Vec<u8>,
}

impl Control {
    /// Reads nothing, unless it is wanted.
    pub fn open(is_wanted: bool) -> io::Result<Control> {
        let open = || io::stdin().as_fd().try_clone_to_owned().map(File::from);
        Ok(Control {
            input: is_wanted.then(open).transpose()?,
            begun: Vec::new(),
        })
    }

    /// Where there is something to read, while it has not ended.
    pub fn descriptor(&self) -> Option<BorrowedFd<'_>> {
        self.input.as_ref().map(AsFd::as_fd)
    }

    /// The whole lines that are there.
    pub fn lines(&mut self) -> io::Result<Vec<String>> {
        match self.read() {
            Err(error) if error.kind() == ErrorKind::Interrupted => Ok(Vec::new()),
            read => read.map(|()| whole_lines(&mut self.begun)),
        }
    }

    /// Reads once, if something is there.
    fn read(&mut self) -> io::Result<()> {
        let Some(input) = &mut self.input else {
            return Ok(());
        };
        if ready::first(&[input.as_fd()], Duration::ZERO)?.is_some() {
            let mut bytes = [0; 4096];
            let count = input.read(&mut bytes)?;
            self.begun.extend(&bytes[..count]);
            if count == 0 {
                self.input = None;
            }
        }
        Ok(())
    }
}

/// Takes the whole lines from the front, without those that are blank.
fn whole_lines(bytes: &mut Vec<u8>) -> Vec<String> {
    let whole = bytes.iter().rposition(|byte| *byte == b'\n');
    let rest = bytes.split_off(whole.map_or(0, |end| end + 1));
    let lines = String::from_utf8_lossy(bytes);
    let lines = lines.lines().map(str::trim).filter(|line| !line.is_empty());
    let lines = lines.map(str::to_string).collect();
    *bytes = rest;
    lines
}

#[cfg(test)]
mod tests {
    use super::*;

    #[test]
    fn orders() {
        assert_eq!(Order::read("port 4001"), Ok(Order::Port(4001)));
        let txt = |strings: &[&str]| Order::Txt(strings.iter().map(|s| s.to_string()).collect());
        assert_eq!(Order::read("txt"), Ok(txt(&[])));
        let line = "txt room=4  PassReq \"note=third floor\" \"\"";
        let strings = ["room=4", "PassReq", "note=third floor", ""];
        assert_eq!(Order::read(line), Ok(txt(&strings)));
        for wrong in ["port", "port 65536", "port 1 2", "stop", "txt \"a"] {
            assert!(Order::read(wrong).is_err(), "{wrong}");
        }
    }

    #[test]
    fn a_line_may_come_in_parts() {
        let mut bytes = b"port 1\n\ntxt a".to_vec();
        assert_eq!(whole_lines(&mut bytes), ["port 1"]);
        assert_eq!(bytes, b"txt a");
        bytes.extend(b"=1\nport 2\n");
        assert_eq!(whole_lines(&mut bytes), ["txt a=1", "port 2"]);
        assert!(bytes.is_empty());
        assert!(whole_lines(&mut bytes).is_empty());
    }
}
