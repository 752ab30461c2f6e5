//! Domain names in uncompressed form, as the library's lookups take them, and as text. What comes from the network is never shown raw.

use std::fmt::Write;

/// The name of these labels, each of 1..63 bytes.
pub fn from_labels(labels: &[&[u8]]) -> Vec<u8> {
    let mut name = Vec::new();
    for label in labels {
        name.push(label.len() as u8);
        name.extend_from_slice(label);
    }
    name.push(0);
    name
}

/// The labels of an uncompressed name; what lies past its end is left out.
pub fn labels(name: &[u8]) -> Vec<&[u8]> {
    let mut labels = Vec::new();
    let mut rest = name;
    while let Some((length, after)) = rest.split_first().filter(|(length, _)| **length > 0) {
        let (label, after) = after.split_at(after.len().min((*length).into()));
        labels.push(label);
        rest = after;
    }
    labels
}

/// Text as it is, with '\' and what can't be shown as '\ddd' for each byte, so that no packet writes to the terminal.
pub fn shown(bytes: &[u8]) -> String {
    let mut text = String::new();
    let mut rest = bytes;
    while !rest.is_empty() {
        let (valid, invalid, after) = split_utf8(rest);
        push_shown(valid, &mut text);
        escape(invalid, &mut text);
        rest = after;
    }
    text
}

/// The text that bytes begin with, the bytes after it that are none, and the rest.
fn split_utf8(bytes: &[u8]) -> (&str, &[u8], &[u8]) {
    match std::str::from_utf8(bytes) {
        Ok(text) => (text, &[], &[]),
        Err(error) => {
            let (valid, rest) = bytes.split_at(error.valid_up_to());
            let (invalid, after) = rest.split_at(error.error_len().unwrap_or(rest.len()));
            (
                std::str::from_utf8(valid).unwrap_or_default(),
                invalid,
                after,
            )
        }
    }
}

fn push_shown(valid: &str, text: &mut String) {
    for character in valid.chars() {
        if character.is_control() || character == '\\' {
            escape(character.encode_utf8(&mut [0; 4]).as_bytes(), text);
        } else {
            text.push(character);
        }
    }
}

fn escape(bytes: &[u8], text: &mut String) {
    for byte in bytes {
        write!(text, "\\{byte:03}").expect("a string takes all");
    }
}

/// A name as text: labels with dots between them, and a dot inside a label as '\.'.
pub fn text(name: &[u8]) -> String {
    let labels = labels(name);
    let shown: Vec<_> = labels
        .iter()
        .map(|label| shown(label).replace('.', "\\."))
        .collect();
    if shown.is_empty() {
        ".".to_string()
    } else {
        shown.join(".")
    }
}

/// The name of a text: labels with dots between them, one dot at the end or none, in which a backslash makes the next character one of the label, or three digits a
/// byte by its number. Nothing where a label is empty or over 63 bytes, or the name over 255.
pub fn read(text: &str) -> Option<Vec<u8>> {
    let mut labels: Vec<Vec<u8>> = vec![Vec::new()];
    let mut rest = text.bytes();
    while let Some(byte) = rest.next() {
        match byte {
            b'.' => labels.push(Vec::new()),
            b'\\' => labels.last_mut()?.push(escaped(&mut rest)?),
            _ => labels.last_mut()?.push(byte),
        }
    }
    if labels.last()?.is_empty() {
        labels.pop();
    }
    let fits = |label: &Vec<u8>| (1..=63).contains(&label.len());
    let labels: Vec<&[u8]> = labels
        .iter()
        .map(|label| fits(label).then_some(&label[..]))
        .collect::<Option<_>>()?;
    Some(from_labels(&labels)).filter(|name| name.len() <= 255 && !labels.is_empty())
}

/// The byte behind a backslash.
fn escaped(rest: &mut std::str::Bytes) -> Option<u8> {
    let first = rest.next()?;
    if !first.is_ascii_digit() {
        return Some(first);
    }
    let digits = [first, rest.next()?, rest.next()?];
    std::str::from_utf8(&digits).ok()?.parse().ok()
}

/// "_voice._tcp" as its two labels.
pub fn service(text: &str) -> Option<(&str, &str)> {
    let (service, protocol) = text.split_once('.')?;
    let fits = |label: &str| (1..=63).contains(&label.len()) && !label.contains('.');
    (fits(service) && fits(protocol)).then_some((service, protocol))
}

#[cfg(test)]
mod tests {
    use super::*;

    #[test]
    fn labels_to_a_name_and_back() {
        let name = from_labels(&[b"booth", b"_voice", b"_tcp", b"local"]);
        assert_eq!(name, b"\x05booth\x06_voice\x04_tcp\x05local\x00");
        assert_eq!(labels(&name), [&b"booth"[..], b"_voice", b"_tcp", b"local"]);
        assert_eq!(text(&name), "booth._voice._tcp.local");
        assert_eq!(text(b"\x00"), ".");
    }

    #[test]
    fn bytes_past_the_end_are_left_out() {
        assert_eq!(labels(b"\x01a\x00\x01b\x00"), [b"a"]);
        assert_eq!(labels(b"\x05ab"), [b"ab"]);
    }

    #[test]
    fn nothing_raw_reaches_the_terminal() {
        assert_eq!(shown(b"Booth 3"), "Booth 3");
        assert_eq!(shown("Zäh\u{9b}".as_bytes()), "Zäh\\194\\155");
        assert_eq!(shown(b"a\x1b[2J\n\\\xff"), "a\\027[2J\\010\\092\\255");
        assert_eq!(text(b"\x03a.b\x00"), "a\\.b");
    }

    #[test]
    fn a_text_is_read_as_a_name() {
        let name = from_labels(&[b"a.b\\", b"Zimmer 1", b"\xff9"]);
        assert_eq!(read("a\\.b\\\\.Zimmer 1.\\2559"), Some(name.clone()));
        assert_eq!(read(&text(&name)), Some(name));
        assert_eq!(read("example."), Some(from_labels(&[b"example"])));
        let long = "x".repeat(63);
        assert_eq!(read(&long).unwrap().len(), 65);
        assert!(read(&[&long[..], &long, &long, &long[..61]].join(".")).is_some());
        let longer = [&long[..], &long, &long, &long[..62]].join(".");
        for bad in [
            "",
            ".",
            "a..b",
            ".a",
            "a\\",
            "a\\25",
            "a\\256",
            &format!("x{long}"),
            &longer,
        ] {
            assert_eq!(read(bad), None, "{bad}");
        }
    }

    #[test]
    fn a_service_is_two_labels() {
        assert_eq!(service("_voice._tcp"), Some(("_voice", "_tcp")));
        for bad in ["", "_voice", "_voice.", "._tcp", "_voice._tcp.local"] {
            assert_eq!(service(bad), None, "{bad}");
        }
        assert_eq!(service(&format!("_{}._tcp", "v".repeat(63))), None);
    }
}
