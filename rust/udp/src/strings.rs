//! Character strings of a TXT record (RFC 6763 section 6.1): a length byte, then that many bytes.

use kurgashel::Strings;

/// The TXT data of these strings; a TXT without strings is one empty string. Nothing where a string is over 255 bytes.
pub fn encode(strings: &[String]) -> Option<Vec<u8>> {
    if strings.is_empty() {
        return Some(vec![0]);
    }
    let mut txt = Vec::new();
    for string in strings {
        txt.push(u8::try_from(string.len()).ok()?);
        txt.extend(string.as_bytes());
    }
    Some(txt)
}

/// The keys of well-formed TXT data, in their order, each once with letters folded. Strings without a key have none.
pub fn keys(txt: &[u8]) -> Vec<&[u8]> {
    let mut keys: Vec<&[u8]> = Vec::new();
    for string in Strings::of(txt) {
        let key = string.split(|byte| *byte == b'=').next().unwrap_or(b"");
        if !key.is_empty() && !keys.iter().any(|known| known.eq_ignore_ascii_case(key)) {
            keys.push(key);
        }
    }
    keys
}

#[cfg(test)]
mod tests {
    use super::*;

    #[test]
    fn strings_become_txt_data() {
        assert_eq!(encode(&[]), Some(vec![0]));
        let strings = ["room=3".to_string(), String::new(), "passreq".to_string()];
        assert_eq!(
            encode(&strings).unwrap(),
            b"\x06room=3\x00\x07passreq".to_vec()
        );
        assert!(encode(&["x".repeat(255)]).is_some());
        assert!(encode(&["x".repeat(256)]).is_none());
    }

    #[test]
    fn a_key_is_listed_once() {
        let txt = b"\x06room=3\x00\x05=lost\x06ROOM=4\x07passreq\x02a=";
        assert_eq!(keys(txt), [&b"room"[..], b"passreq", b"a"]);
        assert_eq!(keys(&[0]), [&b""[..]; 0]);
        assert_eq!(keys(&[]), [&b""[..]; 0]);
    }

    #[test]
    fn a_string_that_is_cut_has_no_key() {
        assert_eq!(keys(b"\x03a=1\x09b=2"), [b"a"]);
    }
}
