//! "TXT pairs": the lookup of a key in the received TXT, then the factory TXT.

use crate::refusal::Refusal;

/// Which of the two lent buffers held a value.
#[derive(Clone, Copy, Debug, PartialEq, Eq)]
pub enum Source {
    Received,
    Factory,
}

/// "absent, present without value, empty value, or the value itself"
#[derive(Clone, Copy, Debug, PartialEq, Eq)]
pub enum Answer<'a> {
    Absent,
    Present,
    Empty,
    /// `at` counts from the first byte of the buffer that held the value.
    Value {
        source: Source,
        at: usize,
        value: &'a [u8],
    },
}

/// "TXT strings fill the rdata exactly; zero bytes of rdata is allowed."
pub fn is_well_formed(txt: &[u8]) -> bool {
    let mut at = 0;
    while at < txt.len() {
        at += 1 + usize::from(txt[at]);
    }
    at == txt.len()
}

/// Refusal 9: "TXT key asked for is empty or has a byte outside 0x20..0x7E or
/// an "=""
fn is_askable(key: &[u8]) -> bool {
    !key.is_empty()
        && key
            .iter()
            .all(|byte| (0x20..=0x7E).contains(byte) && *byte != b'=')
}

/// The strings of a well-formed TXT, each with the offset of its first byte.
fn strings(txt: &[u8]) -> impl Iterator<Item = (usize, &[u8])> {
    let mut at = 0;
    std::iter::from_fn(move || {
        let start = at + 1;
        at = start + usize::from(*txt.get(at)?);
        Some((start, &txt[start..at]))
    })
}

/// "The first string whose key matches, ASCII case ignored"
fn find<'a>(key: &[u8], txt: &'a [u8], source: Source) -> Answer<'a> {
    for (at, string) in strings(txt) {
        let equals_sign = string.iter().position(|byte| *byte == b'=');
        let string_key = &string[..equals_sign.unwrap_or(string.len())];
        // "Empty strings and strings starting with "=" are skipped."
        if string_key.is_empty() || !string_key.eq_ignore_ascii_case(key) {
            continue;
        }
        return match equals_sign {
            None => Answer::Present,
            Some(sign) if sign + 1 == string.len() => Answer::Empty,
            Some(sign) => Answer::Value {
                source,
                at: at + sign + 1,
                value: &string[sign + 1..],
            },
        };
    }
    Answer::Absent
}

/// "The mask asks the received TXT and then its factory TXT when absent [...]
/// Both must be well formed." Tests 9 first, then 6.
pub fn lookup<'a>(
    key: &[u8],
    received: &'a [u8],
    factory: &'a [u8],
) -> Result<Answer<'a>, Refusal> {
    if !is_askable(key) {
        return Err(Refusal::Key);
    }
    if !is_well_formed(received) || !is_well_formed(factory) {
        return Err(Refusal::Malformed);
    }
    Ok(match find(key, received, Source::Received) {
        Answer::Absent => find(key, factory, Source::Factory),
        found => found,
    })
}

#[cfg(test)]
mod tests {
    use super::*;

    fn txt(strings: &[&str]) -> Vec<u8> {
        strings
            .iter()
            .flat_map(|string| [&[string.len() as u8], string.as_bytes()].concat())
            .collect()
    }

    #[test]
    fn the_first_key_wins() {
        let received = txt(&["PassReq", "PASSREQ=1"]);
        assert_eq!(lookup(b"passreq", &received, &[]), Ok(Answer::Present));
        let received = txt(&["a=1", "A=2"]);
        assert_eq!(
            lookup(b"A", &received, &[]),
            Ok(Answer::Value {
                source: Source::Received,
                at: 3,
                value: b"1"
            })
        );
    }

    #[test]
    fn the_four_answers_of_rfc_6763_section_6_4() {
        let received = txt(&["", "=x", "PassReq", "PlugIns=", "PlugIns=JPEG,MPEG2,MPEG4"]);
        assert_eq!(lookup(b"absent", &received, &[]), Ok(Answer::Absent));
        assert_eq!(lookup(b"PassReq", &received, &[]), Ok(Answer::Present));
        assert_eq!(lookup(b"PlugIns", &received, &[]), Ok(Answer::Empty));
        let factory = txt(&["a", "k=v=w"]);
        assert_eq!(
            lookup(b"K", &received, &factory),
            Ok(Answer::Value {
                source: Source::Factory,
                at: 5,
                value: b"v=w"
            })
        );
    }

    #[test]
    fn a_prefix_is_no_match() {
        let received = txt(&["keys=1", "ke=2"]);
        assert_eq!(lookup(b"key", &received, &[]), Ok(Answer::Absent));
    }

    #[test]
    fn present_or_empty_does_not_fall_through() {
        let factory = txt(&["k=v"]);
        assert_eq!(lookup(b"k", &txt(&["k"]), &factory), Ok(Answer::Present));
        assert_eq!(lookup(b"k", &txt(&["k="]), &factory), Ok(Answer::Empty));
        assert_eq!(lookup(b"k", &[], &txt(&["k"])), Ok(Answer::Present));
    }

    #[test]
    fn refusals_nine_before_six() {
        assert_eq!(lookup(b"", &[1], &[]), Err(Refusal::Key));
        assert_eq!(lookup(b"a=", &[], &[]), Err(Refusal::Key));
        assert_eq!(lookup(b"\x1f", &[], &[]), Err(Refusal::Key));
        assert_eq!(lookup(b"\x7f", &[], &[]), Err(Refusal::Key));
        assert_eq!(lookup(b" ~", &[], &[0]), Ok(Answer::Absent));
        assert_eq!(lookup(b"a", &[1], &[]), Err(Refusal::Malformed));
        assert_eq!(
            lookup(b"a", &txt(&["a=1"]), &[2, 0]),
            Err(Refusal::Malformed)
        );
    }
}
