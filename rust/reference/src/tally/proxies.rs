//! The kinds of answers to `proxy`, `question`, `answer` and `cached`.

use super::bytes_of;

pub fn kinds(line: &str, answer: &str) -> Vec<String> {
    let fields: Vec<&str> = line.split(' ').collect();
    let words: Vec<&str> = answer.split(' ').collect();
    let call = fields[0];
    match (&fields[..], &words[..]) {
        (_, ["refused", number]) => vec![format!("{call} refused {number}")],
        (["question", name, _], ["ask", asked]) => {
            let way = if same(name, asked) {
                "as it is"
            } else {
                "mapped"
            };
            vec![format!("question ask {way}{}", length_kind(asked))]
        }
        (["question", _, rtype], ["negative"]) => {
            vec![format!("question negative for type {rtype}")]
        }
        (
            ["answer", owner, rtype, _, ttl, rdata],
            ["record", new_owner, _, class, new_ttl, new],
        ) => {
            let mut kinds = vec![
                format!("answer TTL {ttl} is {new_ttl}"),
                format!("answer of class {class}"),
            ];
            let way = if same(owner, new_owner) {
                "as it is"
            } else {
                "mapped"
            };
            kinds.push(format!("answer of type {rtype}, owner {way}"));
            if !length_kind(new_owner).is_empty() {
                kinds.push(format!("answer owner{}", length_kind(new_owner)));
            }
            if !same(rdata, new) {
                kinds.push(format!("answer of type {rtype}, target mapped"));
            }
            kinds
        }
        (["answer", _, rtype, ..], ["left"]) => vec![format!("answer left of type {rtype}")],
        (["cached", ..], ["record", _, rtype, _, ttl, _]) => vec![
            format!("cached record of type {rtype}"),
            format!("cached record with TTL {ttl}"),
        ],
        _ => vec![format!("{call} {}", words[0])],
    }
}

/// Whether two fields are the same bytes.
fn same(a: &str, b: &str) -> bool {
    a.eq_ignore_ascii_case(b)
}

/// The length of a name where it is the most there can be.
fn length_kind(name: &str) -> &'static str {
    match bytes_of(name).map(|bytes| bytes.len()) {
        Some(255) => " of 255 bytes",
        _ => "",
    }
}
