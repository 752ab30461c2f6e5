//! Packets and names as a person reads them, for the trace of a list.

use reference::message::{Message, Section};
use reference::name::Name;
use reference::rtype;

pub fn text_of(name: &Name) -> String {
    let labels = name.suffixes().map(|(_, suffix)| {
        let label = &suffix[1..=usize::from(suffix[0])];
        label.escape_ascii().to_string()
    });
    labels.collect::<Vec<_>>().join(".")
}

fn type_word(rtype: u16) -> String {
    match rtype {
        rtype::A => "A".to_string(),
        rtype::PTR => "PTR".to_string(),
        rtype::TXT => "TXT".to_string(),
        rtype::AAAA => "AAAA".to_string(),
        rtype::SRV => "SRV".to_string(),
        rtype::ANY => "ANY".to_string(),
        other => format!("TYPE{other}"),
    }
}

/// A message on one line: its questions, then its records by section.
pub fn packet(bytes: &[u8]) -> String {
    let Ok(message) = Message::read(bytes) else {
        return format!("{} bytes that can't be read", bytes.len());
    };
    let kind = match (message.is_response(), message.is_truncated()) {
        (true, _) => "response",
        (false, true) => "truncated query",
        (false, false) => "query",
    };
    let mut text = vec![kind.to_string()];
    for question in &message.questions {
        let name = text_of(&question.name);
        text.push(format!("{} {name}?", type_word(question.rtype)));
    }
    for record in &message.records {
        let section = match record.section {
            Section::Answer => "",
            Section::Authority => "authority ",
            Section::Additional => "additional ",
        };
        let (kind, owner) = (type_word(record.rtype), text_of(&record.owner));
        let rdata = reference::console::hex(&record.rdata);
        let shown = &rdata[..rdata.len().min(24)];
        text.push(format!(
            "{section}{kind} {owner} ttl {} {shown}",
            record.ttl
        ));
    }
    text.join(", ")
}

#[cfg(test)]
mod tests {
    use super::*;

    #[test]
    fn a_probe_and_noise() {
        let probe = [
            &b"\x00\x00\x00\x00\x00\x01\x00\x00\x00\x01\x00\x00\x04dock\x05local\x00"[..],
            &b"\x00\xff\x00\x01\xc0\x0c\x00\x01\x00\x01\x00\x00\x00\x78\x00\x04\x0a\x00\x00\x07"[..],
        ]
        .concat();
        let words = "query, ANY dock.local?, authority A dock.local ttl 120 0a000007";
        assert_eq!(packet(&probe), words);
        assert_eq!(packet(&probe[..43]), "43 bytes that can't be read");
    }
}
