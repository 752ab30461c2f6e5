//! Queries (RFC 6762 section 5): questions of class 1, and the known answers to them (section 7.1). A question may ask for unicast answers (section 5.4).

use kurgashel::OUT_BYTES;

/// A query is kept to what fits one Ethernet frame.
const MOST_QUERY: usize = OUT_BYTES;
const CLASS_IN: u16 = 1;
/// The top bit of a question's class: answers may come by unicast.
const UNICAST: u16 = 0x8000;
const HEADER: usize = 12;

#[derive(Clone, Debug, PartialEq, Eq, PartialOrd, Ord)]
pub struct Question {
    pub name: Vec<u8>,
    pub rtype: u16,
}

/// A record that the asker has, so that no one need send it; `ttl` is what is left, in seconds.
#[derive(Clone, Debug, PartialEq, Eq)]
pub struct KnownAnswer {
    pub name: Vec<u8>,
    pub rtype: u16,
    pub ttl: u32,
    pub rdata: Vec<u8>,
}

/// How answers may come.
#[derive(Clone, Copy, Debug, PartialEq, Eq)]
pub enum Wants {
    Multicast,
    UnicastToo,
}

/// The questions from the first on that fit, then the known answers that still do. Gives the packet and the number of questions in it.
pub fn compose(questions: &[Question], wants: Wants, known: &[KnownAnswer]) -> (Vec<u8>, usize) {
    let mut packet = vec![0; HEADER];
    let class = match wants {
        Wants::Multicast => CLASS_IN,
        Wants::UnicastToo => CLASS_IN | UNICAST,
    };
    let question_bytes = |question| question_bytes(question, class);
    let asked = append(&mut packet, questions.iter().map(question_bytes));
    let told = append(&mut packet, known.iter().map(answer_bytes));
    packet[4..6].copy_from_slice(&(asked as u16).to_be_bytes());
    packet[6..8].copy_from_slice(&(told as u16).to_be_bytes());
    (packet, asked)
}

/// Appends parts up to the first that doesn't fit, and counts them.
fn append(packet: &mut Vec<u8>, parts: impl Iterator<Item = Vec<u8>>) -> usize {
    let mut count = 0;
    for part in parts {
        if packet.len() + part.len() > MOST_QUERY {
            break;
        }
        packet.extend(part);
        count += 1;
    }
    count
}

fn question_bytes(question: &Question, class: u16) -> Vec<u8> {
    let mut bytes = question.name.clone();
    bytes.extend(question.rtype.to_be_bytes());
    bytes.extend(class.to_be_bytes());
    bytes
}

fn answer_bytes(answer: &KnownAnswer) -> Vec<u8> {
    let mut bytes = answer.name.clone();
    bytes.extend(answer.rtype.to_be_bytes());
    bytes.extend(CLASS_IN.to_be_bytes());
    bytes.extend(answer.ttl.to_be_bytes());
    bytes.extend((answer.rdata.len() as u16).to_be_bytes());
    bytes.extend(&answer.rdata);
    bytes
}

#[cfg(test)]
mod tests {
    use super::*;
    use crate::rtype;

    fn question(label: &[u8]) -> Question {
        Question {
            name: crate::name::from_labels(&[label, b"local"]),
            rtype: rtype::A,
        }
    }

    #[test]
    fn one_question() {
        let (packet, asked) = compose(&[question(b"dock")], Wants::Multicast, &[]);
        assert_eq!(asked, 1);
        let expected = b"\0\0\0\0\0\x01\0\0\0\0\0\0\x04dock\x05local\0\0\x01\0\x01";
        assert_eq!(packet, expected);
        let (packet, _) = compose(&[question(b"dock")], Wants::UnicastToo, &[]);
        assert!(packet.ends_with(b"local\0\0\x01\x80\x01"));
    }

    #[test]
    fn a_known_answer_follows_the_questions() {
        let known = KnownAnswer {
            name: question(b"dock").name,
            rtype: rtype::A,
            ttl: 119,
            rdata: vec![10, 0, 0, 7],
        };
        let (packet, _) = compose(&[question(b"dock")], Wants::UnicastToo, &[known]);
        assert_eq!(packet[4..8], [0, 1, 0, 1]);
        // no known answer has the bit
        assert!(packet.ends_with(b"\x04dock\x05local\0\0\x01\0\x01\0\0\0\x77\0\x04\x0a\0\0\x07"));
    }

    #[test]
    fn what_does_not_fit_is_left_out() {
        let long = vec![question(&[b'x'; 63]); 30];
        let (packet, asked) = compose(&long, Wants::Multicast, &[]);
        assert!(packet.len() <= MOST_QUERY);
        assert_eq!(asked, (MOST_QUERY - HEADER) / 75);
        assert_eq!(compose(&[], Wants::Multicast, &[]).0, [0; 12]);
    }
}
