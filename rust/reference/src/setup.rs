//! "Own records": the set-up, its check (refusal 7), the five records and the
//! two NSEC records, which say what doesn't exist.

use crate::name::Name;
use crate::{rtype, txt};

const MOST_LABEL: usize = 63;
const MOST_SERVICE: usize = 15;
const MOST_TXT: usize = 400;

/// The labels without their length bytes, and the data.
#[derive(Clone, Debug, Default)]
pub struct Setup {
    pub instance: Vec<u8>,
    pub service: Vec<u8>,
    pub protocol: Vec<u8>,
    pub host: Vec<u8>,
    pub domain: Vec<u8>,
    pub port: u16,
    pub txt: Vec<u8>,
    pub a: [u8; 4],
    pub aaaa: Option<[u8; 16]>,
}

/// The two names that are claimed.
#[derive(Clone, Copy, Debug, PartialEq, Eq)]
pub enum ClaimName {
    Instance,
    Host,
}

/// The five records and the two NSEC, in the order they have in responses.
#[derive(Clone, Copy, Debug, PartialEq, Eq)]
pub enum Kind {
    Ptr,
    Srv,
    Txt,
    A,
    Aaaa,
    InstanceNsec,
    HostNsec,
}

pub const KINDS: usize = 7;

#[derive(Clone, Debug)]
pub enum Data {
    Pointer(Name),
    Service {
        port: u16,
        target: Name,
    },
    Bytes(Vec<u8>),
    /// The next name of an NSEC, and its window block.
    Negative {
        next: Name,
        window: Vec<u8>,
    },
}

#[derive(Clone, Debug)]
pub struct OwnRecord {
    pub kind: Kind,
    pub owner: Name,
    pub data: Data,
}

impl Kind {
    pub fn rtype(self) -> u16 {
        match self {
            Kind::Ptr => rtype::PTR,
            Kind::Srv => rtype::SRV,
            Kind::Txt => rtype::TXT,
            Kind::A => rtype::A,
            Kind::Aaaa => rtype::AAAA,
            Kind::InstanceNsec | Kind::HostNsec => rtype::NSEC,
        }
    }

    /// "PTR ([...] TTL 4500), SRV ([...] TTL 120), TXT (4500), A (120), AAAA (120
    /// [...])"; of NSEC "that of the claim's shorter-lived record, 120"
    pub fn ttl(self) -> u32 {
        match self {
            Kind::Ptr | Kind::Txt => 4500,
            Kind::Srv | Kind::A | Kind::Aaaa => 120,
            Kind::InstanceNsec | Kind::HostNsec => 120,
        }
    }

    /// The claim a record goes with; PTR only goes along with its announcements.
    pub fn claim(self) -> ClaimName {
        match self {
            Kind::Ptr | Kind::Srv | Kind::Txt | Kind::InstanceNsec => ClaimName::Instance,
            Kind::A | Kind::Aaaa | Kind::HostNsec => ClaimName::Host,
        }
    }

    /// PTR is "neither probed for nor in conflict"; "NSEC never conflicts nor
    /// stands in a probe".
    pub fn is_claimed(self) -> bool {
        self != Kind::Ptr && !self.is_negative()
    }

    pub fn is_negative(self) -> bool {
        matches!(self, Kind::InstanceNsec | Kind::HostNsec)
    }
}

impl OwnRecord {
    /// The rdata with its name expanded.
    pub fn rdata(&self) -> Vec<u8> {
        match &self.data {
            Data::Pointer(name) => name.wire().to_vec(),
            Data::Service { port, target } => [&srv_numbers(*port)[..], target.wire()].concat(),
            Data::Bytes(bytes) => bytes.clone(),
            Data::Negative { next, window } => [next.wire(), window].concat(),
        }
    }
}

/// The window block of these types: the window's number, the length of the
/// bitmap and the bitmap, which "has no trailing zero bytes".
fn window(types: &[u16]) -> Vec<u8> {
    let mut bitmap = vec![0_u8; 32];
    for rtype in types {
        bitmap[usize::from(rtype / 8)] |= 0x80 >> (rtype % 8);
    }
    while bitmap.last() == Some(&0) {
        bitmap.pop();
    }
    [vec![0, bitmap.len() as u8], bitmap].concat()
}

/// "SRV (priority and weight 0 [...])" and the port.
pub fn srv_numbers(port: u16) -> [u8; 6] {
    let [high, low] = port.to_be_bytes();
    [0, 0, 0, 0, high, low]
}

/// "The service label is "_" and 1..15 letters, digits or hyphens, with a
/// letter, no hyphen first, last or doubled (RFC 6335)."
fn is_service_label(label: &[u8]) -> bool {
    let Some((b'_', service)) = label.split_first() else {
        return false;
    };
    (1..=MOST_SERVICE).contains(&service.len())
        && service
            .iter()
            .all(|byte| byte.is_ascii_alphanumeric() || *byte == b'-')
        && service.iter().any(u8::is_ascii_alphabetic)
        && !service.starts_with(b"-")
        && !service.ends_with(b"-")
        && !service.windows(2).any(|pair| pair == b"--")
}

/// "The next label is exactly "_tcp" or "_udp", and every own name ends in the
/// label "local"."
pub fn is_service_name(service: &[u8], protocol: &[u8], domain: &[u8]) -> bool {
    is_service_label(service) && (protocol == b"_tcp" || protocol == b"_udp") && domain == b"local"
}

/// The length of the UTF-8 form that `bytes` begin with, by the syntax of RFC
/// 3629, section 4: no overlong form, no surrogate, nothing past U+10FFFF.
fn utf8_form(bytes: &[u8]) -> Option<usize> {
    match bytes {
        [0x00..=0x7F, ..] => Some(1),
        [0xC2..=0xDF, 0x80..=0xBF, ..] => Some(2),
        [0xE0, 0xA0..=0xBF, 0x80..=0xBF, ..] => Some(3),
        [0xE1..=0xEC, 0x80..=0xBF, 0x80..=0xBF, ..] => Some(3),
        [0xED, 0x80..=0x9F, 0x80..=0xBF, ..] => Some(3),
        [0xEE..=0xEF, 0x80..=0xBF, 0x80..=0xBF, ..] => Some(3),
        [0xF0, 0x90..=0xBF, 0x80..=0xBF, 0x80..=0xBF, ..] => Some(4),
        [0xF1..=0xF3, 0x80..=0xBF, 0x80..=0xBF, 0x80..=0xBF, ..] => Some(4),
        [0xF4, 0x80..=0x8F, 0x80..=0xBF, 0x80..=0xBF, ..] => Some(4),
        _ => None,
    }
}

/// An instance label "is valid UTF-8 by RFC 3629 [...] and has no byte
/// 0x00..0x1F or 0x7F, as RFC 6763 section 4.1.1 asks".
fn can_be_shown(mut label: &[u8]) -> bool {
    while let Some(first) = label.first() {
        if matches!(first, 0x00..=0x1F | 0x7F) {
            return false;
        }
        match utf8_form(label) {
            Some(length) => label = &label[length..],
            None => return false,
        }
    }
    true
}

impl Setup {
    /// Whether names and data keep the rules of "Own records".
    pub fn is_legal(&self) -> bool {
        (1..=MOST_LABEL).contains(&self.instance.len())
            && can_be_shown(&self.instance)
            && (1..=MOST_LABEL).contains(&self.host.len())
            && is_service_name(&self.service, &self.protocol, &self.domain)
            && (1..=MOST_TXT).contains(&self.txt.len())
            && txt::is_well_formed(&self.txt)
    }

    pub fn service_name(&self) -> Name {
        Name::from_labels(&[&self.service, &self.protocol, &self.domain])
    }

    pub fn instance_name(&self) -> Name {
        Name::from_labels(&[&self.instance, &self.service, &self.protocol, &self.domain])
    }

    pub fn host_name(&self) -> Name {
        Name::from_labels(&[&self.host, &self.domain])
    }

    pub fn claim_name(&self, claim: ClaimName) -> Name {
        match claim {
            ClaimName::Instance => self.instance_name(),
            ClaimName::Host => self.host_name(),
        }
    }

    /// The own records in the order PTR, SRV, TXT, A, AAAA; AAAA may be missing.
    pub fn records(&self) -> Vec<OwnRecord> {
        let mut records = vec![
            OwnRecord {
                kind: Kind::Ptr,
                owner: self.service_name(),
                data: Data::Pointer(self.instance_name()),
            },
            OwnRecord {
                kind: Kind::Srv,
                owner: self.instance_name(),
                data: Data::Service {
                    port: self.port,
                    target: self.host_name(),
                },
            },
            OwnRecord {
                kind: Kind::Txt,
                owner: self.instance_name(),
                data: Data::Bytes(self.txt.clone()),
            },
            OwnRecord {
                kind: Kind::A,
                owner: self.host_name(),
                data: Data::Bytes(self.a.to_vec()),
            },
        ];
        if let Some(address) = self.aaaa {
            records.push(OwnRecord {
                kind: Kind::Aaaa,
                owner: self.host_name(),
                data: Data::Bytes(address.to_vec()),
            });
        }
        records
    }

    /// The records a claim probes for and that can be in conflict.
    pub fn claimed_records(&self, claim: ClaimName) -> Vec<OwnRecord> {
        let mut records = self.records();
        records.retain(|record| record.kind.is_claimed() && record.kind.claim() == claim);
        records
    }

    /// The NSEC of a claim, "next name equal to the owner", with the types of
    /// the claim's records.
    fn negative(&self, kind: Kind) -> OwnRecord {
        let claimed = self.claimed_records(kind.claim());
        let types: Vec<u16> = claimed.iter().map(|record| record.kind.rtype()).collect();
        OwnRecord {
            kind,
            owner: self.claim_name(kind.claim()),
            data: Data::Negative {
                next: self.claim_name(kind.claim()),
                window: window(&types),
            },
        }
    }

    /// The two NSEC: "It is written after AAAA, the instance's first".
    pub fn negatives(&self) -> [OwnRecord; 2] {
        [Kind::InstanceNsec, Kind::HostNsec].map(|kind| self.negative(kind))
    }

    /// All that can stand in a response, in its order.
    pub fn all_records(&self) -> Vec<OwnRecord> {
        let mut records = self.records();
        records.extend(self.negatives());
        records
    }
}

#[cfg(test)]
pub mod tests {
    use super::*;

    /// The specification's dock: dock.local, 10.0.0.7, with booth._voice._tcp.local.
    pub fn example() -> Setup {
        Setup {
            instance: b"booth".to_vec(),
            service: b"_voice".to_vec(),
            protocol: b"_tcp".to_vec(),
            host: b"dock".to_vec(),
            domain: b"local".to_vec(),
            port: 4000,
            txt: vec![0],
            a: [10, 0, 0, 7],
            aaaa: None,
        }
    }

    #[test]
    fn service_labels() {
        for good in ["_a", "_A-1", "_1a", "_a23456789012345", "_x-y-z"] {
            assert!(is_service_label(good.as_bytes()), "{good}");
        }
        for bad in [
            "",
            "_",
            "a",
            "_1",
            "_-a",
            "_a-",
            "_a--b",
            "_a23456789012346x",
            "_a_b",
            "_a.b",
            "__a",
            "_1-2",
            "_é",
        ] {
            assert!(!is_service_label(bad.as_bytes()), "{bad}");
        }
    }

    /// The bytes around every edge of the syntax.
    const EDGES: [u8; 27] = [
        0x20, 0x41, 0x7e, 0x80, 0x8f, 0x90, 0x9f, 0xa0, 0xbf, 0xc0, 0xc1, 0xc2, 0xdf, 0xe0, 0xe1,
        0xec, 0xed, 0xee, 0xef, 0xf0, 0xf1, 0xf3, 0xf4, 0xf5, 0xf7, 0xf8, 0xff,
    ];

    #[test]
    fn utf8_as_the_standard_library_has_it() {
        let agree = |label: &[u8]| {
            let valid = std::str::from_utf8(label).is_ok();
            assert_eq!(can_be_shown(label), valid, "{label:02x?}");
        };
        for a in EDGES {
            agree(&[a]);
            for b in EDGES {
                agree(&[a, b]);
                for c in EDGES {
                    agree(&[a, b, c]);
                    for d in EDGES {
                        agree(&[a, b, c, d]);
                        agree(&[b'x', a, b, c, d, b'y']);
                    }
                }
            }
        }
        for code in (0x20..=0x10_ffff).filter_map(char::from_u32) {
            if code != '\x7f' {
                agree(code.encode_utf8(&mut [0; 4]).as_bytes());
            }
        }
    }

    #[test]
    fn control_bytes_alone_and_amid_text() {
        for byte in 0x00..=0x7f_u8 {
            let shown = (0x20..0x7f).contains(&byte);
            assert_eq!(can_be_shown(&[byte]), shown);
            assert_eq!(can_be_shown(&[b'a', byte]), shown);
            assert_eq!(can_be_shown(&[0xc3, 0xa9, byte, b'b']), shown);
        }
        // C1 controls, U+FEFF and noncharacters are no such bytes
        for text in [
            "\u{80}",
            "\u{9f}",
            "\u{feff}",
            "\u{fffe}",
            "\u{ffff}",
            "\u{10ffff}",
        ] {
            assert!(can_be_shown(text.as_bytes()));
        }
    }

    #[test]
    fn label_and_txt_lengths() {
        let with = |change: fn(&mut Setup)| {
            let mut setup = example();
            change(&mut setup);
            setup.is_legal()
        };
        assert!(with(|_| ()));
        assert!(!Setup::default().is_legal());
        assert!(with(|s| s.instance = vec![b'i'; 63]));
        assert!(!with(|s| s.instance = vec![b'i'; 64]));
        assert!(!with(|s| s.instance = vec![]));
        assert!(!with(|s| s.instance = b"two\nlines".to_vec()));
        assert!(!with(|s| s.instance = b"caf\xe9".to_vec()));
        assert!(with(|s| s.instance = "Café ☕ 🦀".into()));
        // the host's label may have any bytes
        assert!(with(|s| s.host = vec![0; 63]));
        assert!(with(|s| s.host = vec![0xff; 1]));
        assert!(!with(|s| s.host = vec![b'h'; 256 + 4]));
        assert!(with(|s| s.protocol = b"_udp".to_vec()));
        assert!(!with(|s| s.protocol = b"_TCP".to_vec()));
        assert!(!with(|s| s.domain = b"Local".to_vec()));
        assert!(!with(|s| s.txt = vec![]));
        assert!(with(|s| s.txt = vec![0; 400]));
        assert!(!with(|s| s.txt = vec![0; 401]));
        assert!(!with(|s| s.txt = vec![1]));
    }

    #[test]
    fn the_five_records() {
        let mut setup = example();
        assert_eq!(setup.records().len(), 4);
        setup.aaaa = Some([1; 16]);
        let records = setup.records();
        assert_eq!(records.len(), 5);
        assert_eq!(records[0].owner.wire(), b"\x06_voice\x04_tcp\x05local\x00");
        assert_eq!(
            records[0].rdata(),
            b"\x05booth\x06_voice\x04_tcp\x05local\x00"
        );
        assert_eq!(
            records[1].rdata(),
            b"\x00\x00\x00\x00\x0f\xa0\x04dock\x05local\x00"
        );
    }

    #[test]
    fn the_two_nsec() {
        let mut setup = example();
        let instance = b"\x05booth\x06_voice\x04_tcp\x05local\x00\x00\x05\x00\x00\x80\x00\x40";
        assert_eq!(setup.negatives()[0].rdata(), instance);
        assert_eq!(setup.negatives()[0].owner.wire(), &instance[..25]);
        let host = |window: &[u8]| [b"\x04dock\x05local\x00", window].concat();
        assert_eq!(setup.negatives()[1].rdata(), host(b"\x00\x01\x40"));
        setup.aaaa = Some([0; 16]);
        assert_eq!(setup.negatives()[0].rdata(), instance);
        let both = host(b"\x00\x04\x40\x00\x00\x08");
        assert_eq!(setup.negatives()[1].rdata(), both);
        let kinds = setup.all_records().into_iter().map(|record| record.kind);
        assert_eq!(
            kinds.map(|kind| kind as usize).collect::<Vec<_>>(),
            [0, 1, 2, 3, 4, 5, 6]
        );
    }
}
