//! The first line of a recording: the fields of the console's `start`, numbers in decimal and bytes in hex, '-' for what is not there.

use kurgashel::Setup;

#[derive(Clone, Debug, PartialEq, Eq)]
pub struct Start {
    pub now: u64,
    pub draw: u64,
    pub instance: Vec<u8>,
    pub service: Vec<u8>,
    pub protocol: Vec<u8>,
    pub host: Vec<u8>,
    pub domain: Vec<u8>,
    pub port: u16,
    pub txt: Vec<u8>,
    pub a: [u8; 4],
    pub aaaa: Option<[u8; 16]>,
}

impl Start {
    pub fn read(line: &str) -> Option<Start> {
        let mut fields = line.split(' ');
        let mut next = || fields.next();
        let start = Start {
            now: next()?.parse().ok()?,
            draw: next()?.parse().ok()?,
            instance: bytes(next()?)?,
            service: bytes(next()?)?,
            protocol: bytes(next()?)?,
            host: bytes(next()?)?,
            domain: bytes(next()?)?,
            port: next()?.parse().ok()?,
            txt: bytes(next()?)?,
            a: bytes(next()?)?.try_into().ok()?,
            aaaa: match next()? {
                "-" => None,
                field => Some(bytes(field)?.try_into().ok()?),
            },
        };
        next().is_none().then_some(start)
    }

    pub fn line(&self) -> String {
        let labels = [
            &self.instance,
            &self.service,
            &self.protocol,
            &self.host,
            &self.domain,
        ];
        let labels: Vec<String> = labels.iter().map(|label| hex(label)).collect();
        let aaaa = self.aaaa.map_or("-".to_string(), |address| hex(&address));
        format!(
            "{} {} {} {} {} {} {aaaa}",
            self.now,
            self.draw,
            labels.join(" "),
            self.port,
            hex(&self.txt),
            hex(&self.a),
        )
    }

    pub fn setup(&self) -> Setup {
        Setup::new(
            &self.instance,
            &self.service,
            &self.protocol,
            &self.host,
            self.port,
            &self.txt,
            self.a,
            self.aaaa,
        )
        .with_domain(&self.domain)
    }
}

/// Bytes in hex, '-' for none.
fn hex(bytes: &[u8]) -> String {
    if bytes.is_empty() {
        return "-".into();
    }
    bytes.iter().map(|byte| format!("{byte:02x}")).collect()
}

fn bytes(hex: &str) -> Option<Vec<u8>> {
    if hex == "-" {
        return Some(Vec::new());
    }
    let pairs = hex.as_bytes().chunks(2).map(std::str::from_utf8);
    let byte = |pair: Result<&str, _>| match pair {
        Ok(pair) if pair.len() == 2 && !pair.starts_with('+') => u8::from_str_radix(pair, 16).ok(),
        _ => None,
    };
    pairs.map(byte).collect()
}

#[cfg(test)]
pub mod tests {
    use super::*;

    pub const LINE: &str =
        "0 211 626f6f7468 5f766f696365 5f746370 646f636b 6c6f63616c 4000 00 0a000007 -";

    #[test]
    fn a_line_is_read_and_written() {
        let start = Start::read(LINE).unwrap();
        assert_eq!((start.draw, start.port), (211, 4000));
        assert_eq!(
            (&start.instance[..], &start.txt[..]),
            (&b"booth"[..], &[0][..])
        );
        assert_eq!(start.line(), LINE);
        let with_aaaa = format!("{}{}", &LINE[..LINE.len() - 1], "fd".repeat(16));
        assert_eq!(Start::read(&with_aaaa).unwrap().line(), with_aaaa);
    }

    #[test]
    fn what_is_no_such_line() {
        for bad in [
            "",
            &LINE[2..],
            &format!("{LINE} 0"),
            &LINE.replace("4000", "65536"),
            &LINE.replace("0a000007", "0a0007"),
            &LINE.replace("646f636b", "646f63+b"),
            &LINE.replace("646f636b", "646f636"),
        ] {
            assert_eq!(Start::read(bad), None, "{bad}");
        }
    }
}
