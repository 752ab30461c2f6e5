//! What a responder is set up with, in the library's 579 bytes.

/// The bytes of a set-up.
pub const SETUP_BYTES: usize = 579;

/// A set-up: an instance of a service on a host, and its records' data. Nothing is tested here: a start refuses what breaks the rules.
#[derive(Clone)]
pub struct Setup {
    pub(crate) bytes: [u8; SETUP_BYTES],
}

impl Setup {
    /// `instance` is a label of 1 to 63 bytes that a screen can show: UTF-8 (RFC 3629) with none of the bytes 00 to 1F and 7F, so no line feed. `host` is a
    /// label of 1 to 63 bytes, `service` is "_" and a name by RFC 6335, `protocol` "_tcp" or "_udp"; `txt` is 1 to 400 bytes of strings, each behind its
    /// length byte (one zero byte for none). The domain is "local". What breaks these rules is [`Refusal::Setup`](crate::Refusal::Setup) at the start.
    #[allow(clippy::too_many_arguments)]
    pub fn new(
        instance: impl AsRef<[u8]>,
        service: impl AsRef<[u8]>,
        protocol: impl AsRef<[u8]>,
        host: impl AsRef<[u8]>,
        port: u16,
        txt: &[u8],
        a: [u8; 4],
        aaaa: Option<[u8; 16]>,
    ) -> Setup {
        let mut setup = Setup {
            bytes: [0; SETUP_BYTES],
        };
        setup.label(0, 63, instance.as_ref());
        setup.label(64, 16, service.as_ref());
        setup.fixed(81, 4, protocol.as_ref());
        setup.label(85, 63, host.as_ref());
        setup.fixed(149, 5, b"local");
        setup.fixed(154, 2, &port.to_be_bytes());
        setup.fixed(156, 400, &txt[..txt.len().min(400)]);
        setup.fixed(556, 2, &(txt.len().min(65_535) as u16).to_be_bytes());
        setup.fixed(558, 4, &a);
        if let Some(address) = aaaa {
            setup.bytes[562] = 1;
            setup.fixed(563, 16, &address);
        }
        setup
    }

    /// The same with another domain than "local", which a start refuses.
    pub fn with_domain(mut self, domain: impl AsRef<[u8]>) -> Setup {
        self.fixed(149, 5, domain.as_ref());
        self
    }

    /// A label and its length behind it: of one too long, as much as there is room for, with a length that a start refuses.
    fn label(&mut self, at: usize, room: usize, label: &[u8]) {
        let held = label.len().min(room);
        self.bytes[at..at + held].copy_from_slice(&label[..held]);
        self.bytes[at + room] = label.len().min(255) as u8;
    }

    /// A field of a fixed number of bytes: of other bytes than so many, zeros where that would make them right.
    fn fixed(&mut self, at: usize, room: usize, bytes: &[u8]) {
        self.bytes[at..at + room].fill(0);
        if bytes.len() <= room {
            self.bytes[at..at + bytes.len()].copy_from_slice(bytes);
        }
    }
}
