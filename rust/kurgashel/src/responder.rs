//! A responder: start, packet received, tick, stop and update over the state's bytes.

use std::net::{IpAddr, SocketAddr};

use crate::setup::Setup;
use crate::Refusal;

/// The port that packets come from and go to.
pub const PORT: u16 = 5353;

/// The bytes of a responder's state.
pub const STATE_BYTES: usize = 850;

/// The least out buffer; no packet is longer.
pub const OUT_BYTES: usize = 1452;

#[repr(C)]
struct Answer {
    refusal: u8,
    more: bool,
    length: usize,
    unicast_length: usize,
}

#[repr(C)]
struct Due {
    due: bool,
    time: u64,
}

extern "C" {
    fn kurgashel_start(
        state: *mut u8,
        state_bytes: usize,
        setup: *const u8,
        setup_bytes: usize,
        now: u64,
        draw: u64,
    ) -> Answer;
    #[allow(clippy::too_many_arguments)]
    fn kurgashel_receive(
        state: *mut u8,
        state_bytes: usize,
        now: u64,
        from: *const u8,
        from_bytes: usize,
        port: u16,
        draw: u64,
        hold: u64,
        packet: *const u8,
        packet_bytes: usize,
        out: *mut u8,
        out_bytes: usize,
        unicast: *mut u8,
        unicast_bytes: usize,
    ) -> Answer;
    fn kurgashel_tick(
        state: *mut u8,
        state_bytes: usize,
        now: u64,
        out: *mut u8,
        out_bytes: usize,
    ) -> Answer;
    fn kurgashel_stop(
        state: *mut u8,
        state_bytes: usize,
        now: u64,
        out: *mut u8,
        out_bytes: usize,
    ) -> Answer;
    fn kurgashel_update_port(
        state: *mut u8,
        state_bytes: usize,
        now: u64,
        port: u16,
        out: *mut u8,
        out_bytes: usize,
    ) -> Answer;
    fn kurgashel_update_txt(
        state: *mut u8,
        state_bytes: usize,
        now: u64,
        txt: *const u8,
        txt_bytes: usize,
        out: *mut u8,
        out_bytes: usize,
    ) -> Answer;
    fn kurgashel_claim(state: *const u8, state_bytes: usize, claim: u8) -> u8;
    fn kurgashel_due(state: *const u8, state_bytes: usize) -> Due;
}

/// How a claim to a name stands.
#[derive(Clone, Copy, Debug, PartialEq, Eq)]
pub enum Claim {
    /// The first probe is to come.
    Waiting,
    /// Up to three probes were sent.
    Probing,
    /// Another device's probe came first; the first probe is to come again.
    Deferred,
    /// The name is this responder's.
    Held,
    /// The name is another device's, for good.
    Lost,
}

impl Claim {
    /// The state in a word, as the specification has it.
    pub fn word(self) -> &'static str {
        match self {
            Claim::Waiting => "waiting",
            Claim::Probing => "probing",
            Claim::Deferred => "deferred",
            Claim::Held => "held",
            Claim::Lost => "lost",
        }
    }
}

/// A packet received: when, where from, and the random numbers that go with it. The same for every packet, a query or a response, of a browser or of another
/// responder.
#[derive(Clone, Copy, Debug, PartialEq, Eq)]
pub struct Arrival<'a> {
    /// When it came, in milliseconds.
    pub now: u64,
    /// The address and port that it came from, as `std::net::UdpSocket::recv_from` gives them. An IPv4 address and the same one mapped to IPv6 are one address.
    pub from: SocketAddr,
    /// Drawn anew for this packet.
    pub draws: Draws,
    /// Its bytes.
    pub packet: &'a [u8],
}

/// The random numbers that go with a packet, in milliseconds. Both are tested, whatever the packet is ([`Refusal::Draw`]).
#[derive(Clone, Copy, Debug, PartialEq, Eq)]
pub struct Draws {
    /// 20 to 120: how long a reply with the shared PTR record waits.
    pub reply: u64,
    /// 400 to 500: how long a query is held whose known answers follow in further packets ([`Responder::receive`]).
    pub hold: u64,
}

/// The out buffers that a packet received is answered in, of at least [`OUT_BYTES`] each.
#[derive(Debug)]
pub struct OutBuffers<'a> {
    /// For the packet that goes to all, by multicast.
    pub to_all: &'a mut [u8],
    /// For the packet that goes to the address and port that the packet received came from, and to no other.
    pub to_sender: &'a mut [u8],
}

/// What a packet received gives: the lengths of the packets to send, 0 for none. Each packet is in the buffer of the same name ([`OutBuffers`]).
#[derive(Clone, Copy, Debug, Default, PartialEq, Eq)]
pub struct Received {
    /// Of the packet that goes to all, by multicast.
    pub to_all: usize,
    /// Of the packet that goes to the address and port that the packet received came from, and to no other.
    pub to_sender: usize,
}

/// What a tick gives: the length of the packet to send, 0 for none, and whether more is due at the same time.
#[derive(Clone, Copy, Debug, PartialEq, Eq)]
pub struct Ticked {
    /// The length of the packet in the out buffer.
    pub length: usize,
    /// Whether to tick again at once.
    pub more: bool,
}

/// A responder for one instance of a service. It can be copied and stored: its state is plain bytes.
#[derive(Clone, Debug)]
pub struct Responder {
    state: [u8; STATE_BYTES],
}

impl Responder {
    /// Begins a responder; `draw` is random, 0 to 250 ms.
    pub fn start(setup: &Setup, now: u64, draw: u64) -> Result<Responder, Refusal> {
        let mut responder = Responder {
            state: [0; STATE_BYTES],
        };
        let (state, setup) = (&mut responder.state, &setup.bytes);
        // SAFETY: each pointer and length are those of one array; the first alone is written, and it is no other's.
        let answer = unsafe {
            kurgashel_start(
                state.as_mut_ptr(),
                state.len(),
                setup.as_ptr(),
                setup.len(),
                now,
                draw,
            )
        };
        Refusal::check(answer.refusal).map(|()| responder)
    }

    /// A responder whose bytes were kept by [`Responder::bytes`]. Any bytes are a state; its calls refuse one that breaks the rules.
    pub fn from_bytes(state: [u8; STATE_BYTES]) -> Responder {
        Responder { state }
    }

    /// The state's bytes.
    pub fn bytes(&self) -> &[u8; STATE_BYTES] {
        &self.state
    }

    /// The state's bytes, for a call of the library that changes them.
    pub(crate) fn bytes_mut(&mut self) -> &mut [u8; STATE_BYTES] {
        &mut self.state
    }

    /// Takes a packet, and writes what is to be sent at once to the out buffers: to all, and to the sender alone what it asked for by unicast and all have heard not
    /// long ago (RFC 6762 section 5.4). A plain resolver, which asks from a port other than 5353, is answered alone.
    ///
    /// A query whose known answers go on in further packets (its TC bit tells, RFC 6762 section 7.2) is held for `draws.hold` ms, and the known answers that come
    /// from its address meanwhile are left out of what it is answered. The responder holds up to four, one for an address. Answering one is a step as any other:
    /// [`Responder::due`] counts it, and a tick takes it.
    ///
    /// ```
    /// # use kurgashel::{Arrival, Draws, OutBuffers, Refusal, Responder, OUT_BYTES};
    /// # use std::net::UdpSocket;
    /// # fn hear(responder: &mut Responder, socket: &UdpSocket, now: u64, draws: Draws) -> std::io::Result<()> {
    /// let (mut packet, mut to_all, mut to_sender) = ([0; 9000], [0; OUT_BYTES], [0; OUT_BYTES]);
    /// let (length, from) = socket.recv_from(&mut packet)?;
    /// let arrival = Arrival { now, from, draws, packet: &packet[..length] };
    /// let out = OutBuffers { to_all: &mut to_all, to_sender: &mut to_sender };
    /// match responder.receive(arrival, out) {
    ///     Ok(sent) => {
    ///         if sent.to_all > 0 {
    ///             socket.send_to(&to_all[..sent.to_all], "224.0.0.251:5353")?;
    ///         }
    ///         if sent.to_sender > 0 {
    ///             socket.send_to(&to_sender[..sent.to_sender], from)?;
    ///         }
    ///     }
    ///     Err(refusal) => eprintln!("{from}: {refusal}"), // nothing has changed
    /// }
    /// # Ok(())
    /// # }
    /// ```
    pub fn receive(&mut self, arrival: Arrival, out: OutBuffers) -> Result<Received, Refusal> {
        let (state, packet) = (&mut self.state, arrival.packet);
        let from = match arrival.from.ip() {
            IpAddr::V4(address) => address.to_ipv6_mapped().octets(),
            IpAddr::V6(address) => address.octets(),
        };
        let (to_all, to_sender) = (out.to_all, out.to_sender);
        // SAFETY: each pointer and length are those of one slice; the three that are written are borrowed for this call alone.
        let answer = unsafe {
            kurgashel_receive(
                state.as_mut_ptr(),
                state.len(),
                arrival.now,
                from.as_ptr(),
                from.len(),
                arrival.from.port(),
                arrival.draws.reply,
                arrival.draws.hold,
                packet.as_ptr(),
                packet.len(),
                to_all.as_mut_ptr(),
                to_all.len(),
                to_sender.as_mut_ptr(),
                to_sender.len(),
            )
        };
        Refusal::check(answer.refusal).map(|()| Received {
            to_all: answer.length,
            to_sender: answer.unicast_length,
        })
    }

    /// Takes the steps that are due, up to the first that sends; its packet is in `out`. Call it when a step is due ([`Responder::due`]), at most 50 ms
    /// late, and again at once where more is due.
    pub fn tick(&mut self, now: u64, out: &mut [u8]) -> Result<Ticked, Refusal> {
        let state = &mut self.state;
        // SAFETY: as for `receive`.
        let answer = unsafe {
            kurgashel_tick(
                state.as_mut_ptr(),
                state.len(),
                now,
                out.as_mut_ptr(),
                out.len(),
            )
        };
        Refusal::check(answer.refusal).map(|()| Ticked {
            length: answer.length,
            more: answer.more,
        })
    }

    /// Ends the responder: says goodbye to what it holds (RFC 6762 section 10.1), and leaves both names lost for good. Gives the length of the packet in `out`, 0
    /// for none, which goes to all.
    pub fn stop(&mut self, now: u64, out: &mut [u8]) -> Result<usize, Refusal> {
        let state = &mut self.state;
        // SAFETY: as for `receive`.
        let answer = unsafe {
            kurgashel_stop(
                state.as_mut_ptr(),
                state.len(),
                now,
                out.as_mut_ptr(),
                out.len(),
            )
        };
        Refusal::check(answer.refusal).map(|()| answer.length)
    }

    /// Changes the port of the SRV record. Where the instance's name is held, the record goes out with its new data (RFC 6762 section 8.4), and once more 1,000 ms
    /// later by a tick; where it is not yet held, the responder begins anew to claim it. At most one update in 6,000 ms. Gives the length of the packet in `out`, 0
    /// for none, which goes to all.
    pub fn update_port(&mut self, now: u64, port: u16, out: &mut [u8]) -> Result<usize, Refusal> {
        let state = &mut self.state;
        // SAFETY: as for `receive`.
        let answer = unsafe {
            kurgashel_update_port(
                state.as_mut_ptr(),
                state.len(),
                now,
                port,
                out.as_mut_ptr(),
                out.len(),
            )
        };
        Refusal::check(answer.refusal).map(|()| answer.length)
    }

    /// Changes the TXT record, as [`Responder::update_port`] changes the port: `txt` is 1 to 400 bytes of strings, each behind its length byte.
    pub fn update_txt(&mut self, now: u64, txt: &[u8], out: &mut [u8]) -> Result<usize, Refusal> {
        let state = &mut self.state;
        // SAFETY: as for `receive`.
        let answer = unsafe {
            kurgashel_update_txt(
                state.as_mut_ptr(),
                state.len(),
                now,
                txt.as_ptr(),
                txt.len(),
                out.as_mut_ptr(),
                out.len(),
            )
        };
        Refusal::check(answer.refusal).map(|()| answer.length)
    }

    /// When the next step is due, if one is to come: before then a tick sends nothing. A packet received may bring it forward.
    pub fn due(&self) -> Option<u64> {
        // SAFETY: the pointer and the length are those of one array, which is only read.
        let next = unsafe { kurgashel_due(self.state.as_ptr(), self.state.len()) };
        next.due.then_some(next.time)
    }

    /// The time of the last call that was taken, or of the start.
    pub fn last(&self) -> u64 {
        let bytes = &self.state[STATE_BYTES - 8..];
        bytes.iter().fold(0, |n, b| n << 8 | u64::from(*b))
    }

    /// How the claim to the instance's name stands.
    pub fn instance(&self) -> Claim {
        self.claim(0)
    }

    /// How the claim to the host's name stands.
    pub fn host(&self) -> Claim {
        self.claim(1)
    }

    fn claim(&self, claim: u8) -> Claim {
        // SAFETY: the pointer and the length are those of one array, which is only read.
        match unsafe { kurgashel_claim(self.state.as_ptr(), self.state.len(), claim) } {
            0 => Claim::Waiting,
            1 => Claim::Probing,
            2 => Claim::Deferred,
            3 => Claim::Held,
            _ => Claim::Lost,
        }
    }
}
