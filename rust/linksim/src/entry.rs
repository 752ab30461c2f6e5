//! A list's entries: "the start, packet received and tick calls of all docks, refused ones too, and power cuts between them", and
//! "Stops and updates, refused ones too".

use std::rc::Rc;

use reference::console::hex;
use reference::message::Message;
use reference::refusal::Refusal;
use reference::responder::holds::{Address, LEAST_HOLD_DRAW, MOST_HOLD_DRAW};
use reference::responder::Change;
use reference::setup::Setup;
use reference::{txt, MOST_TIME};

pub const LEAST_OUT: usize = 1452;
pub const MOST_START_DRAW: u64 = 250;
pub const LEAST_REPLY_DRAW: u64 = 20;
pub const MOST_REPLY_DRAW: u64 = 120;
pub const UPDATE_GAP: u64 = 6000;
const MOST_TXT: usize = 400;

pub type Packet = Rc<[u8]>;

#[derive(Clone)]
pub struct Entry {
    /// The link's time.
    pub time: u64,
    /// Which of the consoles is called; it runs at most one responder at a time.
    pub console: usize,
    pub call: Call,
}

/// A call with the time on the responder's clock, or a power cut.
#[derive(Clone)]
pub enum Call {
    Start {
        clock: u64,
        draw: u64,
        setup: Rc<Setup>,
        /// Its own, with which all its packets arrive; no part of the call.
        address: Address,
    },
    Receive(Receive),
    Tick {
        clock: u64,
        out: usize,
    },
    Stop {
        clock: u64,
        out: usize,
    },
    Update {
        clock: u64,
        change: Change,
        out: usize,
    },
    Cut,
    /// Groups that ran apart are joined: no call. Demand 3's premises hold from here on.
    Join,
}

/// What a call's refusal goes by, of the responder before it.
#[derive(Clone, Copy, Default)]
pub struct Before {
    /// The time of its last call that was not refused.
    pub last: u64,
    /// The instance claim is lost.
    pub lost: bool,
    /// The time of the last update that was not refused.
    pub updated: Option<u64>,
}

#[derive(Clone)]
pub struct Receive {
    pub clock: u64,
    /// The source address.
    pub from: Address,
    pub port: u64,
    pub draw: u64,
    /// The draw for holding a truncated query.
    pub hold: u64,
    pub packet: Packet,
    /// The lengths of the two out buffers.
    pub outs: [usize; 2],
}

impl Receive {
    fn line(&self) -> String {
        let Receive {
            clock,
            from,
            port,
            draw,
            hold,
            packet,
            outs: [out, unicast],
        } = self;
        let (from, packet) = (hex(from), hex(packet));
        format!("recv {clock} {from} {port} {draw} {hold} {packet} {out} {unicast}")
    }
}

impl Call {
    /// The console's line for this call; a power cut is no call.
    pub fn line(&self) -> String {
        match self {
            Call::Start {
                clock, draw, setup, ..
            } => format!(
                "start {clock} {draw} {} {} {} {} {} {} {} {} {}",
                hex(&setup.instance),
                hex(&setup.service),
                hex(&setup.protocol),
                hex(&setup.host),
                hex(&setup.domain),
                setup.port,
                hex(&setup.txt),
                hex(&setup.a),
                hex(setup.aaaa.as_ref().map_or(&[], |address| &address[..])),
            ),
            Call::Receive(receive) => receive.line(),
            Call::Tick { clock, out } => format!("tick {clock} {out}"),
            Call::Stop { clock, out } => format!("stop {clock} {out}"),
            Call::Update { clock, change, out } => match change {
                Change::Port(port) => format!("update {clock} port {port} {out}"),
                Change::Txt(txt) => format!("update {clock} txt {} {out}", hex(txt)),
            },
            Call::Cut => "# power cut".to_string(),
            Call::Join => "# joined".to_string(),
        }
    }

    pub fn clock(&self) -> u64 {
        match self {
            Call::Start { clock, .. }
            | Call::Tick { clock, .. }
            | Call::Stop { clock, .. }
            | Call::Update { clock, .. } => *clock,
            Call::Receive(receive) => receive.clock,
            Call::Cut | Call::Join => 0,
        }
    }

    /// The number by "Refusal numbers", in their order.
    pub fn refusal(&self, before: Before) -> Option<u8> {
        self.check(before).err().map(Refusal::number)
    }

    fn check(&self, before: Before) -> Result<(), Refusal> {
        let Before {
            last,
            lost,
            updated,
        } = before;
        let test = |passed: bool, refusal| if passed { Ok(()) } else { Err(refusal) };
        match self {
            Call::Start {
                clock, draw, setup, ..
            } => {
                test(*clock <= MOST_TIME, Refusal::Time)?;
                test(*draw <= MOST_START_DRAW, Refusal::Draw)?;
                test(setup.is_legal(), Refusal::Setup)
            }
            Call::Receive(receive) => {
                test((last..=MOST_TIME).contains(&receive.clock), Refusal::Time)?;
                let draws = LEAST_REPLY_DRAW..=MOST_REPLY_DRAW;
                test(draws.contains(&receive.draw), Refusal::Draw)?;
                let draws = LEAST_HOLD_DRAW..=MOST_HOLD_DRAW;
                test(draws.contains(&receive.hold), Refusal::Draw)?;
                let short = receive.outs.iter().any(|out| *out < LEAST_OUT);
                test(!short, Refusal::OutBuffer)?;
                Message::read_from(receive.port, &receive.packet).map(|_| ())
            }
            Call::Tick { clock, out } | Call::Stop { clock, out } => {
                test((last..=MOST_TIME).contains(clock), Refusal::Time)?;
                test(*out >= LEAST_OUT, Refusal::OutBuffer)
            }
            Call::Update { clock, change, out } => {
                test((last..=MOST_TIME).contains(clock), Refusal::Time)?;
                test(*out >= LEAST_OUT, Refusal::OutBuffer)?;
                let legal = match change {
                    Change::Port(_) => true,
                    Change::Txt(txt) => {
                        (1..=MOST_TXT).contains(&txt.len()) && txt::is_well_formed(txt)
                    }
                };
                test(legal, Refusal::Setup)?;
                test(!lost, Refusal::Lost)?;
                let soon = updated.is_some_and(|updated| *clock < updated + UPDATE_GAP);
                test(!soon, Refusal::TooSoon)
            }
            Call::Cut | Call::Join => Ok(()),
        }
    }
}
