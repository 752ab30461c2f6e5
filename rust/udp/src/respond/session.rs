//! One start of the library on one link: packets in, due steps, packets out.

use std::error::Error;
use std::io::{self, Write};
use std::os::fd::BorrowedFd;

use kurgashel::{Arrival, Event, OutBuffers, Refusal, Responder, OUT_BYTES};

use super::control::Order;
use super::report::{claims, Claims, Report};
use crate::clock::Clock;
use crate::draw::{self, Draws};
use crate::link::{Dropped, Header, Interface, Link, LinkError};
use crate::recording::Recording;
use crate::refusal::{text, Tally};
use crate::strings;

/// How many packets of one link are taken before another link's turn.
const MOST_AT_ONCE: usize = 16;

/// What all sessions share.
pub struct Tools {
    pub clock: Clock,
    pub draws: Draws,
    pub verbose: bool,
    pub refused: Tally,
    /// Of sessions that are over.
    pub dropped: Dropped,
}

/// Why a session can't go on: its link, after which another may begin, or else what ends the program.
pub enum Trouble {
    Link(LinkError),
    Other(Box<dyn Error>),
}

impl From<LinkError> for Trouble {
    fn from(error: LinkError) -> Trouble {
        Trouble::Link(error)
    }
}

impl From<io::Error> for Trouble {
    fn from(error: io::Error) -> Trouble {
        Trouble::Other(error.into())
    }
}

impl From<String> for Trouble {
    fn from(error: String) -> Trouble {
        Trouble::Other(error.into())
    }
}

pub struct Session {
    link: Link,
    responder: Responder,
    recording: Option<Recording>,
    report: Report,
    /// How many conflicts were met since it was last asked.
    conflicts: usize,
}

impl Session {
    pub fn begin(
        link: Link,
        responder: Responder,
        recording: Option<Recording>,
        report: Report,
        now: u64,
    ) -> Result<Session, Trouble> {
        let mut session = Session {
            link,
            responder,
            recording,
            report,
            conflicts: 0,
        };
        if let Some(recording) = &mut session.recording {
            recording.record_claims(&session.responder)?;
        }
        session.tell(now)?;
        Ok(session)
    }

    pub fn claims(&self) -> Claims {
        claims(&self.responder)
    }

    pub fn due(&self) -> Option<u64> {
        self.responder.due()
    }

    pub fn descriptors(&self) -> Vec<BorrowedFd<'_>> {
        self.link.descriptors()
    }

    pub fn dropped(&self) -> Dropped {
        self.link.dropped()
    }

    pub fn summary(&self) -> String {
        self.report.summary()
    }

    pub fn set_up_as(&mut self, interface: Interface) {
        self.link.set_up_as(interface);
    }

    /// How many conflicts were met since this was last asked.
    pub fn take_conflicts(&mut self) -> usize {
        std::mem::take(&mut self.conflicts)
    }

    /// Has the library take the packets that are there, and its due steps.
    pub fn attend(&mut self, tools: &mut Tools) -> Result<(), Trouble> {
        for _ in 0..MOST_AT_ONCE {
            let is_packet = self.hear(tools)?;
            self.take_due_steps(tools)?;
            if !is_packet {
                break;
            }
        }
        for failure in self.link.take_failures() {
            eprintln!("{}{failure}", self.report.mark());
        }
        Ok(())
    }

    /// Has the library take a packet, if one is there.
    fn hear(&mut self, tools: &mut Tools) -> Result<bool, Trouble> {
        let Some(packet) = self.link.take()? else {
            return Ok(false);
        };
        let (now, header) = (tools.clock.now(), packet.header);
        let draws = kurgashel::Draws {
            reply: tools.draws.within(&draw::REPLY)?,
            hold: tools.draws.within(&draw::HOLD)?,
        };
        let arrival = Arrival {
            now,
            from: header.source,
            draws,
            packet: packet.bytes,
        };
        let event = self.recording.is_some().then(|| Event::Packet {
            now,
            from: mapped(&header),
            port: header.source.port(),
            draws,
            packet: packet.bytes.to_vec(),
        });
        let (mut to_all, mut to_sender) = ([0; OUT_BYTES], [0; OUT_BYTES]);
        let out = OutBuffers {
            to_all: &mut to_all,
            to_sender: &mut to_sender,
        };
        match self.responder.receive(arrival, out) {
            Ok(sent) => {
                self.send_to_all(&to_all[..sent.to_all])?;
                self.reply(tools, &to_sender[..sent.to_sender], &header);
            }
            Err(refusal) => self.note_refused(tools, &header, refusal),
        }
        if let Some(event) = event {
            self.record(&event)?;
        }
        self.tell(now)?;
        Ok(true)
    }

    /// Records a call that was made, where there is a recording.
    fn record(&mut self, call: &Event) -> io::Result<()> {
        match &mut self.recording {
            Some(recording) => recording.record(call, &self.responder),
            None => Ok(()),
        }
    }

    /// Sends a packet to the group, where there is one.
    fn send_to_all(&mut self, packet: &[u8]) -> Result<(), LinkError> {
        if packet.is_empty() {
            return Ok(());
        }
        self.link.send(packet)
    }

    /// Sends a reply, where there is one, to where its query came from. A failure is the asker's loss alone: an address or port that can't be sent to must
    /// not end the responder.
    fn reply(&self, tools: &Tools, packet: &[u8], to: &Header) {
        if packet.is_empty() {
            return;
        }
        if let (Err(error), true) = (self.link.reply(packet, to), tools.verbose) {
            let (mark, now) = (self.report.mark(), tools.clock.now());
            eprintln!("{mark}{now:6} ms  {error}");
        }
    }

    fn note_refused(&self, tools: &mut Tools, header: &Header, refusal: Refusal) {
        tools.refused.add(refusal);
        if tools.verbose {
            let (mark, now) = (self.report.mark(), tools.clock.now());
            let (source, why) = (header.source, text(refusal));
            eprintln!("{mark}{now:6} ms  packet from {source}: {why}");
        }
    }

    /// Ticks until nothing more is due.
    fn take_due_steps(&mut self, tools: &Tools) -> Result<(), Trouble> {
        let mut out = [0; OUT_BYTES];
        loop {
            let now = tools.clock.now();
            if self.responder.due().is_none_or(|due| now < due) {
                return Ok(());
            }
            let ticked = self.responder.tick(now, &mut out);
            let ticked =
                ticked.map_err(|refusal| format!("a tick was refused: {}", text(refusal)))?;
            self.send_to_all(&out[..ticked.length])?;
            self.record(&Event::Tick { now })?;
            self.tell(now)?;
        }
    }

    /// Changes the data of a record, and announces it where the name is held. Whether it was taken.
    pub fn update(&mut self, tools: &Tools, order: &Order) -> Result<bool, Trouble> {
        let (now, mut out) = (tools.clock.now(), [0; OUT_BYTES]);
        let updated = match order {
            Order::Port(port) => {
                let updated = self.responder.update_port(now, *port, &mut out);
                self.record(&Event::Port { now, port: *port })?;
                updated
            }
            Order::Txt(strings) => match strings::encode(strings) {
                Some(txt) => {
                    let updated = self.responder.update_txt(now, &txt, &mut out);
                    self.record(&Event::Txt { now, txt })?;
                    updated
                }
                None => Err(Refusal::Setup),
            },
        };
        let (is_taken, mark) = (updated.is_ok(), self.report.mark().to_string());
        match updated {
            Ok(length) => {
                self.send_to_all(&out[..length])?;
                writeln!(io::stdout(), "{mark}{now:6} ms  updated   {order}")?;
            }
            Err(refusal) => {
                let why = text(refusal);
                writeln!(io::stdout(), "{mark}{now:6} ms  unchanged {order}: {why}")?;
            }
        }
        self.tell(now)?;
        Ok(is_taken)
    }

    /// Tells all that the names that are held are so no longer.
    pub fn say_goodbye(&mut self, tools: &Tools) -> Result<(), Trouble> {
        let (now, mut out) = (tools.clock.now(), [0; OUT_BYTES]);
        let stopped = self.responder.stop(now, &mut out);
        let length = stopped.map_err(|refusal| format!("a stop was refused: {}", text(refusal)))?;
        self.send_to_all(&out[..length])?;
        self.record(&Event::Stop { now })?;
        if length > 0 {
            let mark = self.report.mark();
            writeln!(io::stdout(), "{mark}{now:6} ms  goodbye")?;
        }
        Ok(())
    }

    fn tell(&mut self, now: u64) -> io::Result<()> {
        let claims = self.claims();
        self.conflicts += self.report.conflicts(claims);
        for line in self.report.changes(now, claims) {
            writeln!(io::stdout(), "{line}")?;
        }
        Ok(())
    }
}

/// Where a packet came from as a trace has it: an IPv4 address mapped to IPv6.
fn mapped(header: &Header) -> std::net::Ipv6Addr {
    match header.source.ip() {
        std::net::IpAddr::V4(address) => address.to_ipv6_mapped(),
        std::net::IpAddr::V6(address) => address,
    }
}
