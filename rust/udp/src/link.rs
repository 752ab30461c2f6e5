//! The link: UDP sockets for the groups 224.0.0.251 and ff02::fb and port 5353, on one interface, that share the port with other programs.
//!
//! What is sent to a group reaches every socket that joined it. What is sent to one address reaches one socket alone (RFC 6762 section 15.1): on Linux, of
//! those bound to the port, one that is bound to that very address before those that are bound to all addresses, and of equal ones the last that was bound
//! (those that share by SO_REUSEPORT under one user share the packets out among them). So the group has a socket of its own here, and unicast others.

use std::fmt;
use std::io;
use std::net::{IpAddr, Ipv4Addr, Ipv6Addr, UdpSocket};
use std::os::fd::{AsFd, BorrowedFd};
use std::time::{Duration, Instant};

mod copies;
mod datagram;
mod error;
mod follow;
mod interface;
mod place;
pub mod ready;
mod side;
mod system;
mod watch;

use copies::Copies;
pub use datagram::Header;
pub use error::LinkError;
use error::Step;
pub use follow::{Change, Follow};
pub use interface::Interface;
pub use place::{Choice, Families, Place, Which};
use side::Side;

pub const GROUP: Ipv4Addr = Ipv4Addr::new(224, 0, 0, 251);
pub const GROUP6: Ipv6Addr = Ipv6Addr::new(0xff02, 0, 0, 0, 0, 0, 0, 0xfb);
pub use kurgashel::PORT;

/// The longest wait of `receive`, so that a program that is asked to stop does.
const LONGEST_WAIT: u64 = 200;
/// More than the longest UDP message, so that its true length is known.
const MOST_DATAGRAM: usize = 65536;
/// The bit of a response, in the third byte of a message.
const RESPONSE: u8 = 0x80;
/// How many packets are dropped before who waits for one may look at the clock.
const MOST_DROPPED: usize = 64;
/// The number of the interface by which a machine sends to itself.
const LOOPBACK: u32 = 1;

/// What is heard beside what was sent to the group.
#[derive(Clone, Copy, Debug, PartialEq, Eq)]
pub enum Hears {
    /// Nothing.
    GroupAlone,
    /// What was sent to the link's address, for a responder: its probes ask for unicast, and a plain resolver may ask its address. It is bound to that
    /// address, so that it hears this also beside programs that are bound to all addresses, such as Avahi, whichever began first; those then don't. Of two
    /// that are bound to one address the later hears it: each responder needs an address of its own.
    OwnAddress,
    /// What was sent to any IPv4 address of the interface, for a querier that wants unicast answers, if no other program on this machine has the port then
    /// (RFC 6762 section 15.1): else it might take what is for another. A responder that begins later on this machine hears what is sent to its own address.
    UnicastIfAlone,
}

pub struct Link {
    /// By IPv4, by IPv6, or by both.
    sides: Vec<Side>,
    /// The socket to look at first, of all sides': each in turn.
    next: usize,
    buffer: Vec<u8>,
    interface: Interface,
    copies: Copies,
    dropped: Dropped,
    /// Why sides were given up.
    failures: Vec<LinkError>,
}

/// How many packets were dropped because they may be from beyond the link.
#[derive(Clone, Copy, Debug, Default, PartialEq, Eq)]
pub struct Dropped(u64);

impl std::ops::AddAssign for Dropped {
    fn add_assign(&mut self, more: Dropped) {
        self.0 += more.0;
    }
}

impl fmt::Display for Dropped {
    /// A line, where there were any.
    fn fmt(&self, f: &mut fmt::Formatter) -> fmt::Result {
        if self.0 == 0 {
            return Ok(());
        }
        let why = "their source is in no subnet of this interface";
        writeln!(f, "{} packets were dropped: {why}", self.0)
    }
}

/// A packet, where it came from and where it was sent to.
pub struct Packet<'a> {
    pub header: Header,
    pub bytes: &'a [u8],
}

impl Link {
    /// A link by IPv4 on the interface of this address.
    pub fn open(address: Ipv4Addr, hears: Hears) -> Result<Link, LinkError> {
        let join = LinkError::at(Step::Join(address.into()));
        let found = Interface::of(address).map_err(&join)?;
        let interface = found.ok_or_else(|| join(error::no_such_interface()))?;
        let side = Side::ipv4(address, hears, interface.index)?;
        Ok(Link::of(vec![side], interface))
    }

    /// A link at a place, by what it speaks there.
    pub fn at(place: &Place, interface: Interface, hears: Hears) -> Result<Link, LinkError> {
        let mut sides = Vec::new();
        if let Some(address) = place.ipv4 {
            sides.push(Side::ipv4(address, hears, interface.index)?);
        }
        if let Some(address) = place.ipv6 {
            let others: Vec<Ipv6Addr> = place.aaaa.into_iter().collect();
            sides.push(Side::ipv6(address, &others, hears, interface.index)?);
        }
        Ok(Link::of(sides, interface))
    }

    fn of(sides: Vec<Side>, interface: Interface) -> Link {
        Link {
            sides,
            next: 0,
            buffer: vec![0; MOST_DATAGRAM],
            interface,
            copies: Copies::new(),
            dropped: Dropped::default(),
            failures: Vec::new(),
        }
    }

    /// The next packet that may be taken, or nothing after a wait of so many milliseconds, at least 1, or where the packet was dropped.
    pub fn receive(&mut self, wait: u64) -> Result<Option<Packet<'_>>, LinkError> {
        self.receive_unless(wait, &[])
    }

    /// The same, or nothing as soon as there is something to read from one of other descriptors.
    pub fn receive_unless(
        &mut self,
        wait: u64,
        others: &[BorrowedFd],
    ) -> Result<Option<Packet<'_>>, LinkError> {
        let wait = Duration::from_millis(wait.clamp(1, LONGEST_WAIT));
        let mut descriptors = self.descriptors();
        let own = descriptors.len();
        descriptors.extend(others);
        let first = pause_is_none(ready::first(&descriptors, wait));
        let first = first.map_err(LinkError::at(Step::Receive))?.flatten();
        if first.is_none_or(|first| first >= own) {
            return Ok(None);
        }
        self.take()
    }

    /// Where there is something to read when a packet is there.
    pub fn descriptors(&self) -> Vec<BorrowedFd<'_>> {
        self.sockets().map(AsFd::as_fd).collect()
    }

    fn sockets(&self) -> impl Iterator<Item = &UdpSocket> {
        self.sides.iter().flat_map(Side::sockets)
    }

    /// A packet that is there and may be taken; nothing where none is, or where many were dropped first.
    pub fn take(&mut self) -> Result<Option<Packet<'_>>, LinkError> {
        let failed = LinkError::at(Step::Receive);
        for _ in 0..MOST_DROPPED {
            let Some((length, header)) = self.next_datagram().map_err(&failed)? else {
                return Ok(None);
            };
            if !is_of_link(&header, &self.interface) {
                self.dropped.0 += 1;
            } else if !self.is_copy(length, &header) {
                let bytes = &self.buffer[..length];
                return Ok(Some(Packet { header, bytes }));
            }
        }
        Ok(None)
    }

    /// Whether what is in the buffer is a response to all that was heard by the other family already.
    fn is_copy(&mut self, length: usize, header: &Header) -> bool {
        let packet = &self.buffer[..length];
        let is_response = packet.get(2).is_some_and(|flags| flags & RESPONSE != 0);
        let is_sent_twice = self.sides.len() == 2 && header.destination.is_multicast();
        let is_ipv4 = header.source.is_ipv4();
        is_response && is_sent_twice && self.copies.is_copy(packet, is_ipv4, Instant::now())
    }

    /// A datagram of the sockets, in the buffer: of the first that has one, from the one behind the last that was heard.
    fn next_datagram(&mut self) -> io::Result<Option<(usize, Header)>> {
        let mut buffer = std::mem::take(&mut self.buffer);
        let sockets: Vec<&UdpSocket> = self.sockets().collect();
        let count = sockets.len();
        let mut received = Ok(None);
        let mut next = self.next;
        for turn in 0..count {
            let at = (self.next + turn) % count;
            received = pause_is_none(datagram::receive(sockets[at], &mut buffer));
            if !matches!(received, Ok(None)) {
                next = at + 1;
                break;
            }
        }
        (self.next, self.buffer) = (next, buffer);
        received
    }

    pub fn dropped(&self) -> Dropped {
        self.dropped
    }

    /// The addresses to which another program on this machine was bound when the link was opened: of what is sent there it hears nothing now.
    pub fn shared_addresses(&self) -> Vec<IpAddr> {
        let shared = self.sides.iter().flat_map(|side| &side.shared);
        shared.copied().collect()
    }

    pub fn hears_unicast(&self) -> bool {
        self.sides.iter().any(|side| !side.unicast.is_empty())
    }

    /// From now on only what was sent to the group is heard.
    pub fn hear_group_alone(&mut self) {
        for side in &mut self.sides {
            side.unicast.clear();
        }
    }

    /// The interface is set up so from now on: other subnets are near.
    pub fn set_up_as(&mut self, interface: Interface) {
        self.interface = interface;
    }

    /// Sends to the group, by all that the link speaks. What fails is not spoken any more, since nothing is heard of what was never sent; an error where nothing is
    /// left.
    pub fn send(&mut self, packet: &[u8]) -> Result<(), LinkError> {
        let index = self.interface.index;
        let mut failures = Vec::new();
        self.sides.retain(|side| {
            let sent = side.send(packet, index);
            let sent = sent.map_err(LinkError::at(Step::Send(side.address)));
            sent.map_err(|error| failures.push(error)).is_ok()
        });
        match failures.pop() {
            Some(last) if self.sides.is_empty() => Err(last),
            last => {
                self.failures.extend(failures);
                self.failures.extend(last);
                Ok(())
            }
        }
    }

    /// Why something is not spoken any more, told once.
    pub fn take_failures(&mut self) -> Vec<LinkError> {
        std::mem::take(&mut self.failures)
    }

    /// Sends to where a packet came from, by what it came by, from the link's port, and from the address that it was sent to or, if that was the group, from the
    /// link's. It goes to the link alone, through no router.
    pub fn reply(&self, packet: &[u8], to: &Header) -> Result<(), LinkError> {
        let failed = LinkError::at(Step::Reply(to.source));
        let of_kind = |side: &&Side| side.address.is_ipv4() == to.source.is_ipv4();
        let side = self.sides.iter().find(of_kind);
        let side = side.ok_or_else(|| failed(error::not_near()))?;
        if to.source.is_ipv6() && !self.interface.is_near(to.source.ip()) {
            // for IPv4 the system sees to it
            return Err(failed(error::not_near()));
        }
        let from = if to.destination.is_multicast() {
            side.address
        } else {
            to.destination
        };
        let index = self.interface.index;
        datagram::send(&side.group, packet, to.source, from, index).map_err(failed)
    }
}

/// Whether a packet is taken as one of the link (RFC 6762 section 11). What was sent to the group from port 5353 is, whatever its source: no router passes it
/// on. Of all else the source has to be in a subnet of the interface.
fn is_of_link(header: &Header, interface: &Interface) -> bool {
    let to_group = header.destination == GROUP || header.destination == GROUP6;
    if to_group && header.source.port() == PORT {
        return true;
    }
    let came_by_it = header.interface == interface.index || header.interface == LOOPBACK;
    let to_us = to_group || came_by_it && interface.has(header.destination);
    to_us && interface.is_near(header.source.ip())
}

/// The address of the interface that multicasts leave by.
pub fn default_interface() -> Result<Ipv4Addr, LinkError> {
    let found = UdpSocket::bind((Ipv4Addr::UNSPECIFIED, 0)).and_then(|socket| {
        socket.connect((GROUP, PORT))?;
        socket.local_addr()
    });
    match found.map_err(LinkError::at(Step::FindInterface))?.ip() {
        IpAddr::V4(address) => Ok(address),
        IpAddr::V6(_) => Ok(Ipv4Addr::UNSPECIFIED),
    }
}

/// Nothing where a call came to no end because of a signal, or because what it was to give is no longer there.
fn pause_is_none<T>(answer: io::Result<T>) -> io::Result<Option<T>> {
    use io::ErrorKind::{Interrupted, WouldBlock};
    match answer {
        Err(error) if matches!(error.kind(), WouldBlock | Interrupted) => Ok(None),
        answer => answer.map(Some),
    }
}

#[cfg(test)]
mod tests {
    use super::interface::{Subnet, Subnet6};
    use super::side::unicast_socket;
    use super::*;
    use std::net::SocketAddr;

    /// Whether one of the next packets has these bytes, port 5353 as its source, and this destination.
    fn hears(link: &mut Link, bytes: &[u8], destination: Ipv4Addr) -> bool {
        (0..200).any(|_| {
            let packet = link.receive(5).unwrap();
            packet.is_some_and(|packet| {
                let header = packet.header;
                packet.bytes == bytes
                    && header.source.port() == PORT
                    && header.destination == destination
            })
        })
    }

    /// An address of the loopback interface that no other process's tests use.
    fn own(number: u8) -> Ipv4Addr {
        let [.., high, low] = std::process::id().to_be_bytes();
        Ipv4Addr::new(127, 128 + number, high, low)
    }

    #[test]
    fn several_share_the_port_and_hear_each_other() {
        let mut first = Link::open(Ipv4Addr::LOCALHOST, Hears::GroupAlone).unwrap();
        let mut second = Link::open(own(1), Hears::OwnAddress).unwrap();
        let mut third = Link::open(own(2), Hears::UnicastIfAlone).unwrap();
        assert!(!third.hears_unicast());
        let mark = b"several share the port";
        second.send(mark).unwrap();
        for link in [&mut first, &mut second, &mut third] {
            assert!(hears(link, mark, GROUP));
        }
    }

    /// Sends from a link to port 5353 of an address.
    fn send_to(link: &Link, bytes: &[u8], address: Ipv4Addr) {
        let header = Header {
            source: (address, PORT).into(),
            destination: link.sides[0].address,
            interface: LOOPBACK,
        };
        link.reply(bytes, &header).unwrap();
    }

    #[test]
    fn unicast_to_the_own_address_is_heard_beside_others() {
        let _earlier = unicast_socket(Ipv4Addr::UNSPECIFIED.into(), LOOPBACK).unwrap();
        let mut link = Link::open(own(3), Hears::OwnAddress).unwrap();
        let _later = unicast_socket(Ipv4Addr::UNSPECIFIED.into(), LOOPBACK).unwrap();
        let sender = Link::open(own(4), Hears::GroupAlone).unwrap();
        send_to(&sender, b"to one alone", own(3));
        assert!(hears(&mut link, b"to one alone", own(3)));
        // of two at one address the later hears it, and knows
        assert!(link.shared_addresses().is_empty());
        let mut later = Link::open(own(3), Hears::OwnAddress).unwrap();
        assert_eq!(later.shared_addresses(), [own(3)]);
        send_to(&sender, b"to the later", own(3));
        assert!(hears(&mut later, b"to the later", own(3)));
        later.hear_group_alone();
        send_to(&sender, b"to the earlier", own(3));
        assert!(hears(&mut link, b"to the earlier", own(3)));
        assert!(!hears(&mut later, b"to the earlier", own(3)));
    }

    #[test]
    fn neither_socket_is_heard_alone() {
        let mut link = Link::open(own(5), Hears::OwnAddress).unwrap();
        for _ in 0..20 {
            send_to(&link, b"to us", own(5));
            link.send(b"to all of us").unwrap();
        }
        assert!(hears(&mut link, b"to us", own(5)));
        assert!(hears(&mut link, b"to all of us", GROUP));
        assert!(hears(&mut link, b"to us", own(5)));
    }

    #[test]
    fn a_reply_comes_from_where_the_packet_was_sent_to() {
        let link = Link::open(own(6), Hears::OwnAddress).unwrap();
        let asker = UdpSocket::bind((Ipv4Addr::LOCALHOST, 0)).unwrap();
        asker
            .set_read_timeout(Some(Duration::from_secs(2)))
            .unwrap();
        let port = asker.local_addr().unwrap().port();
        for destination in [GROUP, own(6)] {
            let header = Header {
                source: (Ipv4Addr::LOCALHOST, port).into(),
                destination: destination.into(),
                interface: link.interface.index,
            };
            link.reply(b"a reply", &header).unwrap();
            let mut buffer = [0; 16];
            let (length, source) = asker.recv_from(&mut buffer).unwrap();
            assert_eq!(&buffer[..length], b"a reply");
            assert_eq!(source, (own(6), PORT).into());
        }
    }

    #[test]
    fn what_fails_is_not_spoken_any_more() {
        let mut link = Link::open(own(7), Hears::GroupAlone).unwrap();
        // no address of this machine's, so that nothing can be sent from it
        let nobody = "fe80::dead".parse().unwrap();
        let Ok(side) = Side::ipv6(nobody, &[], Hears::GroupAlone, LOOPBACK) else {
            return; // there is no IPv6 here
        };
        link.sides.push(side);
        link.send(b"by what is left").unwrap();
        assert!(hears(&mut link, b"by what is left", GROUP));
        let told: Vec<String> = link
            .take_failures()
            .iter()
            .map(|one| one.to_string())
            .collect();
        assert_eq!(told.len(), 1);
        assert!(
            told[0].starts_with("sending from fe80::dead failed"),
            "{told:?}"
        );
        link.send(b"by that again").unwrap();
        assert!(link.take_failures().is_empty());
        // where nothing is left it is an error
        link.sides = Side::ipv6(nobody, &[], Hears::GroupAlone, LOOPBACK)
            .into_iter()
            .collect();
        assert!(link.send(b"by nothing").is_err());
    }

    #[test]
    fn an_address_of_no_interface() {
        let error = Link::open(Ipv4Addr::new(192, 0, 2, 199), Hears::GroupAlone).err();
        assert!(error
            .unwrap()
            .to_string()
            .starts_with("no interface of this machine"));
    }

    #[test]
    fn what_was_dropped_is_told() {
        assert_eq!(Dropped(0).to_string(), "");
        let told = "2 packets were dropped: their source is in no subnet of this interface\n";
        assert_eq!(Dropped(2).to_string(), told);
    }

    /// An interface with one subnet of each kind.
    fn interface() -> Interface {
        Interface {
            index: 7,
            subnets: vec![Subnet {
                address: [10, 77, 0, 1].into(),
                mask: [255, 255, 255, 0].into(),
            }],
            subnets6: ["fd77::1", "fe80::1"].map(subnet6).to_vec(),
            ..Interface::default()
        }
    }

    fn subnet6(address: &str) -> Subnet6 {
        Subnet6 {
            is_deprecated: false,
            is_temporary: false,
            address: address.parse().unwrap(),
            length: 64,
        }
    }

    #[test]
    fn what_is_taken_as_of_the_link() {
        let ipv4 = [
            "10.77.0.1",
            "10.77.0.2",
            "10.77.0.9",
            "10.78.0.9",
            "224.0.0.251",
        ];
        let ipv6 = ["fd77::1", "fd77::2", "fd77::9", "fd78::9", "ff02::fb"];
        let links = ["fe80::1", "fe80::2", "fe80::9", "fd78::9", "ff02::fb"];
        for addresses in [ipv4, ipv6, links] {
            let [own, other, near, far, group] =
                addresses.map(|one| one.parse::<IpAddr>().unwrap());
            for (source, port, destination, by, is_taken) in [
                (near, PORT, group, 7, true),
                (far, PORT, group, 7, true),
                (near, 1024, group, 7, true),
                (far, 1024, group, 7, false),
                (near, PORT, own, 7, true),
                (far, PORT, own, 7, false),
                (near, 1024, own, 7, true),
                (far, 1024, own, 7, false),
                (own, 1024, own, LOOPBACK, true),
                (near, 1024, own, 8, false),
                (near, 1024, other, 7, false),
            ] {
                let header = Header {
                    source: SocketAddr::new(source, port),
                    destination,
                    interface: by,
                };
                assert_eq!(is_of_link(&header, &interface()), is_taken, "{header:?}");
            }
        }
    }
}
