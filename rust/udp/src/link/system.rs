//! The system's calls that the standard library does not have, by Linux's numbers: a socket whose port is shared, and multicast options.

use std::io;
use std::mem::size_of;
use std::net::{IpAddr, Ipv4Addr, Ipv6Addr, SocketAddr, SocketAddrV4, SocketAddrV6, UdpSocket};
use std::os::fd::{AsRawFd, FromRawFd, OwnedFd};

use super::error::{LinkError, Step};
use super::PORT;

pub const AF_INET: i32 = 2;
const AF_INET6: i32 = 10;
const SOCK_DGRAM: i32 = 2;
pub const SOCK_CLOEXEC: i32 = 0o2000000;
const SOL_SOCKET: i32 = 1;
const SO_REUSEADDR: i32 = 2;
const SO_REUSEPORT: i32 = 15;
pub const IPPROTO_IP: i32 = 0;
pub const IP_PKTINFO: i32 = 8;
const IP_MULTICAST_IF: i32 = 32;
const IP_MULTICAST_ALL: i32 = 49;
pub const IPPROTO_IPV6: i32 = 41;
const IPV6_UNICAST_HOPS: i32 = 16;
const IPV6_MULTICAST_IF: i32 = 17;
const IPV6_MULTICAST_HOPS: i32 = 18;
const IPV6_V6ONLY: i32 = 26;
const IPV6_RECVPKTINFO: i32 = 49;
pub const IPV6_PKTINFO: i32 = 50;

/// A socket's address as the system has it: of IPv4 the first 16 bytes, of IPv6 all 28.
#[repr(C)]
pub struct SocketAddress {
    family: u16,
    port: [u8; 2],
    /// IPv4: the address, zeros. IPv6: the flow's label, the address, the number of the interface.
    rest: [u8; 24],
}

impl SocketAddress {
    pub const BLANK: SocketAddress = SocketAddress {
        family: 0,
        port: [0; 2],
        rest: [0; 24],
    };

    pub fn new(address: SocketAddr) -> SocketAddress {
        let mut rest = [0; 24];
        let family = match address {
            SocketAddr::V4(address) => {
                rest[..4].copy_from_slice(&address.ip().octets());
                AF_INET
            }
            SocketAddr::V6(address) => {
                rest[4..20].copy_from_slice(&address.ip().octets());
                rest[20..].copy_from_slice(&address.scope_id().to_ne_bytes());
                AF_INET6
            }
        };
        SocketAddress {
            family: family as u16,
            port: address.port().to_be_bytes(),
            rest,
        }
    }

    /// How many of its bytes the system takes.
    pub fn length(&self) -> u32 {
        if self.family == AF_INET as u16 {
            16
        } else {
            size_of::<SocketAddress>() as u32
        }
    }

    pub fn read(&self) -> SocketAddr {
        let port = u16::from_be_bytes(self.port);
        if self.family == AF_INET as u16 {
            SocketAddrV4::new(Ipv4Addr::from(part(&self.rest, 0)), port).into()
        } else {
            let scope = u32::from_ne_bytes(part(&self.rest, 20));
            SocketAddrV6::new(Ipv6Addr::from(part(&self.rest, 4)), port, 0, scope).into()
        }
    }
}

/// Some bytes from a place on that is inside with all of them.
pub fn part<const N: usize>(bytes: &[u8], at: usize) -> [u8; N] {
    let mut part = [0; N];
    part.copy_from_slice(&bytes[at..at + N]);
    part
}

extern "C" {
    fn socket(domain: i32, kind: i32, protocol: i32) -> i32;
    fn setsockopt(socket: i32, level: i32, name: i32, value: *const u8, length: u32) -> i32;
    fn bind(socket: i32, address: *const u8, length: u32) -> i32;
}

/// A socket bound to an address and the port, which other sockets may be bound to as well. By SO_REUSEADDR, which Avahi, python-zeroconf and systemd-resolved
/// set too: of equal sockets the last that was bound then gets what is sent to one address. A program that sets SO_REUSEPORT alone shares with nothing else.
/// An IPv6 address of a link's own is one on the interface of this number.
pub fn shared_socket(address: IpAddr, interface: u32) -> Result<UdpSocket, LinkError> {
    let owned = open(address.is_ipv6())?;
    share(&owned, SO_REUSEADDR)?;
    let address = socket_address(address, interface);
    if bind_to(&owned, &address).is_err() {
        share(&owned, SO_REUSEPORT)?;
        bind_to(&owned, &address).map_err(LinkError::at(Step::Bind))?;
    }
    Ok(UdpSocket::from(owned))
}

/// An address and the port; one of a link's own on the interface of a number.
pub fn socket_address(address: IpAddr, interface: u32) -> SocketAddr {
    match address {
        IpAddr::V4(address) => (address, PORT).into(),
        IpAddr::V6(address) => {
            let is_links = address.is_multicast() || address.is_unicast_link_local();
            let scope = if is_links { interface } else { 0 };
            SocketAddrV6::new(address, PORT, 0, scope).into()
        }
    }
}

fn share(socket: &OwnedFd, option: i32) -> Result<(), LinkError> {
    let shared = set(socket, SOL_SOCKET, option, 1i32.to_ne_bytes());
    shared.map_err(LinkError::at(Step::Open))
}

/// Whether no other socket of this machine is bound to the port: whether one that is not shared can be (RFC 6762 section 15.1).
pub fn is_port_free() -> Result<bool, LinkError> {
    Ok(bind_to(&open(false)?, &(Ipv4Addr::UNSPECIFIED, PORT).into()).is_ok())
}

/// Whether another socket of this machine is bound to this very address and the port, as the system lists them.
pub fn is_bound(address: IpAddr) -> bool {
    let (file, octets) = match address {
        IpAddr::V4(address) => ("/proc/net/udp", address.octets().to_vec()),
        IpAddr::V6(address) => ("/proc/net/udp6", address.octets().to_vec()),
    };
    let words = octets
        .chunks(4)
        .map(|word| u32::from_ne_bytes(part(word, 0)));
    let hex: String = words.map(|word| format!("{word:08X}")).collect();
    let bound = format!("{hex}:{PORT:04X}");
    let list = std::fs::read_to_string(file).unwrap_or_default();
    list.lines()
        .any(|line| line.split_whitespace().nth(1) == Some(&bound))
}

/// A new socket for UDP. One for IPv6 is for nothing else.
fn open(is_ipv6: bool) -> Result<OwnedFd, LinkError> {
    let family = if is_ipv6 { AF_INET6 } else { AF_INET };
    let failed = LinkError::at(Step::Open);
    let owned = new_socket(family, SOCK_DGRAM | SOCK_CLOEXEC).map_err(&failed)?;
    if is_ipv6 {
        set(&owned, IPPROTO_IPV6, IPV6_V6ONLY, 1i32.to_ne_bytes()).map_err(&failed)?;
    }
    Ok(owned)
}

pub fn new_socket(family: i32, kind: i32) -> io::Result<OwnedFd> {
    // SAFETY: plain numbers; a new descriptor or -1 comes back.
    let descriptor = check(unsafe { socket(family, kind, 0) })?;
    // SAFETY: the descriptor is new and owned by no one else.
    Ok(unsafe { OwnedFd::from_raw_fd(descriptor) })
}

fn bind_to(socket: &OwnedFd, address: &SocketAddr) -> io::Result<()> {
    let address = SocketAddress::new(*address);
    let start = (&raw const address).cast();
    // SAFETY: the address outlives the call, and has at least as many bytes as are told.
    check(unsafe { bind(socket.as_raw_fd(), start, address.length()) })?;
    Ok(())
}

/// Binds a socket of another family to an address in the system's form.
pub fn bind_bytes(socket: &OwnedFd, address: &[u8]) -> io::Result<()> {
    let length = address.len() as u32;
    // SAFETY: the address outlives the call, and its true size is given.
    check(unsafe { bind(socket.as_raw_fd(), address.as_ptr(), length) })?;
    Ok(())
}

/// Multicasts leave by the interface of this address.
pub fn send_by(socket: &UdpSocket, interface: Ipv4Addr) -> io::Result<()> {
    set(socket, IPPROTO_IP, IP_MULTICAST_IF, interface.octets())
}

/// Only what this socket joined is heard, whatever other programs joined.
pub fn hear_own_groups_only(socket: &UdpSocket) -> io::Result<()> {
    set(socket, IPPROTO_IP, IP_MULTICAST_ALL, 0i32.to_ne_bytes())
}

/// Each datagram comes with the address that it was sent to.
pub fn tell_destinations(socket: &UdpSocket) -> io::Result<()> {
    set(socket, IPPROTO_IP, IP_PKTINFO, 1i32.to_ne_bytes())
}

/// Of an IPv6 socket: each datagram comes with the address that it was sent to; what is sent leaves by the interface of a number, with this many hops.
pub fn prepare_ipv6(socket: &UdpSocket, interface: u32, hops: u32) -> io::Result<()> {
    for (name, value) in [
        (IPV6_RECVPKTINFO, 1),
        (IPV6_MULTICAST_IF, interface),
        (IPV6_UNICAST_HOPS, hops),
        (IPV6_MULTICAST_HOPS, hops),
    ] {
        set(socket, IPPROTO_IPV6, name, value.to_ne_bytes())?;
    }
    Ok(())
}

fn set(socket: &impl AsRawFd, level: i32, name: i32, value: [u8; 4]) -> io::Result<()> {
    // SAFETY: the value outlives the call, and its true size is given.
    check(unsafe { setsockopt(socket.as_raw_fd(), level, name, value.as_ptr(), 4) })?;
    Ok(())
}

/// What a call gave, or why it failed.
pub fn check<Number: Default + PartialOrd>(answer: Number) -> io::Result<Number> {
    if answer < Number::default() {
        return Err(io::Error::last_os_error());
    }
    Ok(answer)
}

#[cfg(test)]
mod tests {
    use super::*;

    #[test]
    fn addresses_as_the_system_has_them() {
        let v4: SocketAddr = "10.77.0.1:5353".parse().unwrap();
        let v6 = socket_address("fe80::7".parse().unwrap(), 9);
        assert_eq!(v6.to_string(), "[fe80::7%9]:5353");
        for (address, length) in [(v4, 16), (v6, 28)] {
            let told = SocketAddress::new(address);
            assert_eq!((told.read(), told.length()), (address, length));
        }
        let global = socket_address("fd77::1".parse().unwrap(), 9);
        assert_eq!(global.to_string(), "[fd77::1]:5353");
    }
}
