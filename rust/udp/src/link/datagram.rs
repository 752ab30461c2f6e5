//! Datagrams with the address that each was sent to, which the standard library does not tell: `recvmsg` and `sendmsg` with Linux's IP_PKTINFO and IPV6_PKTINFO.

use std::io;
use std::mem::size_of;
use std::net::{IpAddr, Ipv4Addr, Ipv6Addr, SocketAddr, UdpSocket};
use std::os::fd::AsRawFd;

use super::system::{check, part, SocketAddress};
use super::system::{IPPROTO_IP, IPPROTO_IPV6, IPV6_PKTINFO, IP_PKTINFO};

/// Where a datagram came from, where it was sent to, and the number of the interface that it came by.
#[derive(Clone, Copy, Debug, PartialEq, Eq)]
pub struct Header {
    pub source: SocketAddr,
    pub destination: IpAddr,
    pub interface: u32,
}

#[repr(C)]
struct Slice {
    start: *mut u8,
    length: usize,
}

/// A control message of the kind IP_PKTINFO or IPV6_PKTINFO, the only ones that are asked for or sent here.
#[repr(C)]
#[derive(Default)]
struct Control {
    length: usize,
    level: i32,
    kind: i32,
    /// IPv4: the interface, its address, the destination. IPv6: the destination, the interface.
    data: [u8; 24],
}

/// What a control message takes before its data.
const CONTROL_HEADER: usize = 16;

impl Control {
    /// Sends from this address by an interface; and how many bytes it takes.
    fn from(address: IpAddr, interface: u32) -> (Control, usize) {
        let mut data = [0; 24];
        let (level, kind, length, room) = match address {
            IpAddr::V4(address) => {
                data[..4].copy_from_slice(&interface.to_ne_bytes());
                data[4..8].copy_from_slice(&address.octets());
                (IPPROTO_IP, IP_PKTINFO, 12, 16)
            }
            IpAddr::V6(address) => {
                data[..16].copy_from_slice(&address.octets());
                data[16..20].copy_from_slice(&interface.to_ne_bytes());
                (IPPROTO_IPV6, IPV6_PKTINFO, 20, 24)
            }
        };
        let length = CONTROL_HEADER + length;
        let control = Control {
            length,
            level,
            kind,
            data,
        };
        (control, CONTROL_HEADER + room)
    }

    /// Where a datagram was sent to, and the interface that it came by.
    fn told(&self) -> Option<(IpAddr, u32)> {
        let number = |at| u32::from_ne_bytes(part(&self.data, at));
        match (self.level, self.kind) {
            (IPPROTO_IP, IP_PKTINFO) => {
                Some((Ipv4Addr::from(part(&self.data, 8)).into(), number(0)))
            }
            (IPPROTO_IPV6, IPV6_PKTINFO) => {
                Some((Ipv6Addr::from(part(&self.data, 0)).into(), number(16)))
            }
            _ => None,
        }
    }
}

#[repr(C)]
struct Message {
    name: *mut SocketAddress,
    name_length: u32,
    slices: *mut Slice,
    slice_count: usize,
    control: *mut Control,
    control_length: usize,
    flags: i32,
}

impl Message {
    /// One slice of bytes, one address, one control message; the pointers are good while the three are.
    fn new(address: &mut SocketAddress, slice: &mut Slice, control: &mut Control) -> Message {
        Message {
            name: address,
            name_length: size_of::<SocketAddress>() as u32,
            slices: slice,
            slice_count: 1,
            control,
            control_length: size_of::<Control>(),
            flags: 0,
        }
    }
}

/// Linux's MSG_DONTWAIT and MSG_DONTROUTE.
const WITHOUT_WAITING: i32 = 0x40;
const WITHOUT_ROUTER: i32 = 0x04;

extern "C" {
    fn recvmsg(socket: i32, message: *mut Message, flags: i32) -> isize;
    fn sendmsg(socket: i32, message: *const Message, flags: i32) -> isize;
}

/// The next datagram of a socket that tells destinations, if it is there: its length and its header.
pub fn receive(socket: &UdpSocket, buffer: &mut [u8]) -> io::Result<(usize, Header)> {
    let mut address = SocketAddress::BLANK;
    let mut control = Control::default();
    let mut slice = Slice {
        start: buffer.as_mut_ptr(),
        length: buffer.len(),
    };
    let mut message = Message::new(&mut address, &mut slice, &mut control);
    // SAFETY: the message's parts outlive the call, and each has its true size.
    let length = check(unsafe { recvmsg(socket.as_raw_fd(), &mut message, WITHOUT_WAITING) })?;
    let told = control.told();
    let (destination, interface) =
        told.ok_or_else(|| io::Error::other("the system tells no destination"))?;
    let header = Header {
        source: address.read(),
        destination,
        interface,
    };
    Ok((length as usize, header))
}

/// Sends to an address on the link of an interface, from one of this machine's own.
pub fn send(
    socket: &UdpSocket,
    packet: &[u8],
    to: SocketAddr,
    from: IpAddr,
    interface: u32,
) -> io::Result<()> {
    let mut address = SocketAddress::new(to);
    let (mut control, control_length) = Control::from(from, interface);
    let mut slice = Slice {
        start: packet.as_ptr().cast_mut(),
        length: packet.len(),
    };
    let name_length = address.length();
    let message = Message {
        name_length,
        control_length,
        ..Message::new(&mut address, &mut slice, &mut control)
    };
    // SAFETY: as for `receive`; sending only reads them.
    check(unsafe { sendmsg(socket.as_raw_fd(), &message, WITHOUT_ROUTER) })?;
    Ok(())
}
