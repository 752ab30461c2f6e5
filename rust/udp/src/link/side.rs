//! One side of a link: its sockets by IPv4 or by IPv6.

use std::io;
use std::net::{IpAddr, Ipv4Addr, Ipv6Addr, UdpSocket};

use super::datagram;
use super::error::{LinkError, Step};
use super::system;
use super::{Hears, GROUP, GROUP6, PORT};

/// Multicast DNS packets, those sent by unicast too, have an IP TTL of 255 (RFC 6762 section 11).
const TTL: u32 = 255;

pub struct Side {
    /// The link's own address.
    pub address: IpAddr,
    /// Bound to the group; all is sent by it.
    pub group: UdpSocket,
    /// Bound to what unicast is heard at.
    pub unicast: Vec<UdpSocket>,
    /// The addresses to which another program was bound already.
    pub shared: Vec<IpAddr>,
}

impl Side {
    pub fn ipv4(address: Ipv4Addr, hears: Hears, interface: u32) -> Result<Side, LinkError> {
        let at = match hears {
            Hears::GroupAlone => None,
            Hears::OwnAddress => Some(address),
            Hears::UnicastIfAlone => system::is_port_free()?.then_some(Ipv4Addr::UNSPECIFIED),
        };
        let at: Vec<IpAddr> = at.into_iter().map(IpAddr::V4).collect();
        let shared = shared(&at);
        let group = system::shared_socket(GROUP.into(), interface)?;
        prepare(&group, address).map_err(LinkError::at(Step::Join(address.into())))?;
        Ok(Side {
            address: address.into(),
            group,
            unicast: unicast_sockets(&at, interface)?,
            shared,
        })
    }

    /// The same by IPv6, with other addresses of the interface that unicast is heard at too.
    pub fn ipv6(
        address: Ipv6Addr,
        others: &[Ipv6Addr],
        hears: Hears,
        interface: u32,
    ) -> Result<Side, LinkError> {
        let mut at: Vec<IpAddr> = Vec::new();
        if hears == Hears::OwnAddress {
            at.push(address.into());
            at.extend(
                others
                    .iter()
                    .filter(|one| **one != address)
                    .map(|one| IpAddr::V6(*one)),
            );
        }
        let shared = shared(&at);
        let group = system::shared_socket(GROUP6.into(), interface)?;
        let joined = group
            .join_multicast_v6(&GROUP6, interface)
            .and_then(|()| group.set_multicast_loop_v6(true))
            .and_then(|()| system::prepare_ipv6(&group, interface, TTL));
        joined.map_err(LinkError::at(Step::Join(address.into())))?;
        Ok(Side {
            address: address.into(),
            group,
            unicast: unicast_sockets(&at, interface)?,
            shared,
        })
    }

    pub fn sockets(&self) -> impl Iterator<Item = &UdpSocket> {
        [&self.group].into_iter().chain(&self.unicast)
    }

    /// Sends to the group, from the link's own address.
    pub fn send(&self, packet: &[u8], interface: u32) -> io::Result<()> {
        match self.address {
            IpAddr::V4(_) => self.group.send_to(packet, (GROUP, PORT)).map(|_| ()),
            IpAddr::V6(_) => {
                let group = system::socket_address(GROUP6.into(), interface);
                datagram::send(&self.group, packet, group, self.address, interface)
            }
        }
    }
}

fn shared(addresses: &[IpAddr]) -> Vec<IpAddr> {
    let bound = addresses.iter().filter(|one| system::is_bound(**one));
    bound.copied().collect()
}

fn unicast_sockets(addresses: &[IpAddr], interface: u32) -> Result<Vec<UdpSocket>, LinkError> {
    let sockets = addresses.iter();
    sockets.map(|one| unicast_socket(*one, interface)).collect()
}

/// A socket that hears no group.
pub fn unicast_socket(address: IpAddr, interface: u32) -> Result<UdpSocket, LinkError> {
    let socket = system::shared_socket(address, interface)?;
    let prepared = if address.is_ipv6() {
        system::prepare_ipv6(&socket, interface, TTL)
    } else {
        system::hear_own_groups_only(&socket).and_then(|()| system::tell_destinations(&socket))
    };
    prepared.map_err(LinkError::at(Step::Open))?;
    Ok(socket)
}

fn prepare(socket: &UdpSocket, address: Ipv4Addr) -> io::Result<()> {
    socket.join_multicast_v4(&GROUP, &address)?;
    system::send_by(socket, address)?;
    system::hear_own_groups_only(socket)?;
    system::tell_destinations(socket)?;
    socket.set_ttl(TTL)?;
    socket.set_multicast_ttl_v4(TTL)?;
    socket.set_multicast_loop_v4(true)
}
