//! The interfaces of this machine: number, name, whether it is up, and the subnets of its addresses.

use std::ffi::{c_char, c_void, CStr};
use std::io;
use std::net::{IpAddr, Ipv4Addr, Ipv6Addr};
use std::ptr;

use super::system::{check, AF_INET};
use super::LOOPBACK;

// Linux's flags of an interface.
const IFF_UP: u32 = 1;
const IFF_LOOPBACK: u32 = 8;
const IFF_RUNNING: u32 = 0x40;
const IFF_MULTICAST: u32 = 0x1000;

/// Whether an interface with these flags is up and has a carrier.
pub fn is_running(flags: u32) -> bool {
    flags & IFF_UP != 0 && flags & IFF_RUNNING != 0
}

#[derive(Clone, Copy, Debug, PartialEq, Eq)]
pub struct Subnet {
    pub address: Ipv4Addr,
    pub mask: Ipv4Addr,
}

impl Subnet {
    /// RFC 6762 section 11: `(I & M) == (P & M)`.
    pub fn contains(&self, source: Ipv4Addr) -> bool {
        let part = |address: Ipv4Addr| u32::from(address) & u32::from(self.mask);
        part(self.address) == part(source)
    }
}

/// An IPv6 address that may be used, and its prefix.
#[derive(Clone, Copy, Debug, PartialEq, Eq, PartialOrd, Ord)]
pub struct Subnet6 {
    /// One that is no longer to be used for new things.
    pub is_deprecated: bool,
    /// One that is given up after a while, so that who has it can't be followed.
    pub is_temporary: bool,
    pub address: Ipv6Addr,
    pub length: u32,
}

impl Subnet6 {
    pub fn contains(&self, source: Ipv6Addr) -> bool {
        let part = |address: Ipv6Addr| {
            let behind = 128 - self.length.min(128);
            u128::from(address).checked_shr(behind).unwrap_or(0)
        };
        part(self.address) == part(source)
    }
}

#[derive(Clone, Debug, Default, PartialEq, Eq)]
pub struct Interface {
    pub index: u32,
    pub name: String,
    pub flags: u32,
    /// In the system's order.
    pub subnets: Vec<Subnet>,
    /// In rising order, those that are to be preferred first.
    pub subnets6: Vec<Subnet6>,
}

impl Interface {
    /// All interfaces, as they are set up now.
    pub fn all() -> io::Result<Vec<Interface>> {
        let mut interfaces: Vec<Interface> = Vec::new();
        for part in parts()? {
            match interfaces.iter_mut().find(|one| one.index == part.index) {
                Some(found) => found.subnets.extend(part.subnet),
                None => interfaces.push(Interface {
                    index: part.index,
                    name: part.name,
                    flags: part.flags,
                    subnets: part.subnet.into_iter().collect(),
                    subnets6: Vec::new(),
                }),
            }
        }
        let list = std::fs::read_to_string("/proc/net/if_inet6").unwrap_or_default();
        for (index, subnet) in list.lines().filter_map(ipv6_line) {
            let of_it = |one: &&mut Interface| one.index == index;
            if let Some(found) = interfaces.iter_mut().find(of_it) {
                found.subnets6.push(subnet);
            }
        }
        for interface in &mut interfaces {
            interface.subnets6.sort();
        }
        Ok(interfaces)
    }

    /// The interface that has this address, as it is set up now.
    pub fn of(address: Ipv4Addr) -> io::Result<Option<Interface>> {
        let all = Interface::all()?;
        Ok(all.into_iter().find(|found| found.has(address.into())))
    }

    pub fn is_running(&self) -> bool {
        is_running(self.flags)
    }

    /// Whether it is a link to others on which multicasts are sent.
    pub fn is_multicast(&self) -> bool {
        self.flags & IFF_MULTICAST != 0 && self.flags & IFF_LOOPBACK == 0
    }

    /// Whether an address is its own. On the loopback interface all addresses of its IPv4 subnets are, so that programs on one machine have one each.
    pub fn has(&self, address: IpAddr) -> bool {
        let all = self.index == LOOPBACK;
        match address {
            IpAddr::V4(address) => self
                .subnets
                .iter()
                .any(|subnet| subnet.address == address || all && subnet.contains(address)),
            IpAddr::V6(address) => self.subnets6.iter().any(|one| one.address == address),
        }
    }

    /// Whether a source is in a subnet of it; an address of a link's own always is.
    pub fn is_near(&self, source: IpAddr) -> bool {
        match source {
            IpAddr::V4(source) => self.subnets.iter().any(|subnet| subnet.contains(source)),
            IpAddr::V6(source) => {
                source.is_unicast_link_local()
                    || self.subnets6.iter().any(|subnet| subnet.contains(source))
            }
        }
    }
}

// Linux's flags of an IPv6 address.
const IFA_F_TEMPORARY: u32 = 0x01;
const IFA_F_DADFAILED: u32 = 0x08;
const IFA_F_DEPRECATED: u32 = 0x20;
const IFA_F_TENTATIVE: u32 = 0x40;

/// A line of the system's list of IPv6 addresses: address, interface, prefix length, scope and flags in hex, and a name. Nothing where the address may not be used,
/// or not yet.
fn ipv6_line(line: &str) -> Option<(u32, Subnet6)> {
    let mut fields = line.split_whitespace();
    let address = u128::from_str_radix(fields.next()?, 16).ok()?;
    let mut number = || u32::from_str_radix(fields.next()?, 16).ok();
    let (index, length, _scope, flags) = (number()?, number()?, number()?, number()?);
    let has = |flag| flags & flag != 0;
    let subnet = Subnet6 {
        is_deprecated: has(IFA_F_DEPRECATED),
        is_temporary: has(IFA_F_TEMPORARY),
        address: address.into(),
        length,
    };
    (!has(IFA_F_TENTATIVE) && !has(IFA_F_DADFAILED)).then_some((index, subnet))
}

/// An IPv4 address as the system's list has it.
#[repr(C)]
struct Ipv4Socket {
    family: u16,
    port: [u8; 2],
    address: [u8; 4],
    zero: [u8; 8],
}

/// An entry of the system's list of addresses.
#[repr(C)]
struct Entry {
    next: *const Entry,
    name: *const c_char,
    flags: u32,
    address: *const Ipv4Socket,
    mask: *const Ipv4Socket,
    other_end: *const Ipv4Socket,
    data: *const c_void,
}

extern "C" {
    fn getifaddrs(first: *mut *const Entry) -> i32;
    fn freeifaddrs(first: *const Entry);
    fn if_nametoindex(name: *const c_char) -> u32;
}

/// What one entry of the list says of an interface.
struct Part {
    index: u32,
    name: String,
    flags: u32,
    subnet: Option<Subnet>,
}

fn parts() -> io::Result<Vec<Part>> {
    let mut first = ptr::null();
    // SAFETY: the list's start is written here; it is ours until it is freed below.
    check(unsafe { getifaddrs(&mut first) })?;
    let mut found = Vec::new();
    let mut next = first;
    // SAFETY: each entry is one of the list or null, and the list is not freed yet.
    while let Some(entry) = unsafe { next.as_ref() } {
        found.push(part_of(entry));
        next = entry.next;
    }
    // SAFETY: nothing found points into the list.
    unsafe { freeifaddrs(first) };
    Ok(found)
}

fn part_of(entry: &Entry) -> Part {
    // SAFETY: a name of the list ends with a zero byte.
    let (index, name) = unsafe { (if_nametoindex(entry.name), CStr::from_ptr(entry.name)) };
    let name = name.to_string_lossy();
    Part {
        index,
        // a second address may have a label of its own, such as eth0:1
        name: name.split(':').next().unwrap_or_default().to_string(),
        flags: entry.flags,
        subnet: subnet_of(entry),
    }
}

fn subnet_of(entry: &Entry) -> Option<Subnet> {
    // SAFETY: the list's pointers are null or good while it is not freed; of an address of another family only the family is read.
    let (address, mask) = unsafe {
        if entry.address.is_null() || (*entry.address).family != AF_INET as u16 {
            return None;
        }
        (
            entry.address.as_ref()?.address,
            entry.mask.as_ref()?.address,
        )
    };
    Some(Subnet {
        address: address.into(),
        mask: mask.into(),
    })
}

#[cfg(test)]
mod tests {
    use super::*;

    #[test]
    fn a_source_is_near_by_the_mask() {
        let subnet = Subnet {
            address: Ipv4Addr::new(10, 77, 4, 1),
            mask: Ipv4Addr::new(255, 255, 252, 0),
        };
        for (source, is_near) in [
            ([10, 77, 4, 0], true),
            ([10, 77, 7, 255], true),
            ([10, 77, 3, 255], false),
            ([10, 77, 8, 0], false),
            ([192, 77, 4, 1], false),
        ] {
            assert_eq!(subnet.contains(source.into()), is_near, "{source:?}");
        }
    }

    #[test]
    fn lines_of_ipv6_addresses() {
        let line = "fd770000000000000000000000000001 02 40 00 80     wire";
        let (index, subnet) = ipv6_line(line).unwrap();
        assert_eq!((index, subnet.length), (2, 64));
        assert_eq!(subnet.address, "fd77::1".parse::<Ipv6Addr>().unwrap());
        assert!(!subnet.is_deprecated && !subnet.is_temporary);
        assert!(
            ipv6_line(&line.replace(" 80 ", " a1 "))
                .unwrap()
                .1
                .is_temporary
        );
        assert!(
            ipv6_line(&line.replace(" 80 ", " a0 "))
                .unwrap()
                .1
                .is_deprecated
        );
        for bad in [line.replace(" 80 ", " c0 "), line.replace(" 80 ", " 88 ")] {
            assert_eq!(ipv6_line(&bad), None, "{bad}");
        }
        assert_eq!(ipv6_line("fd77 02"), None);
        for (source, is_near) in [("fd77::9", true), ("fd77:0:0:1::9", false)] {
            assert_eq!(subnet.contains(source.parse().unwrap()), is_near);
        }
        let all = Subnet6 {
            length: 0,
            ..subnet
        };
        assert!(all.contains("2001:db8::1".parse().unwrap()));
    }

    #[test]
    fn the_loopback_interface() {
        let found = Interface::of(Ipv4Addr::LOCALHOST).unwrap().unwrap();
        assert_eq!(found.name, "lo");
        assert!(found.is_running() && !found.is_multicast());
        assert!(found.has(Ipv4Addr::LOCALHOST.into()));
        assert!(found.has([127, 0, 0, 2].into()));
        let other = Interface::of(Ipv4Addr::new(127, 1, 2, 3)).unwrap();
        assert_eq!(other, Some(found.clone()));
        assert!(found.is_near([127, 9, 9, 9].into()));
        assert!(!found.is_near([192, 0, 2, 1].into()));
        assert_eq!(Interface::of(Ipv4Addr::new(192, 0, 2, 199)).unwrap(), None);
    }
}
