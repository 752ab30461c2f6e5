//! Which interfaces are served, and by which of their addresses.

use std::fmt;
use std::net::{Ipv4Addr, Ipv6Addr};

use super::interface::Interface;

/// The interfaces that a program is told to use.
#[derive(Clone, Debug, PartialEq, Eq)]
pub enum Which {
    /// The one of this name.
    Named(String),
    /// The one that has this address, by which it is used.
    At(Ipv4Addr),
    /// Each that is up and multicast.
    All,
}

impl Which {
    /// A name or an IPv4 address.
    pub fn read(text: &str) -> Option<Which> {
        if let Ok(address) = text.parse() {
            return Some(Which::At(address));
        }
        let fits = |byte: u8| byte.is_ascii_graphic() && !b"/:".contains(&byte);
        let is_name = (1..=15).contains(&text.len()) && text.bytes().all(fits);
        is_name.then(|| Which::Named(text.to_string()))
    }
}

impl fmt::Display for Which {
    fn fmt(&self, f: &mut fmt::Formatter) -> fmt::Result {
        match self {
            Which::Named(name) => write!(f, "{name}"),
            Which::At(address) => write!(f, "{address}"),
            Which::All => write!(f, "an interface"),
        }
    }
}

/// By what a program speaks.
#[derive(Clone, Copy, Debug, Default, PartialEq, Eq)]
pub enum Families {
    #[default]
    Both,
    Ipv4,
    Ipv6,
}

#[derive(Clone, Debug, PartialEq, Eq)]
pub struct Choice {
    pub which: Which,
    pub families: Families,
}

/// An interface that is served, and the addresses used there.
#[derive(Clone, Debug, PartialEq, Eq)]
pub struct Place {
    pub index: u32,
    pub name: String,
    /// By which it speaks IPv4.
    pub ipv4: Option<Ipv4Addr>,
    /// By which it speaks IPv6: one of the link's own.
    pub ipv6: Option<Ipv6Addr>,
    /// The host's address there, for its A.
    pub a: Option<Ipv4Addr>,
    /// The host's IPv6 address there, for its AAAA: one that is good beyond the link before one that isn't.
    pub aaaa: Option<Ipv6Addr>,
}

impl fmt::Display for Place {
    fn fmt(&self, f: &mut fmt::Formatter) -> fmt::Result {
        let ipv4 = self.ipv4.map(|address| address.to_string());
        let ipv6 = self.ipv6.map(|address| address.to_string());
        let addresses: Vec<String> = ipv4.into_iter().chain(ipv6).collect();
        write!(f, "{} ({})", self.name, addresses.join(", "))
    }
}

impl Choice {
    /// The places of the interfaces that are to be served now, each with its interface.
    pub fn places(&self, interfaces: &[Interface]) -> Vec<(Place, Interface)> {
        let chosen = interfaces.iter().filter(|one| self.is_chosen(one));
        let places = chosen.filter_map(|one| Some((self.place(one)?, one.clone())));
        places.collect()
    }

    fn is_chosen(&self, interface: &Interface) -> bool {
        match &self.which {
            Which::Named(name) => interface.name == *name,
            Which::At(address) => interface.has((*address).into()),
            Which::All => interface.is_multicast(),
        }
    }

    /// Nothing where an interface can't be served.
    fn place(&self, interface: &Interface) -> Option<Place> {
        let a = match self.which {
            Which::At(address) => Some(address),
            _ => own_ipv4(interface),
        };
        let is_links = |address: &Ipv6Addr| address.is_unicast_link_local();
        let is_told = |address: &Ipv6Addr| !address.is_loopback();
        let all6 = || interface.subnets6.iter().map(|subnet| subnet.address);
        let link_own = all6().find(is_links);
        let beyond = all6().filter(is_told).find(|address| !is_links(address));
        let place = Place {
            index: interface.index,
            name: interface.name.clone(),
            ipv4: a.filter(|_| self.families != Families::Ipv6),
            ipv6: link_own.filter(|_| self.families != Families::Ipv4),
            a,
            aaaa: beyond
                .or(link_own)
                .filter(|_| self.families != Families::Ipv4),
        };
        let speaks = place.ipv4.is_some() || place.ipv6.is_some();
        (interface.is_running() && speaks).then_some(place)
    }
}

/// The interface's first IPv4 address, those of a link's own (169.254/16) last.
fn own_ipv4(interface: &Interface) -> Option<Ipv4Addr> {
    let addresses = || interface.subnets.iter().map(|subnet| subnet.address);
    let beyond = addresses().find(|address| !address.is_link_local());
    beyond.or_else(|| addresses().next())
}

#[cfg(test)]
mod tests {
    use super::super::interface::{Subnet, Subnet6};
    use super::*;

    fn subnet6(address: &str) -> Subnet6 {
        Subnet6 {
            is_deprecated: false,
            is_temporary: false,
            address: address.parse().unwrap(),
            length: 64,
        }
    }

    fn interface(name: &str, ipv4: &[[u8; 4]], ipv6: &[&str]) -> Interface {
        let subnet = |address: &[u8; 4]| Subnet {
            address: (*address).into(),
            mask: [255, 255, 255, 0].into(),
        };
        Interface {
            index: 7,
            name: name.to_string(),
            flags: 0x1043,
            subnets: ipv4.iter().map(subnet).collect(),
            subnets6: ipv6.iter().copied().map(subnet6).collect(),
        }
    }

    fn place(interface: Interface, families: Families) -> Option<Place> {
        let which = Which::All;
        let choice = Choice { which, families };
        let mut places = choice.places(&[interface]);
        places.pop().map(|(place, _)| place)
    }

    #[test]
    fn addresses_of_an_interface() {
        let wire = || {
            interface(
                "wire",
                &[[169, 254, 1, 1], [10, 0, 0, 7]],
                &["fd77::1", "fe80::7"],
            )
        };
        let both = place(wire(), Families::Both).unwrap();
        assert_eq!(both.to_string(), "wire (10.0.0.7, fe80::7)");
        assert_eq!(both.a, Some([10, 0, 0, 7].into()));
        assert_eq!(both.aaaa, "fd77::1".parse().ok());
        let ipv4 = place(wire(), Families::Ipv4).unwrap();
        assert_eq!((ipv4.ipv6, ipv4.aaaa), (None, None));
        let ipv6 = place(wire(), Families::Ipv6).unwrap();
        assert_eq!((ipv6.ipv4, ipv6.a), (None, both.a));
        // one without an address of the link's own does not speak IPv6
        let global = place(interface("wire", &[], &["fd77::1"]), Families::Both);
        assert_eq!(global, None);
        let links = place(interface("wire", &[], &["fe80::7"]), Families::Both).unwrap();
        assert_eq!((links.a, links.aaaa), (None, "fe80::7".parse().ok()));
    }

    #[test]
    fn what_is_chosen() {
        let mut down = interface("down", &[[10, 0, 1, 7]], &[]);
        down.flags = 0x1003;
        let mut lo = interface("lo", &[[127, 0, 0, 1]], &["::1"]);
        (lo.flags, lo.index) = (0x49, 1);
        let all = [interface("wire", &[[10, 0, 0, 7]], &[]), down, lo];
        let names = |which: Which| {
            let families = Families::Both;
            let places = Choice { which, families }.places(&all);
            let names = places.iter().map(|(place, _)| place.to_string());
            names.collect::<Vec<_>>()
        };
        assert_eq!(names(Which::All), ["wire (10.0.0.7)"]);
        let read = |text| Which::read(text).unwrap();
        assert_eq!(names(read("wire")), ["wire (10.0.0.7)"]);
        assert_eq!(names(read("lo")), ["lo (127.0.0.1)"]);
        assert_eq!(names(read("127.0.0.9")), ["lo (127.0.0.9)"]);
        assert_eq!(names(read("10.0.0.7")), ["wire (10.0.0.7)"]);
        for none in ["down", "10.0.1.7", "10.0.0.8", "other"] {
            assert!(names(read(none)).is_empty(), "{none}");
        }
        for bad in ["", "a b", "a/b", "fe80::1", "sixteen-letters-"] {
            assert_eq!(Which::read(bad), None, "{bad}");
        }
    }
}
