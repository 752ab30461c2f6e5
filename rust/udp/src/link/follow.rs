//! The places that a program works at, followed as interfaces come and go and addresses change.

use std::os::fd::BorrowedFd;

use super::error::{LinkError, Step};
use super::interface::Interface;
use super::place::{Choice, Place};
use super::watch::{Told, Watch};

/// What became of a place.
#[derive(Clone, Debug, PartialEq, Eq)]
pub enum Change {
    /// One that was not there before.
    New(Place, Interface),
    /// Its addresses are others now, or its link was down: all on it has to begin anew (RFC 6762 section 8).
    Anew {
        place: Place,
        interface: Interface,
        was_down: bool,
    },
    /// What the link is to know of the interface, such as its subnets, is another.
    SetUp(Interface),
    /// It is down, or without an address. By its name.
    Gone(String),
}

pub struct Follow {
    choice: Choice,
    watch: Watch,
    places: Vec<(Place, Interface)>,
}

impl Follow {
    /// Nothing is there at first: what is there already is new.
    pub fn open(choice: Choice) -> Result<Follow, LinkError> {
        Ok(Follow {
            choice,
            watch: Watch::open()?,
            places: Vec::new(),
        })
    }

    /// Where there is something to read when something changes.
    pub fn descriptor(&self) -> BorrowedFd<'_> {
        self.watch.descriptor()
    }

    /// What changed by now; nothing where nothing was told. What was told may have changed nothing, or nothing any more: who failed at a place may then try again.
    pub fn changes(&mut self) -> Result<Option<Vec<Change>>, LinkError> {
        let told = self.watch.told()?;
        told.is_any.then(|| self.look(&told)).transpose()
    }

    /// What is there at the beginning, whatever was told by then.
    pub fn first(&mut self) -> Result<Vec<Change>, LinkError> {
        self.watch.told()?;
        self.look(&Told::default())
    }

    fn look(&mut self, told: &Told) -> Result<Vec<Change>, LinkError> {
        let interfaces = Interface::all().map_err(LinkError::at(Step::Watch))?;
        let places = self.choice.places(&interfaces);
        let changes = changes(&self.places, &places, told);
        self.places = places;
        Ok(changes)
    }
}

/// What became of the places of before. A place is known by its interface's name.
fn changes(
    before: &[(Place, Interface)],
    after: &[(Place, Interface)],
    told: &Told,
) -> Vec<Change> {
    let is_in = |name: &str, places: &[(Place, Interface)]| {
        let found = places.iter().find(|(place, _)| place.name == name);
        found.cloned()
    };
    let gone = before
        .iter()
        .filter(|(place, _)| is_in(&place.name, after).is_none());
    let mut changes: Vec<Change> = gone
        .map(|(place, _)| Change::Gone(place.name.clone()))
        .collect();
    for (place, interface) in after {
        let (place, interface) = (place.clone(), interface.clone());
        let was_down = told.was_down(place.index);
        match is_in(&place.name, before) {
            None => changes.push(Change::New(place, interface)),
            Some((known, _)) if was_down || known != place => changes.push(Change::Anew {
                place,
                interface,
                was_down,
            }),
            Some((_, known)) if known != interface => changes.push(Change::SetUp(interface)),
            Some(_) => {}
        }
    }
    changes
}

#[cfg(test)]
mod tests {
    use super::super::interface::Subnet;
    use super::*;

    fn at(name: &str, index: u32, address: [u8; 4], flags: u32) -> (Place, Interface) {
        let place = Place {
            index,
            name: name.into(),
            ipv4: Some(address.into()),
            ipv6: None,
            a: Some(address.into()),
            aaaa: None,
        };
        let interface = Interface {
            index,
            name: name.into(),
            flags,
            subnets: vec![Subnet {
                address: address.into(),
                mask: [255, 255, 255, 0].into(),
            }],
            subnets6: Vec::new(),
        };
        (place, interface)
    }

    #[test]
    fn what_becomes_of_places() {
        let none = Told::default();
        let wire = at("wire", 4, [10, 0, 0, 7], 0x1043);
        let other = at("other", 5, [10, 0, 1, 7], 0x1043);
        let new = Change::New(wire.0.clone(), wire.1.clone());
        assert_eq!(changes(&[], std::slice::from_ref(&wire), &none), [new]);
        let both = [wire.clone(), other.clone()];
        assert!(changes(&both, &both, &none).is_empty());
        assert_eq!(
            changes(&both, &both[..1], &none),
            [Change::Gone("other".into())]
        );
        // down and up again between two looks
        let flap = Told {
            is_any: true,
            were_down: vec![5],
            is_lost: false,
        };
        let anew = |(place, interface): &(Place, Interface), was_down| Change::Anew {
            place: place.clone(),
            interface: interface.clone(),
            was_down,
        };
        assert_eq!(changes(&both, &both, &flap), [anew(&other, true)]);
        let moved = at("other", 5, [10, 0, 1, 8], 0x1043);
        assert_eq!(
            changes(&both, &[wire.clone(), moved.clone()], &none),
            [anew(&moved, false)]
        );
        // another interface of that name
        let again = at("other", 9, [10, 0, 1, 7], 0x1043);
        assert_eq!(
            changes(&both, &[wire.clone(), again.clone()], &none),
            [anew(&again, false)]
        );
        let mut more = wire.clone();
        more.1.subnets.push(other.1.subnets[0]);
        assert_eq!(
            changes(&[wire], &[more.clone()], &none),
            [Change::SetUp(more.1)]
        );
    }
}
