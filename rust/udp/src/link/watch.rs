//! Changes of interfaces and addresses, as Linux tells them (netlink, the groups of links and of both kinds of addresses).

use std::collections::HashMap;
use std::fs::File;
use std::io::{Read, Write};
use std::os::fd::{AsFd, BorrowedFd};

use super::error::{LinkError, Step};
use super::interface::is_running;
use super::pause_is_none;
use super::system::{self, part};

const AF_NETLINK: u16 = 16;
const SOCK_RAW: i32 = 3;
const SOCK_NONBLOCK: i32 = 0o4000;
/// RTMGRP_LINK, RTMGRP_IPV4_IFADDR and RTMGRP_IPV6_IFADDR.
const GROUPS: u32 = 0x1 | 0x10 | 0x100;
const RTM_NEWLINK: u16 = 16;
const RTM_DELLINK: u16 = 17;
const RTM_GETLINK: u16 = 18;
/// NLM_F_REQUEST and NLM_F_DUMP: all interfaces are asked for.
const ALL: u16 = 0x1 | 0x300;
/// How often the carrier was lost (IFLA_CARRIER_DOWN_COUNT, since Linux 4.16).
const LOSSES: u16 = 48;
/// The system had more to tell than it kept.
const ENOBUFS: i32 = 105;

/// What was told since the last time.
#[derive(Clone, Debug, Default, PartialEq, Eq)]
pub struct Told {
    pub is_any: bool,
    /// The interfaces that were down, by number, though they may be up again.
    pub were_down: Vec<u32>,
    /// Some of it is lost: each interface may have been down.
    pub is_lost: bool,
}

impl Told {
    pub fn was_down(&self, index: u32) -> bool {
        self.is_lost || self.were_down.contains(&index)
    }

    /// Takes messages: each has a header with its length and its kind; one about a link has the interface's number and flags, and attributes.
    fn take(&mut self, mut messages: &[u8], losses: &mut Losses) {
        self.is_any = true;
        while messages.len() >= 16 {
            let length = u32::from_ne_bytes(part(messages, 0)) as usize;
            let kind = u16::from_ne_bytes(part(messages, 4));
            if matches!(kind, RTM_NEWLINK | RTM_DELLINK) && (32..=messages.len()).contains(&length)
            {
                let index = u32::from_ne_bytes(part(messages, 20));
                let flags = u32::from_ne_bytes(part(messages, 24));
                let has_lost = losses.has_more(index, attribute(&messages[32..length], LOSSES));
                if kind == RTM_DELLINK || !is_running(flags) || has_lost {
                    self.were_down.push(index);
                }
            }
            let next = length.max(16).next_multiple_of(4);
            messages = messages.get(next..).unwrap_or_default();
        }
    }
}

/// A number among attributes: each has its length, its kind and its bytes, and begins at a multiple of four.
fn attribute(mut attributes: &[u8], kind: u16) -> Option<u32> {
    while attributes.len() >= 8 {
        let length = u16::from_ne_bytes(part(attributes, 0)) as usize;
        if u16::from_ne_bytes(part(attributes, 2)) == kind && length == 8 {
            return Some(u32::from_ne_bytes(part(attributes, 4)));
        }
        let next = length.max(4).next_multiple_of(4);
        attributes = attributes.get(next..).unwrap_or_default();
    }
    None
}

/// How often each interface had lost its carrier when last told of, by its number. Linux tells of a lost carrier up to a second late, and where it is back by
/// then says only that it is there: the count alone shows it then.
#[derive(Default)]
struct Losses(HashMap<u32, u32>);

impl Losses {
    /// Whether there are more, or others, than were known.
    fn has_more(&mut self, index: u32, count: Option<u32>) -> bool {
        let before = count.and_then(|count| self.0.insert(index, count));
        before.is_some() && before != count
    }
}

/// A message that asks for all interfaces.
fn request() -> [u8; 32] {
    let mut bytes = [0; 32];
    bytes[..4].copy_from_slice(&32u32.to_ne_bytes());
    bytes[4..6].copy_from_slice(&RTM_GETLINK.to_ne_bytes());
    bytes[6..8].copy_from_slice(&ALL.to_ne_bytes());
    bytes
}

pub struct Watch {
    socket: File,
    losses: Losses,
}

impl Watch {
    pub fn open() -> Result<Watch, LinkError> {
        let kind = SOCK_RAW | system::SOCK_CLOEXEC | SOCK_NONBLOCK;
        let mut address = [0; 12];
        address[..2].copy_from_slice(&AF_NETLINK.to_ne_bytes());
        address[8..].copy_from_slice(&GROUPS.to_ne_bytes());
        let opened = system::new_socket(AF_NETLINK.into(), kind).and_then(|socket| {
            system::bind_bytes(&socket, &address)?;
            let mut socket = File::from(socket);
            // what there is comes as the first that is told
            socket.write_all(&request())?;
            Ok(socket)
        });
        let socket = opened.map_err(LinkError::at(Step::Watch))?;
        let losses = Losses::default();
        Ok(Watch { socket, losses })
    }

    /// Where there is something to read when something changes.
    pub fn descriptor(&self) -> BorrowedFd<'_> {
        self.socket.as_fd()
    }

    /// What was told by now.
    pub fn told(&mut self) -> Result<Told, LinkError> {
        let mut told = Told::default();
        let mut bytes = [0; 16384];
        loop {
            match pause_is_none(self.socket.read(&mut bytes)) {
                Ok(Some(length)) => told.take(&bytes[..length], &mut self.losses),
                Ok(None) => return Ok(told),
                Err(error) if error.raw_os_error() == Some(ENOBUFS) => {
                    (told.is_any, told.is_lost) = (true, true);
                }
                Err(error) => return Err(LinkError::at(Step::Watch)(error)),
            }
        }
    }
}

#[cfg(test)]
mod tests {
    use super::*;

    /// A message of a kind about an interface with flags, and of an attribute.
    fn message(kind: u16, index: u32, flags: u32) -> Vec<u8> {
        let mut bytes = vec![0; 36];
        bytes[..4].copy_from_slice(&36u32.to_ne_bytes());
        bytes[4..6].copy_from_slice(&kind.to_ne_bytes());
        bytes[20..24].copy_from_slice(&index.to_ne_bytes());
        bytes[24..28].copy_from_slice(&flags.to_ne_bytes());
        bytes
    }

    fn told(messages: &[u8]) -> Told {
        let mut told = Told::default();
        told.take(messages, &mut Losses::default());
        told
    }

    /// A message about a link that runs, with a count of losses behind another attribute.
    fn counted(index: u32, losses: u32) -> Vec<u8> {
        let mut bytes = message(RTM_NEWLINK, index, 0x1043);
        bytes.truncate(32);
        bytes.extend([5, 0, 3, 0, b'w', 0, 0, 0]);
        bytes.extend([8, 0, LOSSES as u8, 0]);
        bytes.extend(losses.to_ne_bytes());
        let length = bytes.len() as u32;
        bytes[..4].copy_from_slice(&length.to_ne_bytes());
        bytes
    }

    #[test]
    fn a_loss_that_is_told_by_its_count_alone() {
        let mut losses = Losses::default();
        let mut down = |messages: &[u8]| {
            let mut told = Told::default();
            told.take(messages, &mut losses);
            told.were_down
        };
        assert!(down(&counted(4, 1)).is_empty());
        assert!(down(&counted(5, 7)).is_empty());
        assert!(down(&counted(4, 1)).is_empty());
        assert!(down(&message(RTM_NEWLINK, 4, 0x1043)).is_empty());
        assert_eq!(down(&counted(4, 2)), [4]);
        assert!(down(&[counted(4, 2), counted(5, 7)].concat()).is_empty());
    }

    #[test]
    fn all_interfaces_are_told_first() {
        let mut watch = Watch::open().unwrap();
        watch.told().unwrap();
        assert!(!watch.losses.0.is_empty());
    }

    #[test]
    fn a_link_that_was_down() {
        let flap = [
            message(RTM_NEWLINK, 4, 0x1003),
            message(RTM_NEWLINK, 4, 0x1043),
        ]
        .concat();
        assert_eq!(told(&flap).were_down, [4]);
        assert!(told(&flap).was_down(4) && !told(&flap).was_down(5));
        assert_eq!(told(&message(RTM_DELLINK, 5, 0x1043)).were_down, [5]);
        // another kind, such as of an address
        assert!(told(&message(20, 6, 0)).were_down.is_empty());
        assert!(told(&message(20, 6, 0)).is_any);
    }

    #[test]
    fn torn_messages_are_stepped_over() {
        let whole = message(RTM_NEWLINK, 4, 0);
        for end in 0..whole.len() {
            assert!(told(&whole[..end]).were_down.is_empty(), "{end}");
        }
        assert!(told(&[0; 64]).were_down.is_empty());
    }

    #[test]
    fn nothing_has_changed() {
        assert!(!Watch::open().unwrap().told().unwrap().is_lost);
    }
}
