//! Makes a list with a violation shorter: entries are left out as long as the violation stays and the list meets what it met.

use std::io;

use crate::console::Console;
use crate::entry::{Call, Entry};
use crate::judge::Violation;
use crate::link::{Asked, Kind, Link};
use crate::premises::Limits;

/// Plays a list as it stands, up to its first violation.
pub fn replay<'a>(
    consoles: &'a mut [Console],
    limits: Limits,
    asked: Asked,
    entries: &[Entry],
) -> io::Result<Link<'a>> {
    let joins = |entry: &Entry| matches!(entry.call, Call::Join);
    let kind = match entries.iter().any(joins) {
        true => Kind::Joined,
        false => Kind::Whole,
    };
    let mut link = Link::new(consoles, limits, kind, asked);
    for entry in entries {
        link.play(entry.clone())?;
        if link.violation.is_some() {
            break;
        }
    }
    Ok(link)
}

pub fn shrink(
    consoles: &mut [Console],
    limits: Limits,
    asked: Asked,
    mut entries: Vec<Entry>,
    violation: &Violation,
) -> io::Result<Vec<Entry>> {
    let mut size = entries.len() / 2;
    while size > 0 {
        let mut at = 0;
        while at < entries.len() {
            let mut fewer = entries.clone();
            fewer.drain(at..(at + size).min(entries.len()));
            let link = replay(consoles, limits, asked, &fewer)?;
            let found = link.violation.as_ref();
            if found.is_some_and(|found| found.same_kind(violation))
                && link.broken_premise().is_none()
            {
                entries = fewer;
            } else {
                at += size;
            }
        }
        size /= 2;
    }
    Ok(entries)
}
