//! Drives the caches: questions out, packets in, what they know on the screen.

use std::error::Error;
use std::io::{self, Write};
use std::os::fd::BorrowedFd;

use kurgashel::{Browser, BrowserDraws, MOST_ENTRIES, OUT_BYTES};

use super::caches::Caches;
use super::lapse;
use super::options::Options;
use super::schedule::Schedule;
use super::show::{lacking, Screen};
use super::view::{instances, names};
use super::wants::wants;
use crate::clock::Clock;
use crate::command::{End, Misuse};
use crate::draw::{self, Draws};
use crate::link::{ready, Change, Follow, Hears, Interface, Link, LinkError, Place, Which};
use crate::name::from_labels;
use crate::query::{compose, Question, Wants};
use crate::refusal::{text, Tally};
use crate::stop;

/// How long it waits, in milliseconds, after a link that failed, unless something changes there.
const RETRY: u64 = 5000;
/// How many packets of one link are taken before anything is asked or shown, and before another link's turn: of many instances that takes longer than taking a
/// packet does.
const MOST_AT_ONCE: usize = 100;

pub fn run(options: &Options) -> Result<End, Box<dyn Error>> {
    let choice = options.places.choice()?;
    let clock = Clock::begin();
    let mut browsing = Browsing {
        options,
        clock: &clock,
        draws: Draws::open()?,
        is_marked: choice.which == Which::All,
        follow: Follow::open(choice.clone())?,
        sessions: Vec::new(),
        waiting: Vec::new(),
    };
    let first = browsing.follow.first()?;
    if let (Which::At(address), true) = (&choice.which, first.is_empty()) {
        Link::open(*address, Hears::GroupAlone)?;
    }
    if first.is_empty() {
        let which = choice.which;
        eprintln!("waiting for {which}: it is not there, is down or has no address");
    }
    for change in first {
        if let Change::New(place, interface) = change {
            match browsing.begin(&place, &interface) {
                Err(error) if browsing.is_marked && !is_port_taken(error.as_ref()) => {
                    eprintln!("{error}");
                    browsing.waiting.push((RETRY, place, interface));
                }
                begun => begun?,
            }
        }
    }
    browsing.until_stopped()
}

fn is_port_taken(error: &(dyn Error + 'static)) -> bool {
    let error = error.downcast_ref::<LinkError>();
    error.is_some_and(LinkError::is_port_taken)
}

/// A session on each interface.
struct Browsing<'a> {
    options: &'a Options,
    clock: &'a Clock,
    draws: Draws,
    /// Whether each line says of which interface it is.
    is_marked: bool,
    follow: Follow,
    sessions: Vec<Session<'a>>,
    /// Places to begin at, where a link failed some time later, and when.
    waiting: Vec<(u64, Place, Interface)>,
}

impl<'a> Browsing<'a> {
    fn until_stopped(&mut self) -> Result<End, Box<dyn Error>> {
        let seconds = self.options.seconds.unwrap_or(u64::MAX);
        let end = seconds.saturating_mul(1000);
        let wanted = self.options.count.unwrap_or(usize::MAX);
        while !stop::asked() && self.count() < wanted && self.clock.now() < end {
            self.wait(end)?;
            self.follow_changes()?;
            self.attend()?;
        }
        for session in &mut self.sessions {
            session.close()?;
        }
        let fewer = self.options.count.is_some() && self.count() < wanted;
        Ok(if fewer { End::Unmet } else { End::Stopped })
    }

    fn count(&self) -> usize {
        self.sessions
            .iter()
            .map(|session| session.screen.count())
            .sum()
    }

    /// Waits for a packet, a change of an interface or what is due.
    fn wait(&self, end: u64) -> Result<(), Box<dyn Error>> {
        let mut due = self
            .waiting
            .iter()
            .map(|(moment, ..)| *moment)
            .fold(end, u64::min);
        for session in &self.sessions {
            due = due.min(session.due()?);
        }
        let links = self.sessions.iter().map(|session| &session.link);
        let mut descriptors: Vec<BorrowedFd> = links.flat_map(Link::descriptors).collect();
        descriptors.push(self.follow.descriptor());
        descriptors.extend(stop::descriptor());
        ready::wait(&descriptors, due.saturating_sub(self.clock.now()))?;
        Ok(())
    }

    /// Takes what is there and what is due, on each link; one that fails is tried again later.
    fn attend(&mut self) -> Result<(), Box<dyn Error>> {
        let now = self.clock.now();
        let waiting = std::mem::take(&mut self.waiting);
        let (due, later): (Vec<_>, Vec<_>) =
            waiting.into_iter().partition(|(moment, ..)| *moment <= now);
        self.waiting = later;
        for (_, place, interface) in due {
            if self.begin(&place, &interface).is_err() {
                self.waiting.push((now + RETRY, place, interface));
            }
        }
        let mut broken = Vec::new();
        for (at, session) in self.sessions.iter_mut().enumerate() {
            match session.attend() {
                Err(error) if error.is::<LinkError>() => broken.push((at, error)),
                attended => attended?,
            }
        }
        for (at, error) in broken.into_iter().rev() {
            let mut session = self.sessions.remove(at);
            eprintln!("{}{error}", session.mark);
            session.end()?;
            self.waiting
                .push((now + RETRY, session.place, session.interface));
        }
        Ok(())
    }

    /// Begins anew where an interface came up or has other addresses, and ends where it is gone.
    fn follow_changes(&mut self) -> Result<(), Box<dyn Error>> {
        let Some(changes) = self.follow.changes()? else {
            return Ok(());
        };
        for (moment, ..) in &mut self.waiting {
            *moment = 0;
        }
        for change in changes {
            match change {
                Change::New(place, interface) => self.begin_later(place, interface),
                Change::Anew {
                    place,
                    interface,
                    was_down,
                } => {
                    if was_down {
                        self.end(&place.name)?;
                    }
                    self.begin_later(place, interface);
                }
                Change::SetUp(interface) => {
                    if let Some(at) = self.at(&interface.name) {
                        self.sessions[at].link.set_up_as(interface);
                    }
                }
                Change::Gone(name) => self.end(&name)?,
            }
        }
        Ok(())
    }

    /// Where the session of an interface stands.
    fn at(&self, name: &str) -> Option<usize> {
        let is_it = |session: &Session| session.place.name == name;
        self.sessions.iter().position(is_it)
    }

    /// Has a place begin when it is next its turn.
    fn begin_later(&mut self, place: Place, interface: Interface) {
        self.waiting
            .retain(|(_, other, _)| other.name != place.name);
        self.waiting.push((0, place, interface));
    }

    /// Ends what is done on an interface: all that was found there is gone.
    fn end(&mut self, name: &str) -> Result<(), Box<dyn Error>> {
        self.waiting.retain(|(_, place, _)| place.name != name);
        if let Some(at) = self.at(name) {
            self.sessions.remove(at).end()?;
        }
        Ok(())
    }

    /// Begins at a place; where there is a session already, it begins to ask anew there, and keeps what it knows.
    fn begin(&mut self, place: &Place, interface: &Interface) -> Result<(), Box<dyn Error>> {
        let delay = self.draws.within(&draw::REPLY)?;
        let draws = BrowserDraws {
            first: self.draws.within(&draw::REPLY)?,
            refresh: self.draws.within(&draw::REFRESH)?,
        };
        let link = Link::at(place, interface.clone(), Hears::GroupAlone)?;
        let (options, now) = (self.options, self.clock.now());
        let browser = Browser::start(&options.service, &options.protocol, now, draws)
            .map_err(|refusal| Misuse(format!("the library does not start: {}", text(refusal))))?;
        if let Some(at) = self.at(&place.name) {
            let session = &mut self.sessions[at];
            (session.link, session.browser) = (link, browser);
            (session.place, session.interface) = (place.clone(), interface.clone());
            return Ok(());
        }
        let mark = if self.is_marked {
            format!("{}: ", place.name)
        } else {
            String::new()
        };
        let labels = [&options.service, &options.protocol, "local"].map(str::as_bytes);
        let entries = options.entries.unwrap_or(MOST_ENTRIES);
        self.sessions.push(Session {
            options,
            place: place.clone(),
            interface: interface.clone(),
            mark,
            link,
            clock: self.clock,
            browser,
            caches: Caches::new(from_labels(&labels), entries)?,
            entries,
            schedule: Schedule::new(delay),
            screen: Screen::default(),
            refused: Tally::default(),
            full: Vec::new(),
            passed_over: 0,
        });
        Ok(())
    }
}

struct Session<'a> {
    options: &'a Options,
    place: Place,
    interface: Interface,
    /// What a line begins with, where there are several interfaces.
    mark: String,
    link: Link,
    clock: &'a Clock,
    /// Looks for instances.
    browser: Browser,
    caches: Caches,
    /// How many entries each of them has.
    entries: usize,
    /// What is asked of the instances that there are.
    schedule: Schedule,
    screen: Screen,
    refused: Tally,
    /// The types of records of which it was told that there is no room for more.
    full: Vec<&'static str>,
    passed_over: u64,
}

impl Session<'_> {
    /// When something is to be asked, or what is shown changes by time alone.
    fn due(&self) -> Result<u64, Box<dyn Error>> {
        let now = self.clock.now();
        let due = self.browser.due(self.caches.pointers(), now)?;
        let lapse = lapse::next(&self.caches, now, &self.browser)?;
        let due = due.min(lapse.unwrap_or(u64::MAX));
        Ok(due.min(self.schedule.next().unwrap_or(u64::MAX)))
    }

    /// Takes what is there and what is due.
    fn attend(&mut self) -> Result<(), Box<dyn Error>> {
        for _ in 0..MOST_AT_ONCE {
            if !self.hear()? {
                break;
            }
        }
        self.look()?;
        if !self.options.names {
            self.resolve()?;
        }
        self.show()?;
        for failure in self.link.take_failures() {
            eprintln!("{}{failure}", self.mark);
        }
        Ok(())
    }

    /// Has the caches take a packet, if one is there.
    fn hear(&mut self) -> Result<bool, Box<dyn Error>> {
        let Some(packet) = self.link.take()? else {
            return Ok(false);
        };
        let (now, source) = (self.clock.now(), packet.header.source);
        match self.caches.take(now, source.port(), packet.bytes) {
            Ok(taken) => {
                self.passed_over += u64::from(taken.passed_over);
            }
            Err(refusal) => {
                self.refused.add(refusal);
                if self.options.verbose {
                    let (mark, why) = (&self.mark, text(refusal));
                    eprintln!("{mark}{now:6} ms  packet from {source}: {why}");
                }
            }
        }
        Ok(true)
    }

    /// Asks who there is, where the library's browser says that it is time.
    fn look(&mut self) -> Result<(), Box<dyn Error>> {
        let mut out = [0; OUT_BYTES];
        loop {
            let now = self.clock.now();
            let ticked = self.browser.tick(self.caches.pointers(), now, &mut out)?;
            if ticked.length > 0 {
                self.link.send(&out[..ticked.length])?;
            }
            if !ticked.more {
                return Ok(());
            }
        }
    }

    /// Sends queries with all questions about instances that are due. Answers go to all, so that devices which claim one name hear of each other.
    fn resolve(&mut self) -> Result<(), Box<dyn Error>> {
        let now = self.clock.now();
        let wants = wants(&self.caches, now, &self.browser)?;
        let mut due = self.schedule.due(now, wants);
        while !due.is_empty() {
            let questions: Vec<Question> = due.iter().map(|want| want.question.clone()).collect();
            let (packet, asked) = compose(&questions, Wants::Multicast, &[]);
            for want in due.drain(..asked.max(1)) {
                self.schedule.mark_asked(now, &want);
            }
            self.link.send(&packet)?;
        }
        Ok(())
    }

    fn show(&mut self) -> Result<(), Box<dyn Error>> {
        let now = self.clock.now();
        let lines = if self.options.names {
            let found = names(&self.caches, now, &self.browser)?;
            self.screen.changed_names(&found)
        } else {
            let found = instances(&self.caches, now, &self.browser)?;
            self.screen.changes(&found, &self.options.factory)
        };
        for line in lines {
            writeln!(io::stdout(), "{}{line}", self.mark)?;
        }
        self.tell_what_is_full()
    }

    /// Tells, once for each type, that there is no room for more of its records.
    fn tell_what_is_full(&mut self) -> Result<(), Box<dyn Error>> {
        for (kind, _) in self.caches.turned_away() {
            if !self.full.contains(&kind) {
                self.full.push(kind);
                let known = format!("{} {kind} records are known", self.entries);
                let mark = &self.mark;
                writeln!(
                    io::stdout(),
                    "{mark}full      {known}, and more are turned away"
                )?;
            }
        }
        Ok(())
    }

    /// Its link is gone, and so is all that was found there.
    fn end(&mut self) -> Result<(), Box<dyn Error>> {
        for line in self.screen.changes(&[], &self.options.factory) {
            writeln!(io::stdout(), "{}{line}", self.mark)?;
        }
        self.close()
    }

    /// Says what was left out, and what was heard of but never complete.
    fn close(&mut self) -> Result<(), Box<dyn Error>> {
        let now = self.clock.now();
        let mut out = io::stdout();
        let mark = &self.mark;
        if !self.options.names {
            let found = instances(&self.caches, now, &self.browser)?;
            for line in found.iter().filter_map(lacking) {
                writeln!(out, "{mark}{line}")?;
            }
        }
        write!(out, "{}{}", self.refused, self.link.dropped())?;
        for (kind, count) in self.caches.turned_away() {
            let all_live = format!("since all {} entries for them are live", self.entries);
            writeln!(
                out,
                "{mark}{count} {kind} records were turned away, {all_live}"
            )?;
        }
        if self.passed_over > 0 {
            let long = "passed over, since their data are over 768 bytes";
            writeln!(out, "{mark}{} records were {long}", self.passed_over)?;
        }
        Ok(())
    }
}
