//! The responder's loop: a session at each place, names that are picked anew, lines on standard input, a supervisor.

use std::error::Error;
use std::io::{self, Write};
use std::os::fd::BorrowedFd;

use kurgashel::{Claim, Responder};

use super::control::{Control, Order};
use super::options::Options;
use super::rename::Conflicts;
use super::report::{all_lost, Report};
use super::session::{Session, Tools, Trouble};
use crate::clock::{self, Clock};
use crate::command::{End, Misuse};
use crate::draw::{self, Draws};
use crate::link::{ready, Change, Choice, Dropped, Follow, Hears, Interface, Link, LinkError};
use crate::link::{Place, Which};
use crate::notify::Notify;
use crate::recording::Recording;
use crate::refusal::{text, Tally};
use crate::{stop, strings};

/// How long it waits, in milliseconds, after a link that failed, unless something changes there.
const RETRY: u64 = 5000;

pub fn run(options: &Options) -> Result<End, Box<dyn Error>> {
    let choice = options.places.choice()?;
    let mut follow = Follow::open(choice.clone())?;
    let first = follow.first()?;
    let mut opened = Vec::new();
    for change in first {
        if let Change::New(place, interface) = change {
            let link = open(&place, &interface);
            opened.push((Post::new(place, interface), link));
        }
    }
    check_first(&choice, &mut opened)?;
    if let Some(moment) = options.at {
        clock::wait_until(moment);
    }
    let mut server = Server {
        options: options.clone(),
        is_marked: choice.which == Which::All,
        follow,
        control: Control::open(options.control)?,
        notify: Notify::open(),
        posts: Vec::new(),
        tools: Tools {
            clock: Clock::begin(),
            draws: Draws::open()?,
            verbose: options.verbose,
            refused: Tally::default(),
            dropped: Dropped::default(),
        },
    };
    for (mut post, link) in opened {
        match link {
            Ok(link) => server.begin(&mut post, link, true)?,
            Err(error) => server.fail(&mut post, &error),
        }
        server.posts.push(post);
    }
    if server.posts.is_empty() {
        let which = choice.which;
        eprintln!("waiting for {which}: it is not there, is down or has no address");
    }
    server.until_stopped()
}

/// What was chosen has to be there at the beginning where it is told by its address, and the port has to be free to share.
fn check_first(choice: &Choice, opened: &mut Vec<Opened>) -> Result<(), Box<dyn Error>> {
    if let (Which::At(address), true) = (&choice.which, opened.is_empty()) {
        Link::open(*address, Hears::GroupAlone)?;
    }
    let is_all = choice.which == Which::All;
    let is_fatal = |link: &Result<Link, LinkError>| match link {
        Err(error) => !is_all || error.is_port_taken(),
        Ok(_) => false,
    };
    match opened.iter().position(|(_, link)| is_fatal(link)) {
        Some(at) => opened.swap_remove(at).1.map(|_| ()).map_err(Into::into),
        None => Ok(()),
    }
}

type Opened = (Post, Result<Link, LinkError>);

/// A link for a responder, which has addresses of its own; a line where it has not.
fn open(place: &Place, interface: &Interface) -> Result<Link, LinkError> {
    let link = Link::at(place, interface.clone(), Hears::OwnAddress)?;
    for address in link.shared_addresses() {
        let wants = "a responder needs an address of its own (--interface)";
        eprintln!("another program on this machine is bound to {address}, port 5353, too: {wants}");
    }
    Ok(link)
}

/// A place, and what is done there.
struct Post {
    place: Place,
    interface: Interface,
    session: Option<Session>,
    /// When to begin, where there is no session.
    begins: Option<u64>,
    /// Which try the names of the instance and of the host are.
    tries: [u32; 2],
    conflicts: Conflicts,
    /// The last failure that was told.
    failure: String,
}

impl Post {
    fn new(place: Place, interface: Interface) -> Post {
        Post {
            place,
            interface,
            session: None,
            begins: None,
            tries: [1; 2],
            conflicts: Conflicts::default(),
            failure: String::new(),
        }
    }

    fn due(&self) -> Option<u64> {
        let session = self.session.as_ref().and_then(Session::due);
        session.into_iter().chain(self.begins).min()
    }

    /// Whether it waits because its link failed.
    fn has_failed(&self) -> bool {
        self.begins.is_some() && !self.failure.is_empty()
    }

    fn is_lost(&self) -> bool {
        let session = self.session.as_ref();
        session.is_some_and(|session| all_lost(session.claims()))
    }
}

struct Server {
    /// With the data of the last update taken.
    options: Options,
    /// Whether each line says of which interface it is.
    is_marked: bool,
    follow: Follow,
    control: Control,
    notify: Notify,
    posts: Vec<Post>,
    tools: Tools,
}

impl Server {
    fn until_stopped(&mut self) -> Result<End, Box<dyn Error>> {
        let seconds = self.options.seconds.unwrap_or(u64::MAX);
        let end = seconds.saturating_mul(1000);
        self.notify.ready();
        while !stop::asked() && self.tools.clock.now() < end {
            self.notify.live(self.tools.clock.now());
            self.notify.status(self.status());
            self.wait(end)?;
            self.follow_changes()?;
            self.take_orders()?;
            let mut posts = std::mem::take(&mut self.posts);
            for post in &mut posts {
                self.attend(post)?;
            }
            self.posts = posts;
            if self.are_all_lost() {
                let advice = "both names are lost to others on this link: choose other names";
                writeln!(io::stdout(), "{advice}")?;
                return Ok(End::Unmet);
            }
        }
        self.stop()
    }

    /// Waits for a packet, a line, a change of an interface or what is due.
    fn wait(&self, end: u64) -> io::Result<()> {
        let due = self.posts.iter().filter_map(Post::due);
        let due = due.chain(self.notify.due()).chain([end]).min();
        let sessions = self.posts.iter().filter_map(|post| post.session.as_ref());
        let mut descriptors: Vec<BorrowedFd> = sessions.flat_map(Session::descriptors).collect();
        descriptors.push(self.follow.descriptor());
        descriptors.extend(self.control.descriptor());
        descriptors.extend(stop::descriptor());
        let wait = due.unwrap_or(end).saturating_sub(self.tools.clock.now());
        ready::wait(&descriptors, wait)
    }

    /// How all stands, for a supervisor.
    fn status(&self) -> String {
        let of = |post: &Post| match &post.session {
            Some(session) => session.summary(),
            None => format!("{}: waiting", post.place.name),
        };
        let all: Vec<String> = self.posts.iter().map(of).collect();
        if all.is_empty() {
            "waiting for an interface".into()
        } else {
            all.join("; ")
        }
    }

    fn mark(&self, place: &Place) -> String {
        if self.is_marked {
            format!("{}: ", place.name)
        } else {
            String::new()
        }
    }

    /// Begins anew where an interface came up or has other addresses, and ends where it is gone.
    fn follow_changes(&mut self) -> Result<(), Box<dyn Error>> {
        let Some(changes) = self.follow.changes()? else {
            return Ok(());
        };
        let now = self.tools.clock.now();
        for post in self.posts.iter_mut().filter(|post| post.has_failed()) {
            post.begins = Some(now);
        }
        for change in changes {
            let mut posts = std::mem::take(&mut self.posts);
            let at = |name: &str| posts.iter().position(|post| post.place.name == name);
            match change {
                Change::New(place, interface) => {
                    let at = at(&place.name).unwrap_or_else(|| {
                        posts.push(Post::new(place.clone(), interface.clone()));
                        posts.len() - 1
                    });
                    self.move_to(&mut posts[at], place, interface, now);
                }
                Change::Anew {
                    place,
                    interface,
                    was_down,
                } => {
                    if let Some(at) = at(&place.name) {
                        self.part(&mut posts[at], &place, was_down);
                        self.move_to(&mut posts[at], place, interface, now);
                    }
                }
                Change::SetUp(interface) => {
                    if let Some(at) = at(&interface.name) {
                        posts[at].interface = interface.clone();
                        if let Some(session) = &mut posts[at].session {
                            session.set_up_as(interface);
                        }
                    }
                }
                Change::Gone(name) => {
                    if let Some(at) = at(&name) {
                        self.end_session(&mut posts[at]);
                        posts[at].begins = None;
                        writeln!(io::stdout(), "{now:6} ms  down      {name}")?;
                    }
                }
            }
            self.posts = posts;
        }
        Ok(())
    }

    /// An IPv6 address that the host no longer has is said goodbye for, since no new one takes its place; other addresses are flushed by the new ones.
    fn part(&mut self, post: &mut Post, next: &Place, was_down: bool) {
        let is_withdrawn = post.place.aaaa.is_some() && next.aaaa.is_none();
        if let (Some(session), true, false) = (&mut post.session, is_withdrawn, was_down) {
            let _ = session.say_goodbye(&self.tools);
        }
    }

    /// Has a post begin anew at once.
    fn move_to(&mut self, post: &mut Post, place: Place, interface: Interface, now: u64) {
        self.end_session(post);
        (post.place, post.interface) = (place, interface);
        post.begins = Some(now);
        post.failure.clear();
    }

    fn end_session(&mut self, post: &mut Post) {
        if let Some(session) = post.session.take() {
            self.tools.dropped += session.dropped();
        }
    }

    /// Begins where it is time, has the session take what is there and what is due, and looks how its names stand.
    fn attend(&mut self, post: &mut Post) -> Result<(), Box<dyn Error>> {
        let now = self.tools.clock.now();
        if post.begins.is_some_and(|begins| begins <= now) {
            post.begins = None;
            match open(&post.place, &post.interface) {
                Ok(link) => self.begin(post, link, false)?,
                Err(error) => self.fail(post, &error),
            }
        }
        let Some(session) = &mut post.session else {
            return Ok(());
        };
        match session.attend(&mut self.tools) {
            Ok(()) => self.look_at_names(post),
            Err(Trouble::Link(error)) => {
                self.fail(post, &error);
                Ok(())
            }
            Err(Trouble::Other(error)) => Err(error),
        }
    }

    /// A link failed: what the library holds for sent was not sent, so its names are claimed anew, later.
    fn fail(&mut self, post: &mut Post, error: &dyn Error) {
        let failure = format!("{}{error}", self.mark(&post.place));
        if failure != post.failure {
            eprintln!("{failure}");
            post.failure = failure;
        }
        self.end_session(post);
        post.begins = Some(self.tools.clock.now() + RETRY);
    }

    /// Starts the library on a link.
    fn begin(&mut self, post: &mut Post, link: Link, is_first: bool) -> Result<(), Box<dyn Error>> {
        let (now, wall) = (self.tools.clock.now(), clock::wall());
        let draw = match self.options.draw {
            Some(draw) => draw,
            None => self.tools.draws.within(&draw::START)?,
        };
        let place = &post.place;
        let Some(start) = self.options.start(place, post.tries, now, draw) else {
            let why = "has no IPv4 address, and a host always has an A: give it one, or --address";
            self.fail(post, &Misuse(format!("{} {why}", post.place.name)));
            return Ok(());
        };
        let responder = Responder::start(&start.setup(), now, draw);
        let responder = responder
            .map_err(|refusal| Misuse(format!("the library does not start: {}", text(refusal))))?;
        if is_first {
            writeln!(
                io::stdout(),
                "begun on {place} at {wall}, start draw {draw} ms"
            )?;
        } else {
            writeln!(
                io::stdout(),
                "{now:6} ms  anew      on {place} at {wall}, start draw {draw} ms"
            )?;
        }
        let recording = match &self.options.trace {
            Some(file) => {
                let created = Recording::create(file.as_ref(), &start);
                let (recording, path) = created.map_err(|error| format!("{file}: {error}"))?;
                writeln!(io::stdout(), "recording to {}", path.display())?;
                Some(recording)
            }
            None => None,
        };
        let labels = self.options.labels(post.tries);
        let report = Report::new(&self.options, &labels, self.mark(place));
        match Session::begin(link, responder, recording, report, now) {
            Ok(session) => post.session = Some(session),
            Err(Trouble::Link(error)) => self.fail(post, &error),
            Err(Trouble::Other(error)) => return Err(error),
        }
        Ok(())
    }

    /// Counts conflicts, and picks other names for those that are lost, where that is wanted.
    fn look_at_names(&mut self, post: &mut Post) -> Result<(), Box<dyn Error>> {
        let Some(session) = &mut post.session else {
            return Ok(());
        };
        let (now, claims) = (self.tools.clock.now(), session.claims());
        for _ in 0..session.take_conflicts() {
            post.conflicts.add(now);
        }
        if claims == [Claim::Held; 2] {
            post.conflicts.settle();
            post.failure.clear();
        }
        if !self.options.rename || !claims.contains(&Claim::Lost) {
            return Ok(());
        }
        for (number, claim) in post.tries.iter_mut().zip(claims) {
            *number += u32::from(claim == Claim::Lost);
        }
        self.end_session(post);
        let begins = post.conflicts.next_try(now);
        post.begins = Some(begins);
        post.failure.clear();
        let (mark, [instance, host]) = (self.mark(&post.place), self.options.labels(post.tries));
        let wait = begins - now;
        writeln!(
            io::stdout(),
            "{mark}{now:6} ms  renamed   '{instance}' on '{host}', in {wait} ms"
        )?;
        if post.conflicts.is_to_tell(now) {
            eprintln!("{mark}for a minute now every name that was tried is another's");
        }
        Ok(())
    }

    fn are_all_lost(&self) -> bool {
        let are_lost = self.posts.iter().all(Post::is_lost);
        are_lost && !self.posts.is_empty() && !self.options.rename
    }

    /// Takes the lines that are there on standard input.
    fn take_orders(&mut self) -> Result<(), Box<dyn Error>> {
        for line in self.control.lines()? {
            match Order::read(&line) {
                Ok(order) => self.update(&order)?,
                Err(wrong) => writeln!(io::stdout(), "{wrong}")?,
            }
        }
        Ok(())
    }

    /// Changes the data at every place; what begins later has them too, unless no place took them.
    fn update(&mut self, order: &Order) -> Result<(), Box<dyn Error>> {
        let (mut is_taken, mut is_asked) = (false, false);
        let mut posts = std::mem::take(&mut self.posts);
        for post in &mut posts {
            let Some(session) = &mut post.session else {
                continue;
            };
            is_asked = true;
            match session.update(&self.tools, order) {
                Ok(taken) => is_taken |= taken,
                Err(Trouble::Link(error)) => self.fail(post, &error),
                Err(Trouble::Other(error)) => return Err(error),
            }
        }
        self.posts = posts;
        if is_taken || !is_asked {
            self.keep(order);
        }
        Ok(())
    }

    fn keep(&mut self, order: &Order) {
        match order {
            Order::Port(port) => self.options.port = *port,
            Order::Txt(strings) => {
                if let Some(txt) = strings::encode(strings) {
                    self.options.txt = txt;
                }
            }
        }
    }

    /// Says goodbye everywhere. A link that fails then has heard nothing, which no one can help.
    fn stop(&mut self) -> Result<End, Box<dyn Error>> {
        self.notify.stopping();
        let mut posts = std::mem::take(&mut self.posts);
        for post in &mut posts {
            if let Some(session) = &mut post.session {
                match session.say_goodbye(&self.tools) {
                    Err(Trouble::Other(error)) => return Err(error),
                    Err(Trouble::Link(error)) => eprintln!("{error}"),
                    Ok(()) => {}
                }
            }
            self.end_session(post);
        }
        let (refused, dropped) = (&self.tools.refused, self.tools.dropped);
        write!(io::stdout(), "stopped\n{refused}{dropped}")?;
        Ok(End::Stopped)
    }
}
