//! Drives the discovery proxy: clients' queries in, questions to the link, answers out.

use std::error::Error;

use kurgashel::{Cache, Refusal};

use super::clients::{Client, Clients};
use super::message::{read, Answer, Heard, Query, Rcode, Resource, MOST_TCP};
use super::options::Options;
use super::pending::Pendings;
use super::zones::{types, Decision, Zones};
use crate::browse::is_denied;
use crate::clock::Clock;
use crate::command::End;
use crate::link::{self, Hears, Link};
use crate::name;
use crate::notify::Notify;
use crate::query::{compose, Question, Wants};
use crate::refusal::text;
use crate::stop;

/// The longest wait for a packet, in milliseconds.
const LONGEST_WAIT: u64 = 1000;

pub fn run(options: &Options) -> Result<End, Box<dyn Error>> {
    let interface = match options.interface {
        Some(interface) => interface,
        None => link::default_interface()?,
    };
    let zones = Zones::new(
        &options.rich,
        &options.host_domain,
        &options.servers,
        &options.mailbox,
        options.link_local,
    );
    let zones =
        zones.map_err(|_| "--rich and --host-domain are equal, or one lies under the other")?;
    if let Some(server) = options
        .servers
        .iter()
        .find(|one| zones.apex_of(one).is_some())
    {
        let server = name::text(server);
        return Err(
            format!("--server can't be '{server}': it is in a domain that is served").into(),
        );
    }
    let listen = options.listen;
    let mut session = Session {
        options,
        zones,
        link: Link::open(interface, Hears::GroupAlone)?,
        clients: Clients::open(listen)
            .map_err(|error| format!("can't listen on {listen}: {error}"))?,
        clock: Clock::begin(),
        cache: Cache::with_entries(options.entries)?,
        pendings: Pendings::default(),
        notify: Notify::open(),
    };
    println!(
        "answering on {listen} for {} and {}",
        name::text(&options.rich),
        name::text(&options.host_domain)
    );
    session.until_stopped()
}

struct Session<'a> {
    options: &'a Options,
    zones: Zones,
    link: Link,
    clients: Clients,
    clock: Clock,
    cache: Cache,
    pendings: Pendings,
    notify: Notify,
}

impl Session<'_> {
    fn until_stopped(&mut self) -> Result<End, Box<dyn Error>> {
        let end = self
            .options
            .seconds
            .unwrap_or(u64::MAX)
            .saturating_mul(1000);
        self.notify.ready();
        while !stop::asked() && self.clock.now() < end {
            self.notify.live(self.clock.now());
            self.hear_link()?;
            self.hear_clients()?;
            self.answer_ready()?;
            self.ask_link()?;
        }
        self.notify.stopping();
        Ok(End::Stopped)
    }

    /// Waits for a packet of the link, which the cache takes, or until a client sends something or something is due.
    fn hear_link(&mut self) -> Result<(), Box<dyn Error>> {
        let now = self.clock.now();
        let next = self.pendings.next(now).unwrap_or(u64::MAX);
        let wait = next.saturating_sub(now).min(LONGEST_WAIT);
        let packet = self
            .link
            .receive_unless(wait, &self.clients.descriptors())?;
        let Some(packet) = packet else {
            return Ok(());
        };
        let taken = self
            .cache
            .take(self.clock.now(), packet.header.source.port(), packet.bytes);
        if let (Err(refusal), true) = (taken, self.options.verbose) {
            eprintln!("packet from {}: {}", packet.header.source, text(refusal));
        }
        Ok(())
    }

    fn hear_clients(&mut self) -> Result<(), Box<dyn Error>> {
        let now = self.clock.now();
        for (client, bytes) in self.clients.hear(now) {
            match read(&bytes) {
                Heard::Query(query) => self.take(client, query)?,
                Heard::Fault(answer) => self.send(client, &answer),
                Heard::Nothing => {}
            }
        }
        Ok(())
    }

    fn take(&mut self, client: Client, query: Query) -> Result<(), Refusal> {
        let now = self.clock.now();
        if self.options.verbose {
            println!("{now:6} ms  {} {}", name::text(&query.name), query.rtype);
        }
        let name = match self.zones.decide(&query) {
            Decision::Answer(answer) => {
                self.answer(client, &query, &answer);
                return Ok(());
            }
            Decision::Ask(name) => name,
        };
        let question = Question {
            name,
            rtype: query.rtype,
        };
        if self.is_answered(&question)? {
            return self.answer_from_cache(&question, client, &query);
        }
        if !self.pendings.add(now, question, client, query.clone()) {
            self.answer(client, &query, &Answer::empty(Rcode::Failed));
        }
        Ok(())
    }

    /// Whether the cache has an answer, or knows that there is none.
    fn is_answered(&self, question: &Question) -> Result<bool, Refusal> {
        let now = self.clock.now();
        for rtype in types(question.rtype) {
            if !self.cache.all(now, &question.name, rtype)?.is_empty() {
                return Ok(true);
            }
        }
        is_denied(&self.cache, now, &question.name, question.rtype)
    }

    fn answer_ready(&mut self) -> Result<(), Refusal> {
        let now = self.clock.now();
        let mut pendings = std::mem::take(&mut self.pendings);
        let ready = pendings.ready(now, |question| self.is_answered(question).unwrap_or(false));
        self.pendings = pendings;
        for (question, waiting) in ready {
            self.answer_from_cache(&question, waiting.client, &waiting.query)?;
        }
        Ok(())
    }

    fn answer_from_cache(
        &mut self,
        question: &Question,
        client: Client,
        query: &Query,
    ) -> Result<(), Refusal> {
        let now = self.clock.now();
        let answers: Vec<Resource> = self
            .zones
            .records(&self.cache, now, &question.name, query)?;
        let answer = match self.zones.apex_of(&query.name) {
            Some(apex) if answers.is_empty() => self.zones.negative(apex),
            _ => Answer {
                answers,
                ..Answer::empty(Rcode::NoError)
            },
        };
        self.answer(client, query, &answer);
        Ok(())
    }

    fn answer(&mut self, client: Client, query: &Query, answer: &Answer) {
        let most = match client {
            Client::Udp(_) => query.most_by_udp(),
            Client::Tcp(_) => MOST_TCP,
        };
        self.send(client, &query.reply(answer, most));
    }

    /// A client that can't be reached is no reason to stop.
    fn send(&mut self, client: Client, answer: &[u8]) {
        let sent = self.clients.reply(self.clock.now(), client, answer);
        if let (Err(error), true) = (sent, self.options.verbose) {
            eprintln!("an answer could not be sent: {error}");
        }
    }

    fn ask_link(&mut self) -> Result<(), Box<dyn Error>> {
        let mut questions = self.pendings.due(self.clock.now());
        while !questions.is_empty() {
            let (packet, asked) = compose(&questions, Wants::Multicast, &[]);
            self.link.send(&packet)?;
            questions.drain(..asked);
        }
        Ok(())
    }
}
