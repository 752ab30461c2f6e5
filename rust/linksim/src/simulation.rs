//! Makes a random hostile list: a discrete-event simulation on the link's time. It keeps the premises by planning each delivery
//! and each due step within its time; what else comes, and in which order within a millisecond, is drawn.

use std::io;
use std::rc::Rc;

use reference::responder::holds::{Address, LEAST_HOLD_DRAW, MOST_HOLD_DRAW};
use reference::responder::Change;
use reference::setup::Setup;
use reference::{MDNS_PORT, MOST_TIME};

use crate::console::Dues;
use crate::entry::{Call, Entry, Packet, Receive};
use crate::entry::{LEAST_OUT, LEAST_REPLY_DRAW, MOST_REPLY_DRAW, MOST_START_DRAW, UPDATE_GAP};
use crate::hostile;
use crate::link::{Kind, Link, Outcome};
use crate::premises::Limits;
use crate::queue::Queue;
use crate::random::Random;
use crate::refused;
use crate::setups;
use crate::style::Style;

/// The link's time at which a list begins: clocks may be far behind it, or far ahead.
const BEGIN: u64 = 1_000_000;
/// No list is longer, so that a clock ahead by `MOST_TIME` less this stays legal.
const MOST_LENGTH: u64 = 60_000;

/// Later than 30 s after the second announcement of who starts at once.
const LATE_STARTS: u64 = 33_000;

const OTHER_PORTS: [u64; 4] = [53, 1024, MDNS_PORT + 1, 65536 + MDNS_PORT];

pub struct Simulation<'a> {
    link: Link<'a>,
    limits: Limits,
    style: Style,
    random: Random,
    queue: Queue<Event>,
    /// What each console runs, as far as calls to it need it.
    seats: Vec<Seat>,
    /// Packets that stood on the link.
    seen: Vec<Packet>,
    now: u64,
    end: u64,
    /// Whether what is sent reaches all: not before groups are joined.
    whole: bool,
    /// When they were joined.
    joined: Option<u64>,
}

enum Event {
    /// The groups are joined.
    Join,
    /// All hear a query without the bit, from another device.
    Ask,
    Start {
        console: usize,
    },
    Cut {
        console: usize,
    },
    Stop {
        to: Target,
    },
    Update {
        to: Target,
        change: Change,
    },
    /// A due step is taken, unless it is not due any more.
    Step {
        to: Target,
        step: usize,
        due: u64,
    },
    /// A packet is taken, from port 5353.
    Delivery {
        to: Target,
        from: Address,
        packet: Packet,
    },
    /// A packet is taken from another port.
    Astray {
        to: Target,
        packet: Packet,
    },
    /// A hostile packet is made for, and taken by, one responder.
    Hostile {
        to: Target,
    },
    EarlyTick {
        to: Target,
    },
    Refused {
        to: Target,
        packet: Option<Packet>,
    },
}

/// A responder, by its console and number: an event for one that was cut comes to nothing.
#[derive(Clone, Copy)]
struct Target {
    console: usize,
    number: usize,
}

#[derive(Default)]
struct Seat {
    setup: Option<Rc<Setup>>,
    address: Address,
    /// The clock less the link's time.
    offset: i64,
    last: u64,
    /// For which due time a step is planned.
    planned: Dues,
    /// Which of the groups it is in, until they are joined.
    group: u64,
}

/// Addresses: the first are of responders, often each console's own, the others of other devices.
fn address_of(number: usize) -> Address {
    let mut address = [0; 16];
    // IPv4 and IPv6 in turn
    match number % 2 {
        0 => address[10..15].copy_from_slice(&[0xff, 0xff, 10, 0, 0]),
        _ => address[..2].copy_from_slice(&[0xfe, 0x80]),
    }
    address[15] = number as u8;
    address
}

impl<'a> Simulation<'a> {
    /// Whether the list of a seed is one of groups that are joined.
    pub fn joins(seed: u64, percent: u64) -> bool {
        Random::new(!seed).chance(percent)
    }

    /// Whether the list of a seed is left alone.
    pub fn is_left_alone(seed: u64, percent: u64) -> bool {
        Random::new(seed.reverse_bits()).chance(percent)
    }

    /// Plays a whole list, or as much of it as comes before a violation.
    pub fn play(
        mut link: Link<'a>,
        limits: Limits,
        (seed, alone): (u64, bool),
        kind: Kind,
        consoles: usize,
    ) -> io::Result<Link<'a>> {
        link.counts.lists += 1;
        let mut random = Random::new(seed);
        let mut simulation = Simulation {
            link,
            limits,
            style: Style::draw(&mut random, alone),
            random,
            queue: Queue::new(),
            seats: (0..consoles).map(|_| Seat::default()).collect(),
            seen: Vec::new(),
            now: BEGIN,
            end: BEGIN,
            whole: kind == Kind::Whole,
            joined: None,
        };
        simulation.plan_starts(consoles);
        if kind == Kind::Joined {
            simulation.plan_joining();
        }
        simulation.run()?;
        Ok(simulation.link)
    }

    /// 2 to 6 responders that start in the same millisecond, close together, or apart; or some of them when what the others announced
    /// is 30 s old and goes by multicast again.
    fn plan_starts(&mut self, consoles: usize) {
        let count = 2 + self.random.place(consoles - 1);
        let apart = self
            .random
            .pick(&[0, 0, 1, 100, 250, 250, 1000, 3000, LATE_STARTS]);
        for console in 0..count {
            let wait = match apart == LATE_STARTS {
                true => self.random.pick(&[0, apart]) + self.random.up_to(500),
                false => self.random.up_to(apart),
            };
            self.at(wait, Event::Start { console });
        }
        self.end += apart + self.random.pick(&[1201, 1300, 2500, 4000, 8000]);
        assert!(self.end < BEGIN + MOST_LENGTH);
    }

    /// Two groups, or three, that are joined when all hold their names, or in the middle of it.
    fn plan_joining(&mut self) {
        let groups = self.random.pick(&[2, 2, 3]);
        for seat in &mut self.seats {
            seat.group = self.random.up_to(groups - 1);
        }
        let (least, most) = self
            .random
            .pick(&[(0, 500), (0, 1200), (1000, 3000), (1000, 3000)]);
        let wait = least + self.random.up_to(most);
        self.at(wait, Event::Join);
        let length = wait + self.random.pick(&[1500, 3000, 6000]);
        self.end = self.end.max(BEGIN + length);
    }

    /// What was overdue is taken within 50 ms; questions make holders speak.
    fn join(&mut self) -> io::Result<()> {
        self.play_call(0, Call::Join)?;
        self.whole = true;
        self.joined = Some(self.now);
        for console in 0..self.seats.len() {
            let planned = std::mem::take(&mut self.seats[console].planned);
            if let Some(to) = self.target(console) {
                for (step, due) in planned.into_iter().enumerate() {
                    self.plan_step(to, step, due);
                }
            }
        }
        for _ in 0..self.random.up_to(4) {
            let wait = self.random.up_to(1500);
            self.at(wait, Event::Ask);
        }
        Ok(())
    }

    fn ask(&mut self) -> io::Result<()> {
        let seat = self.random.place(self.seats.len());
        let Some(setup) = self.seats[seat].setup.clone() else {
            return Ok(());
        };
        let packet: Packet = hostile::question(&mut self.random, &setup).into();
        let from = address_of(2 * self.seats.len());
        for console in 0..self.seats.len() {
            if let Some(to) = self.target(console) {
                let packet = packet.clone();
                let wait = self.random.up_to(100);
                self.at(wait, Event::Delivery { to, from, packet });
            }
        }
        Ok(())
    }

    fn run(&mut self) -> io::Result<()> {
        while let Some((time, event)) = self.queue.pop() {
            if time > self.end || self.link.violation.is_some() {
                break;
            }
            self.now = time;
            self.happen(event)?;
        }
        Ok(())
    }

    /// Plans an event; equal times are ordered at random.
    fn at(&mut self, wait: u64, event: Event) {
        let order = self.random.number();
        self.queue.push(self.now + wait, order, event);
    }

    fn lives(&self, to: Target) -> bool {
        self.link.number(to.console) == Some(to.number)
    }

    fn happen(&mut self, event: Event) -> io::Result<()> {
        match event {
            Event::Join => self.join(),
            Event::Ask => self.ask(),
            Event::Start { console } => self.start(console),
            Event::Cut { console } => self.cut(console),
            Event::Delivery { to, from, packet } if !self.lives(to) => {
                self.stale(to.console, from, packet)
            }
            Event::Step { to, .. }
            | Event::Stop { to }
            | Event::Update { to, .. }
            | Event::Hostile { to }
            | Event::Astray { to, .. }
            | Event::EarlyTick { to }
            | Event::Refused { to, .. }
                if !self.lives(to) =>
            {
                Ok(())
            }
            Event::Step { to, step, due } => self.step(to, step, due),
            Event::Stop { to } => self.stop(to),
            // "L4's updates left out"
            Event::Update { .. } if self.joined.is_some() => Ok(()),
            Event::Update { to, change } => self.update(to, change),
            Event::Delivery { to, .. } if self.is_deaf(to) => Ok(()),
            Event::Delivery { to, from, packet } => self.receive(to, from, packet),
            Event::Hostile { to } => self.hostile(to),
            Event::Astray { to, packet } => self.astray(to, packet),
            Event::EarlyTick { to } => self.tick(to),
            Event::Refused { to, packet } => self.refused(to, packet),
        }
    }

    /// The clock of a responder now.
    fn clock(&self, console: usize) -> u64 {
        self.clock_at(console, self.now)
    }

    /// Its clock at a time of the link's; 0 where it had not begun to run.
    fn clock_at(&self, console: usize, time: u64) -> u64 {
        (time as i64 + self.seats[console].offset).max(0) as u64
    }

    fn play_call(&mut self, console: usize, call: Call) -> io::Result<Option<Outcome>> {
        self.link.play(Entry {
            time: self.now,
            console,
            call,
        })
    }

    fn start(&mut self, console: usize) -> io::Result<()> {
        if self.random.chance(self.style.extras) {
            let call = refused::start(&mut self.random, self.now);
            self.play_call(console, call)?;
        }
        // after a cut often the set-up of before; or that of another
        let other = self.random.place(self.seats.len());
        let setup = match (&self.seats[console].setup, &self.seats[other].setup) {
            (_, Some(twin)) if self.random.chance(self.style.twins) => twin.clone(),
            (Some(setup), _) if self.random.chance(60) => setup.clone(),
            _ => Rc::new(setups::draw(&mut self.random)),
        };
        let clock = match self.random.up_to(3) {
            0 => 0,
            1 => MOST_TIME - MOST_LENGTH,
            2 => self.now,
            _ => self.random.up_to(1 << 40),
        };
        let draw = match self.random.up_to(3) {
            0 => 0,
            1 => MOST_START_DRAW,
            _ => self.random.up_to(MOST_START_DRAW),
        };
        let address = self.free_address(console);
        self.seats[console] = Seat {
            setup: Some(setup.clone()),
            address,
            offset: clock as i64 - self.now as i64,
            last: clock,
            planned: Dues::default(),
            group: self.seats[console].group,
        };
        let start = Call::Start {
            clock,
            draw,
            setup,
            address,
        };
        let outcome = self.play_call(console, start)?;
        self.follow(console, outcome, None);
        if self.random.chance(self.style.cuts) {
            let wait = self.random.pick(&[0, 250, 1000, 1200, 3000]);
            let wait = self.random.up_to(wait);
            self.at(wait, Event::Cut { console });
        }
        match self.target(console) {
            Some(to) if self.random.chance(self.style.stops) => {
                let wait = self.random.pick(&[0, 250, 1000, 1200, 3000]);
                let wait = self.random.up_to(wait);
                self.at(wait, Event::Stop { to });
            }
            _ => (),
        }
        Ok(())
    }

    fn stop(&mut self, to: Target) -> io::Result<()> {
        let clock = self.clock(to.console);
        let out = self.out();
        let outcome = self.play_call(to.console, Call::Stop { clock, out })?;
        self.follow(to.console, outcome, None);
        let console = to.console;
        if self.random.chance(80) {
            let wait = self.random.pick(&[0, 1, 100, 1000, 3000]);
            let wait = self.random.up_to(wait);
            self.at(wait, Event::Start { console });
        }
        Ok(())
    }

    /// The set-up is changed where the update is taken; another one may come when it may, or a millisecond too soon.
    fn update(&mut self, to: Target, change: Change) -> io::Result<()> {
        let clock = self.clock(to.console);
        let out = self.out();
        let call = Call::Update {
            clock,
            change: change.clone(),
            out,
        };
        let outcome = self.play_call(to.console, call)?;
        let taken = outcome.as_ref().is_some_and(|outcome| outcome.accepted);
        if let (true, Some(setup)) = (taken, &mut self.seats[to.console].setup) {
            let setup = Rc::make_mut(setup);
            match change {
                Change::Port(port) => setup.port = port,
                Change::Txt(txt) => setup.txt = txt,
            }
        }
        self.follow(to.console, outcome, None);
        if self.random.chance(50) {
            let change = setups::change(&mut self.random);
            let wait = UPDATE_GAP - self.random.up_to(1);
            self.at(wait, Event::Update { to, change });
        }
        Ok(())
    }

    /// One that has stopped need take no packet.
    fn is_deaf(&mut self, to: Target) -> bool {
        !self.link.runs(to.console) && self.random.chance(self.style.deaf)
    }

    /// No other running responder's; that of one that was cut, perhaps, whose answers may still be under way.
    fn free_address(&mut self, console: usize) -> Address {
        let mut free: Vec<Address> = (0..=self.seats.len()).map(address_of).collect();
        for other in self.others(console) {
            if self.link.runs(other.console) {
                free.retain(|address| *address != self.seats[other.console].address);
            }
        }
        let own = address_of(console);
        match free.contains(&own) && !self.random.chance(self.style.moves) {
            true => own,
            false => self.random.pick(&free),
        }
    }

    fn cut(&mut self, console: usize) -> io::Result<()> {
        self.play_call(console, Call::Cut)?;
        if self.random.chance(80) {
            let wait = self.random.pick(&[0, 1, 100, 1000]);
            let wait = self.random.up_to(wait);
            self.at(wait, Event::Start { console });
        }
        Ok(())
    }

    /// A planned step; one that moved meanwhile is planned anew already.
    fn step(&mut self, to: Target, step: usize, due: u64) -> io::Result<()> {
        if self.seats[to.console].planned[step] != Some(due) {
            return Ok(());
        }
        self.seats[to.console].planned[step] = None;
        self.tick(to)
    }

    fn tick(&mut self, to: Target) -> io::Result<()> {
        let clock = self.clock(to.console);
        let out = self.out();
        let outcome = self.play_call(to.console, Call::Tick { clock, out })?;
        self.follow(to.console, outcome, None);
        Ok(())
    }

    fn receive(&mut self, to: Target, from: Address, packet: Packet) -> io::Result<()> {
        self.receive_from(to, (from, MDNS_PORT), packet)
    }

    fn receive_from(
        &mut self,
        to: Target,
        (from, port): (Address, u64),
        packet: Packet,
    ) -> io::Result<()> {
        let receive = Receive {
            clock: self.clock(to.console),
            from,
            port,
            draw: self.reply_draw(),
            hold: self.hold_draw(),
            packet,
            outs: [self.out(), self.out()],
        };
        let outcome = self.play_call(to.console, Call::Receive(receive))?;
        self.follow(to.console, outcome, Some((from, port)));
        Ok(())
    }

    /// "One sent before a dock's start need not reach it", but it may reach the one that runs now.
    fn stale(&mut self, console: usize, from: Address, packet: Packet) -> io::Result<()> {
        match self.target(console) {
            Some(to) if self.random.chance(30) => self.receive(to, from, packet),
            _ => Ok(()),
        }
    }

    fn out(&mut self) -> usize {
        self.random.pick(&[LEAST_OUT, LEAST_OUT, 4096])
    }

    fn reply_draw(&mut self) -> u64 {
        let any = LEAST_REPLY_DRAW + self.random.up_to(MOST_REPLY_DRAW - LEAST_REPLY_DRAW);
        self.random.pick(&[LEAST_REPLY_DRAW, MOST_REPLY_DRAW, any])
    }

    fn hold_draw(&mut self) -> u64 {
        let any = LEAST_HOLD_DRAW + self.random.up_to(MOST_HOLD_DRAW - LEAST_HOLD_DRAW);
        self.random.pick(&[LEAST_HOLD_DRAW, MOST_HOLD_DRAW, any])
    }

    /// The source address of a hostile packet: a responder's, one that it had, or another device's.
    fn any_address(&mut self) -> Address {
        if self.random.chance(50) {
            let seat = self.random.place(self.seats.len());
            return self.seats[seat].address;
        }
        let number = self.random.place(2 * self.seats.len());
        address_of(number)
    }

    fn hostile(&mut self, to: Target) -> io::Result<()> {
        let Some(setup) = self.seats[to.console].setup.clone() else {
            return Ok(());
        };
        let packet: Packet = match self.style.responses {
            true => hostile::packet(&mut self.random, &setup, &self.seen),
            false => hostile::query_or_copy(&mut self.random, &setup, &self.seen),
        }
        .into();
        let from = self.any_address();
        // now and then all hear it, within any time
        if self.random.chance(50) {
            for other in self.hearers(to.console) {
                let wait = self.random.up_to(200);
                let packet = packet.clone();
                self.at(
                    wait,
                    Event::Delivery {
                        to: other,
                        from,
                        packet,
                    },
                );
            }
        }
        if self.random.chance(20) {
            return self.astray(to, packet);
        }
        self.receive(to, from, packet)
    }

    /// As from a plain resolver, or refused if it is a response.
    fn astray(&mut self, to: Target, packet: Packet) -> io::Result<()> {
        let source = (self.any_address(), self.random.pick(&OTHER_PORTS));
        self.receive_from(to, source, packet)
    }

    /// The responder that a console has, stopped or not.
    fn target(&self, console: usize) -> Option<Target> {
        let number = self.link.number(console)?;
        Some(Target { console, number })
    }

    fn others(&self, console: usize) -> Vec<Target> {
        (0..self.seats.len())
            .filter(|other| *other != console)
            .filter_map(|other| self.target(other))
            .collect()
    }

    /// The others that a packet reaches.
    fn hearers(&self, console: usize) -> Vec<Target> {
        let group = |console: usize| self.seats[console].group;
        let mut hearers = self.others(console);
        hearers.retain(|other| self.whole || group(other.console) == group(console));
        hearers
    }

    /// After a call: its packet has to reach the others, that by unicast who runs where the message came from, due steps have to be
    /// taken, and other things may happen.
    fn follow(&mut self, console: usize, outcome: Option<Outcome>, source: Option<(Address, u64)>) {
        let (Some(outcome), Some(to)) = (outcome, self.target(console)) else {
            return;
        };
        if !outcome.accepted {
            return;
        }
        self.seats[console].last = self.clock(console);
        if let Some(packet) = outcome.sent {
            self.plan_deliveries(to, packet);
        }
        if let (Some(packet), Some((address, MDNS_PORT))) = (outcome.unicast, source) {
            self.plan_unicast(to, address, packet);
        }
        for (step, due) in outcome.claims.due.into_iter().enumerate() {
            self.plan_step(to, step, due);
        }
        self.plan_extras(to, outcome.claims.due);
    }

    fn plan_deliveries(&mut self, from: Target, packet: Packet) {
        for to in self.hearers(from.console) {
            self.plan_delivery(from, to, self.limits.delay, packet.clone());
        }
        // a truncated query that comes from the same address, before its probe or behind it
        let is_query = packet[2] & 0x80 == 0;
        if is_query && self.random.chance(self.style.truncations) {
            self.plan_truncated(from);
        }
        // a responder's packet from a port that is not its own
        if self.random.chance(self.style.extras) {
            if let [first, ..] = self.hearers(from.console)[..] {
                let wait = self.random.up_to(self.limits.delay);
                let packet = packet.clone();
                self.at(wait, Event::Astray { to: first, packet });
            }
        }
        // a packet may come back to its sender
        if self.random.chance(self.style.extras) {
            let wait = self.random.up_to(self.limits.delay);
            let echo = Event::Delivery {
                to: from,
                from: self.seats[from.console].address,
                packet: packet.clone(),
            };
            self.at(wait, echo);
        }
        self.seen.push(packet);
    }

    /// All others hear a truncated query from a responder's address, which it did not send.
    fn plan_truncated(&mut self, from: Target) {
        let address = self.seats[from.console].address;
        for to in self.hearers(from.console) {
            let Some(setup) = self.seats[to.console].setup.clone() else {
                continue;
            };
            let packet = hostile::truncated(&mut self.random, &setup).into();
            let wait = self.random.pick(&[0, 0, 50]);
            let delivery = Event::Delivery {
                to,
                from: address,
                packet,
            };
            self.at(wait, delivery);
        }
    }

    /// One delivery in time; at times another one, too late or of a packet that is to be taken yet, or a refused call with it.
    fn plan_delivery(&mut self, from: Target, to: Target, most: u64, packet: Packet) {
        if !self.whole && self.random.chance(self.style.losses) {
            return;
        }
        let address = self.seats[from.console].address;
        let delay = self.style.delays.time(&mut self.random, most);
        let delivery = || Event::Delivery {
            to,
            from: address,
            packet: packet.clone(),
        };
        self.at(delay, delivery());
        if self.random.chance(self.style.extras) {
            let (again, stale) = (self.random.up_to(delay), self.random.up_to(3000));
            let wait = self.random.pick(&[delay, again, stale]);
            self.at(wait, delivery());
        }
        if self.random.chance(self.style.extras) {
            let wait = self.random.up_to(delay);
            let packet = Some(packet.clone());
            self.at(wait, Event::Refused { to, packet });
        }
    }

    /// A packet by unicast reaches who runs at the address; where that is the sender itself, or nobody, it may be lost. Others may
    /// overhear it.
    fn plan_unicast(&mut self, from: Target, address: Address, packet: Packet) {
        let mut hearers = self.hearers(from.console);
        hearers.push(from);
        for to in hearers {
            let there = self.seats[to.console].address == address;
            let owed = there && to.console != from.console;
            if owed || there && self.random.chance(50) || self.random.chance(self.style.extras / 4)
            {
                self.plan_delivery(from, to, self.limits.unicast, packet.clone());
            }
        }
        self.seen.push(packet);
    }

    /// `due` is on the responder's clock. What was overdue when groups were joined has its time from then.
    fn plan_step(&mut self, to: Target, step: usize, due: Option<u64>) {
        let seat = &mut self.seats[to.console];
        if seat.planned[step] == due {
            return;
        }
        seat.planned[step] = due;
        let Some(due) = due else {
            return;
        };
        let late = match self.whole || !self.random.chance(self.style.overdue) {
            true => self.style.lateness.time(&mut self.random, self.limits.late),
            false => self.random.up_to(3000),
        };
        let from = match self.joined {
            Some(joined) => due.max(self.clock_at(to.console, joined)),
            None => due,
        };
        let wait = (from + late).saturating_sub(self.clock(to.console));
        self.at(wait, Event::Step { to, step, due });
    }

    /// Early ticks, refused calls and hostile packets, often close to a due time.
    fn plan_extras(&mut self, to: Target, due: Dues) {
        let clock = self.clock(to.console);
        let waits: Vec<u64> = due
            .into_iter()
            .flatten()
            .map(|due| due.saturating_sub(clock))
            .collect();
        let change = match self.random.chance(30) {
            // the data of another
            true => self.data_of_another(),
            false => setups::change(&mut self.random),
        };
        let extras = [
            (self.style.updates, Event::Update { to, change }),
            (self.style.extras, Event::EarlyTick { to }),
            (self.style.extras, Event::Refused { to, packet: None }),
            (self.style.hostility, Event::Hostile { to }),
        ];
        for (chance, event) in extras {
            if self.random.chance(chance) {
                let most = self.random.pick(&[0, 50, 300, 1500]);
                let any = self.random.up_to(most);
                let near = waits.first().map_or(any, |_| self.random.pick(&waits));
                let wait = self
                    .random
                    .pick(&[any, near, near + 1, near.saturating_sub(1)]);
                self.at(wait, event);
            }
        }
    }

    /// What a seat has, as new data for another.
    fn data_of_another(&mut self) -> Change {
        let seat = self.random.place(self.seats.len());
        match &self.seats[seat].setup {
            Some(setup) if self.random.chance(50) => Change::Port(setup.port),
            Some(setup) => Change::Txt(setup.txt.clone()),
            None => setups::change(&mut self.random),
        }
    }

    /// A call that the table of refusals has a number for.
    fn refused(&mut self, to: Target, packet: Option<Packet>) -> io::Result<()> {
        let clock = self.clock(to.console);
        let last = self.seats[to.console].last;
        let random = &mut self.random;
        let call = match packet {
            Some(packet) => refused::receive(random, clock, last, packet),
            None if random.chance(20) => refused::start(random, clock),
            None if random.chance(20) => refused::stop(random, clock, last),
            None if random.chance(40) => refused::update(random, clock, last),
            None => refused::tick(random, clock, last),
        };
        self.play_call(to.console, call).map(|_| ())
    }
}
