//! How one list draws its times, and how hostile it is. Each list has its own style, so that limits meet limits often.

use crate::random::Random;

pub struct Style {
    pub delays: Spread,
    pub lateness: Spread,
    /// In percent: how often a packet comes twice, a tick early, a call refused.
    pub extras: u64,
    /// In percent: how often a call brings a hostile packet soon after.
    pub hostility: u64,
    /// Hostile packets may be responses that no responder wrote.
    pub responses: bool,
    /// In percent: how many probes have a truncated query beside them, from the same address, which the prober did not send.
    pub truncations: u64,
    /// In percent: how many responders are cut.
    pub cuts: u64,
    /// In percent: how many responders are stopped, and how often one has new data.
    pub stops: u64,
    pub updates: u64,
    /// In percent: how often a start takes the set-up of another, as it is then.
    pub twins: u64,
    /// In percent: how often a responder that has stopped takes no packet.
    pub deaf: u64,
    /// In percent, before groups are joined: how many packets are lost, and how many steps are long overdue.
    pub losses: u64,
    pub overdue: u64,
    /// In percent: how often a start takes any address that is free, and not its console's.
    pub moves: u64,
}

#[derive(Clone, Copy)]
pub enum Spread {
    Least,
    Most,
    Ends,
    Any,
}

impl Style {
    /// Of a list that is left alone nobody is cut, stopped or updated.
    pub fn draw(random: &mut Random, alone: bool) -> Style {
        let often = |percent: u64| if alone { 0 } else { percent };
        Style {
            delays: Spread::draw(random),
            lateness: Spread::draw(random),
            extras: random.pick(&[0, 5, 20]),
            hostility: random.pick(&[0, 0, 0, 3, 10, 20]),
            truncations: random.pick(&[0, 0, 0, 100]),
            responses: !alone,
            cuts: often(random.pick(&[0, 0, 20, 60])),
            stops: often(random.pick(&[0, 0, 20, 60])),
            updates: often(random.pick(&[0, 2, 5, 15])),
            twins: random.pick(&[0, 0, 50]),
            deaf: random.pick(&[0, 50, 100]),
            losses: random.pick(&[0, 0, 10, 50]),
            overdue: random.pick(&[0, 10, 50]),
            moves: random.pick(&[0, 50, 100]),
        }
    }
}

impl Spread {
    fn draw(random: &mut Random) -> Spread {
        random.pick(&[
            Spread::Least,
            Spread::Most,
            Spread::Ends,
            Spread::Any,
            Spread::Any,
        ])
    }

    /// A time from 0 to `most`.
    pub fn time(self, random: &mut Random, most: u64) -> u64 {
        match self {
            Spread::Least => 0,
            Spread::Most => most,
            Spread::Ends => random.pick(&[0, most]),
            Spread::Any => random.up_to(most),
        }
    }
}
