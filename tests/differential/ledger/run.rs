//! Rounds of random scripts, and what is found in them.

use crate::call::Call;
use crate::compare::{Made, World};
use crate::counts::Counts;
use crate::fault::Fault;
use crate::generate::{Author, Kind};
use crate::random::Random;
use crate::required;
use crate::shrink;
use crate::sweep::Sweep;
use crate::tips;
use crate::unfit;

/// So many differences are shown, at their smallest.
const SHOWN: u64 = 3;

/// A difference at its smallest.
pub struct Smallest {
    pub script: Vec<Call>,
    pub text: String,
}

#[derive(Default)]
pub struct Comparison {
    pub counts: Counts,
    pub differ: u64,
    pub found: Vec<Smallest>,
    pub fault: Option<Fault>,
}

impl Comparison {
    pub fn new(fault: Option<Fault>) -> Self {
        Self {
            fault,
            ..Self::default()
        }
    }

    /// Takes in what another has found.
    pub fn join(&mut self, other: Self) {
        self.counts.join(&other.counts);
        self.differ += other.differ;
        self.found.extend(other.found);
    }

    /// A script, and a difference that its last call showed.
    fn differs(&mut self, script: Vec<Call>) {
        self.differ += 1;
        if self.differ <= SHOWN {
            self.found.push(shrink::shrink(script, self.fault));
        }
    }

    /// Makes a call on a copy of the world, after some numbers are set. It gives the charge.
    pub fn attempt(
        &mut self,
        world: &World,
        history: &[Call],
        sets: &[Call],
        call: &Call,
    ) -> Option<u64> {
        let mut copy = world.copy(call);
        for set in sets {
            copy.step(set);
        }
        let made = copy.step(call)?;
        self.counts.add(call, &copy, &made);
        if made.difference.is_some() {
            self.differs([history, sets, std::slice::from_ref(call)].concat());
        }
        Some(made.charge)
    }

    /// Makes the next call of a script. False: the two sides differ, and the script ends.
    fn advance(&mut self, world: &mut World, history: &mut Vec<Call>, call: Call) -> bool {
        let made = world.step(&call);
        history.push(call);
        let Some(made) = made else { return true };
        self.counts.add(&history[history.len() - 1], world, &made);
        let Made { difference, .. } = made;
        if difference.is_some() {
            self.differs(history.clone());
        }
        difference.is_none()
    }

    /// A random script, and in some rounds one of Requires, in some one of Tips.
    pub fn round(&mut self, random: Random) {
        let mut other = Random(!random.0);
        self.script(random);
        let mut more = Random(other.word());
        if other.chance(1, 50) {
            let calls = required::script(&mut other);
            self.written(other, calls);
        }
        if more.chance(1, 20) {
            let calls = tips::script(&mut more);
            self.written(more, calls);
        }
    }

    /// A script that is written out, of which some calls are swept over.
    fn written(&mut self, mut random: Random, calls: Vec<Call>) {
        let mut world = World::new(self.fault);
        let mut history = Vec::new();
        for call in calls {
            if random.chance(1, 4) {
                let sweep = Sweep {
                    world: &world,
                    history: &history,
                    call: &call,
                };
                sweep.run(self, &mut random);
            }
            if !self.advance(&mut world, &mut history, call) {
                return;
            }
        }
    }

    /// A random script, of which some calls are swept over and some are tried with unfit words.
    fn script(&mut self, mut random: Random) {
        let kind = match random.below(400) {
            0..12 => Kind::Many,
            12..28 => Kind::Wide,
            28..36 => Kind::Far,
            36..38 => Kind::FarMany,
            _ => Kind::Tiny,
        };
        let mut author = Author::new(Random(random.word()), kind, false);
        if !random.chance(1, 8) {
            author = author.with_tips(Random(random.word()));
        }
        let mut world = World::new(self.fault);
        let mut history = Vec::new();
        let mut left = author.length();
        while left > 0 {
            let opens = author.opens(&world.ledgers);
            let call = author.call(&world.ledgers);
            if !opens {
                left -= 1;
                self.beside(&mut random, &world, &history, &call);
            }
            if !self.advance(&mut world, &mut history, call) {
                return;
            }
        }
        if world.anywhere().is_some() {
            self.differs(history);
        }
    }

    /// What is tried before a call is made: the same call swept over, or with unfit words.
    fn beside(&mut self, random: &mut Random, world: &World, history: &[Call], call: &Call) {
        if random.chance(1, 16) {
            let sweep = Sweep {
                world,
                history,
                call,
            };
            sweep.run(self, random);
        }
        if call.operation().is_some() && random.chance(1, 6) {
            let wounds = random.pick(&[1, 1, 1, 2]);
            let wounds = (0..wounds).map(|_| unfit::wound(random, call, world));
            let unfit = Call::Unfit {
                wounds: wounds.collect(),
                call: Box::new(call.clone()),
            };
            self.attempt(world, history, &[], &unfit);
        }
    }
}
