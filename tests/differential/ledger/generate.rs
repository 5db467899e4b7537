//! Random scripts, call by call: what is called next goes by the ledgers as they are.

use oracle::literals::mask;
use oracle::{Answer, Ledger, Limits, Masks};

use crate::call::{Call, Field, Meter, PLACES, Region};
use crate::far::{self, SPAN};
use crate::parts;
use crate::random::Random;

/// The ledgers of a script.
pub type Ledgers = [Option<Ledger>; PLACES];

/// The words of a region over so many atoms.
pub fn masks(atoms: u64, region: &Region) -> Masks {
    Masks {
        held: mask(atoms, &region.held),
        cut: mask(atoms, &region.cut),
    }
}

/// The kinds of scripts.
#[derive(Clone, Copy, PartialEq, Eq)]
pub enum Kind {
    /// Tiers of 1 to 6 rows over 1 to 130 atoms.
    Tiny,
    /// The same over 4,096 atoms and more.
    Wide,
    /// Tiers of 64 rows and more, so that there are postings.
    Many,
    /// Tiers of 1 to 6 rows over 32,768 atoms and more, with rows on both sides of that.
    Far,
    /// The same with 64 rows and more.
    FarMany,
}

impl Kind {
    fn is_many(self) -> bool {
        matches!(self, Self::Many | Self::FarMany)
    }

    fn is_far(self) -> bool {
        matches!(self, Self::Far | Self::FarMany)
    }
}

/// Chooses the calls of a script.
pub struct Author {
    pub random: Random,
    pub kind: Kind,
    /// Whether a script of lines can say all that is chosen.
    plain: bool,
    atoms: u64,
    pool: Vec<u64>,
    ledgers: usize,
    /// So many rows are first offered to ledger 0.
    wanted: usize,
    /// A publication to go on with.
    going: Option<Call>,
    /// Who offers Tips; none where all rows are Founded.
    chef: Option<Chef>,
}

/// Chooses the sources of rows, by random numbers of its own: without it a script is as it was.
struct Chef {
    random: Random,
    /// Of eight rows so many are Tips.
    tips: u64,
}

impl Chef {
    /// A source: 0 for Founded, 1 for a Tip.
    fn source(&mut self) -> u64 {
        u64::from(self.random.chance(self.tips, 8))
    }

    /// A floor about as high as the founded count of a full tier is likely to be.
    fn floor(&mut self, tier_rows: u64) -> u64 {
        let founded = tier_rows * (8 - self.tips) / 8;
        (founded + self.random.below(3)).saturating_sub(1)
    }
}

impl Author {
    pub fn new(mut random: Random, kind: Kind, plain: bool) -> Self {
        let (atoms, pool) = match kind {
            Kind::Tiny => {
                let atoms = random.within(1, 130);
                (atoms, random.within(1, 9))
            }
            Kind::Wide => (
                random.pick(&[4_096, 4_097, 10_000, 32_767, 32_768, 32_768, 32_768]),
                random.within(2, 60),
            ),
            Kind::Many => (
                random.pick(&[100, 128, 130, 130, 4_096]),
                random.within(40, 100),
            ),
            Kind::Far => (far::atoms(&mut random), 0),
            Kind::FarMany => (random.pick(&[SPAN, SPAN + 1, SPAN + 1, 200_001]), 0),
        };
        let pool = if kind.is_far() {
            far::pool(&mut random, atoms, kind.is_many())
        } else {
            parts::pool(&mut random, atoms, pool)
        };
        let (ledgers, wanted) = if kind.is_many() {
            (2, random.pick(&[63, 64, 65, 66, 70, 80, 90]))
        } else {
            (random.within(2, PLACES as u64) as usize, 0)
        };
        Self {
            random,
            kind,
            plain,
            atoms,
            pool,
            ledgers,
            wanted,
            going: None,
            chef: None,
        }
    }

    /// The same with Tips among the rows that are offered.
    pub fn with_tips(mut self, mut random: Random) -> Self {
        let tips = random.pick(&[1, 2, 4, 4, 6, 8]);
        self.chef = Some(Chef { random, tips });
        self
    }

    /// The source of a row that is offered: now and then none.
    fn source(&mut self) -> u64 {
        let Some(chef) = &mut self.chef else { return 0 };
        if chef.random.chance(1, 25) {
            return chef.random.pick(&[2, 2, 3, 256, 1 << 32, u64::MAX]);
        }
        chef.source()
    }

    /// The calls after the ledgers are made and filled.
    pub fn length(&mut self) -> usize {
        let most = match self.kind {
            Kind::Tiny => self.random.within(20, 80),
            Kind::Wide | Kind::Far => self.random.within(10, 30),
            Kind::Many | Kind::FarMany => self.random.within(20, 50),
        };
        most as usize
    }

    /// Whether ledgers are still to be made or filled.
    pub fn opens(&self, ledgers: &Ledgers) -> bool {
        let unmade = (0..self.ledgers).any(|place| ledgers[place].is_none());
        unmade || self.fills(ledgers)
    }

    /// Whether ledger 0 is to have more rows.
    fn fills(&self, ledgers: &Ledgers) -> bool {
        let lacks = |ledger: &Ledger| {
            let rows = ledger.rows();
            rows < self.wanted && rows < ledger.limits().tier_rows as usize
        };
        ledgers[0].as_ref().is_some_and(lacks)
    }

    /// The next call.
    pub fn call(&mut self, ledgers: &Ledgers) -> Call {
        if let Some(place) = (0..self.ledgers).find(|&place| ledgers[place].is_none()) {
            return self.make(place);
        }
        if self.fills(ledgers) {
            // Rows that are joined must not be waited for for ever.
            self.wanted -= usize::from(self.random.chance(1, 60));
            return self.fill(ledgers);
        }
        let goes_on = self.random.chance(4, 5);
        if let Some(call) = self.going.take().filter(|_| goes_on) {
            return self.publish(call, ledgers);
        }
        let place = self.place(ledgers);
        let ledger = ledgers[place].as_ref().expect("a ledger that is made");
        // With many rows searches and closings are what is looked for.
        let weights = if self.kind.is_many() {
            self.random.pick(&[(0, 99), (36, 45), (36, 45), (81, 90)])
        } else {
            (0, 99)
        };
        match self.random.within(weights.0, weights.1) {
            0..27 => self.offer(place, ledger),
            27..33 => self.hit(place, ledger),
            33..36 => Call::Begin { place },
            36..46 => self.candidates(place),
            46..55 => self.deduce(place, ledger),
            55..63 => self.next(place, ledger, ledgers),
            63..72 => self.transfer(place, true),
            72..81 => self.transfer(place, false),
            81..91 => self.close(place, ledger),
            91..94 => self.decide(),
            94..96 => self.make(place),
            _ => self.set(place, ledger),
        }
    }

    /// The ledger of the next call: mostly one with rows.
    fn place(&mut self, ledgers: &Ledgers) -> usize {
        let place = self.random.below(self.ledgers as u64) as usize;
        let rows = |place: usize| ledgers[place].as_ref().map_or(0, Ledger::rows);
        if rows(place) > 0 || self.random.chance(1, 4) {
            return place;
        }
        (0..self.ledgers)
            .find(|&other| rows(other) > 0)
            .unwrap_or(place)
    }

    fn limits(&mut self) -> Limits {
        let random = &mut self.random;
        let tiny = random.within(1, 6);
        let many = self.kind.is_many() && !random.chance(1, 30);
        let tier_rows = if many {
            self.wanted as u64 + random.below(7)
        } else {
            tiny
        };
        let (some, any) = (random.below(17), random.below(65));
        let attempts = random.pick(&[256, 256, u64::MAX, some]);
        let mut limits = Limits {
            atoms: random.within(1, 130),
            tier_rows,
            founded_conditions: random.pick(&[16, 16, 16, 4, 2, some]),
            founded_outputs: random.pick(&[64, 64, 64, 8, 3, any]),
            founded_floor: random.pick(&[0, 0, 1, 2, tier_rows - 1, tier_rows, 64, any]),
            founded_attempts: attempts,
            founded_work: parts::amount(random),
            share_work: parts::amount(random),
            share_conditions: random.pick(&[0, 1, 2, 8, u64::MAX]),
            share_hits: random.pick(&[0, 1, 2, 3, u64::MAX]),
        };
        if random.chance(24, 25) {
            limits.atoms = self.atoms;
        }
        if let Some(chef) = &mut self.chef
            && chef.random.chance(1, 2)
        {
            limits.founded_floor = chef.floor(tier_rows);
        }
        if self.wanted > 0 {
            limits.founded_conditions = 16;
            limits.founded_outputs = 64;
            limits.founded_attempts = 512;
            limits.founded_work = u64::MAX;
            limits.share_work = 1 << 40;
        }
        limits
    }

    fn make(&mut self, place: usize) -> Call {
        let mut limits = self.limits();
        let random = &mut self.random;
        if random.chance(1, 12) {
            match random.below(6) {
                0 => limits.atoms = random.pick(&[0, far::TOO_MANY, u64::MAX]),
                1 => limits.tier_rows = random.pick(&[0, 4_097, u64::MAX]),
                2 => limits.founded_conditions = random.pick(&[17, u64::MAX]),
                3 => limits.founded_outputs = random.pick(&[65, u64::MAX]),
                _ => {}
            }
        }
        Call::Make {
            place,
            limits,
            number: random.pick(&[1, 1, 2, 3, u64::MAX]),
        }
    }

    /// A row that is likely to be new.
    fn fill(&mut self, ledgers: &Ledgers) -> Call {
        let ledger = ledgers[0].as_ref().expect("ledger 0 is made");
        let limits = ledger.limits();
        let rows = ledger.rows() as u64;
        let atom = self.pool[rows as usize % self.pool.len()] % limits.atoms;
        let other = self.random.pick(&self.pool) % limits.atoms;
        let (mut conditions, mut outputs) = (vec![2 * atom + rows % 2], vec![2 * other + 1]);
        if rows as usize >= self.pool.len() && other != atom {
            conditions.push(2 * other);
            conditions.sort_unstable();
        }
        if self.random.chance(1, 4) {
            outputs.push(2 * (other / 2) + 1);
            outputs.push(2 * atom);
            outputs.sort_unstable();
            outputs.dedup();
        }
        Call::Offer {
            place: 0,
            meter: Meter::fresh(1_000_000),
            conditions,
            outputs,
            source: self.chef.as_mut().map_or(0, Chef::source),
        }
    }

    fn offer(&mut self, place: usize, ledger: &Ledger) -> Call {
        let mut row = parts::row(&mut self.random, ledger, &self.pool);
        if self.random.chance(1, 20) {
            parts::spoil(&mut self.random, ledger, &mut row);
        }
        Call::Offer {
            place,
            meter: parts::meter(&mut self.random, self.plain),
            conditions: row.0,
            outputs: row.1,
            source: self.source(),
        }
    }

    /// A position: mostly one of a row.
    fn position(&mut self, ledger: &Ledger) -> u64 {
        let rows = ledger.rows() as u64;
        if rows == 0 || self.random.chance(1, 20) {
            return self.random.pick(&[rows, rows + 1, 4_096, u64::MAX]);
        }
        self.random.below(rows)
    }

    fn hit(&mut self, place: usize, ledger: &Ledger) -> Call {
        let position = self.position(ledger);
        Call::Hit { place, position }
    }

    fn candidates(&mut self, place: usize) -> Call {
        let random = &mut self.random;
        let count = random.pick(&[0, 1, 1, 2, 3, 6]);
        let mut atoms: Vec<u64> = (0..count).map(|_| random.pick(&self.pool)).collect();
        if random.chance(1, 8) {
            atoms.push(random.pick(&[self.atoms, u64::MAX, 1 << 52]));
        }
        Call::Candidates {
            place,
            meter: parts::meter(random, self.plain),
            atoms,
        }
    }

    /// A region for the row at a position, or for any.
    fn region(&mut self, ledger: &Ledger, position: Option<u64>) -> Region {
        let random = &mut self.random;
        let rows = ledger.rows() as u64;
        let position = match position {
            Some(position) => position,
            None => random.below(rows + 1),
        };
        let row = (position < rows).then(|| ledger.row(position as usize));
        let mut region = parts::region(random, row, ledger.atoms(), &self.pool);
        if random.chance(1, 25) {
            parts::unmake(random, &mut region, ledger.atoms());
        }
        region
    }

    fn deduce(&mut self, place: usize, ledger: &Ledger) -> Call {
        let position = self.position(ledger);
        Call::Deduce {
            place,
            meter: parts::meter(&mut self.random, self.plain),
            position,
            region: self.region(ledger, Some(position)),
        }
    }

    fn next(&mut self, place: usize, ledger: &Ledger, ledgers: &Ledgers) -> Call {
        let position = self.position(ledger);
        let starts = position >= ledger.rows() as u64 || self.random.chance(1, 2);
        let cursor = if starts {
            [0; 4]
        } else {
            parts::cursor(&mut self.random, &ledger.row(position as usize))
        };
        let region = self.region(ledger, Some(position));
        let call = Call::Next {
            place,
            meter: Meter::fresh(0),
            position,
            cursor,
            region,
        };
        self.publish(call, ledgers)
    }

    /// A Next output with a meter of its own, and a note of where the publication goes on.
    fn publish(&mut self, mut call: Call, ledgers: &Ledgers) -> Call {
        if let Some(meter) = call.meter_mut() {
            *meter = parts::meter(&mut self.random, self.plain);
        }
        if let Call::Next {
            place,
            meter,
            position,
            cursor,
            region,
        } = &call
        {
            let ledger = ledgers[*place].as_ref().expect("a ledger that is made");
            let masks = masks(ledger.atoms(), region);
            let fields = parts::fields(*cursor);
            let published = ledger.next_output(*position, fields, &masks, meter.room());
            if let Answer::Output(code) = published.answer {
                let mut region = region.clone();
                self.decide_output(&mut region, code);
                self.going = Some(Call::Next {
                    place: *place,
                    meter: *meter,
                    position: *position,
                    cursor: parts::words(published.cursor),
                    region,
                });
            }
        }
        call
    }

    /// An output that is published is often decided before the next is asked for.
    fn decide_output(&mut self, region: &mut Region, code: u64) {
        let atom = code / 2;
        let decided = region.held.contains(&atom) || region.cut.contains(&atom);
        if decided || self.random.chance(1, 2) {
            return;
        }
        let list = if code % 2 == 1 {
            &mut region.held
        } else {
            &mut region.cut
        };
        list.push(atom);
        list.sort_unstable();
    }

    fn transfer(&mut self, place: usize, seeds: bool) -> Call {
        let step = self.random.within(1, self.ledgers as u64 - 1) as usize;
        let (tier, store) = (place, (place + step) % self.ledgers);
        let meter = parts::meter(&mut self.random, self.plain);
        if seeds {
            Call::Seed { tier, store, meter }
        } else {
            Call::Deliver { tier, store, meter }
        }
    }

    fn close(&mut self, place: usize, ledger: &Ledger) -> Call {
        Call::Close {
            place,
            meter: parts::meter(&mut self.random, self.plain),
            region: self.region(ledger, None),
        }
    }

    fn decide(&mut self) -> Call {
        let random = &mut self.random;
        let atoms = if random.chance(1, 12) {
            random.pick(&[0, far::TOO_MANY, u64::MAX])
        } else {
            self.atoms
        };
        let mut region = parts::region(random, None, self.atoms, &self.pool);
        if random.chance(1, 10) {
            parts::unmake(random, &mut region, self.atoms);
        }
        let some = random.pick(&self.pool);
        Call::Decide {
            atoms,
            atom: random.pick(&[some, some, some, self.atoms, self.atoms - 1, u64::MAX]),
            value: random.chance(1, 2),
            region,
        }
    }

    /// Sets a number that calls alone would take too long to reach.
    fn set(&mut self, place: usize, ledger: &Ledger) -> Call {
        if self.plain {
            return self.close(place, ledger);
        }
        let random = &mut self.random;
        let most = u64::MAX - random.below(4);
        let few = random.below(60);
        let row = random.below(ledger.rows().max(1) as u64) as usize;
        let (field, value) = match random.below(8) {
            0 => (Field::Remaining, random.pick(&[few, most])),
            1 => (Field::Sharing, random.pick(&[few, most])),
            2 => (Field::Born, most),
            3 => (Field::Evicted, most),
            4 => (Field::Deliveries, most),
            5 => (Field::Seeded, most),
            _ if ledger.rows() == 0 => (Field::Remaining, 131_072),
            6 => (Field::Hits(row), random.pick(&[few, most])),
            _ => (Field::Unshared(row), random.pick(&[few, most])),
        };
        Call::Set {
            place,
            field,
            value,
        }
    }
}
