//! The driver's way into `ledger`, compiled where the Rust keeps tests of its own, so that private items are in reach.
//!
//! `capture`, `seed` and `deliver` look a class up first and call `collect`, which document 01 leaves behind. What they do
//! below is restated here over the Rust's own `retain`, `seed_rows` and `deliver_rows`.

use super::row::OutputCursor;
use super::{
    Entry, LearningLimits, LearningOwner, Ledger, Literals, Proposed, Retained, Source, Transfer,
    deliver_rows,
};
use crate::regions::{
    Cursor, Deduced, Fields, Literal, Metered, Origin, Record, Retention, Shape, Theory, Tier,
    Work,
};

impl Literals {
    /// Lists with no room to spare: the Rust chooses a row's form by capacities, document 01 by lengths.
    pub(in crate::regions) fn exact(conditions: &[Literal], outputs: &[Literal]) -> Self {
        let literals = Self {
            conditions: conditions.to_vec(),
            outputs: outputs.to_vec(),
        };
        assert_eq!(literals.conditions.capacity(), conditions.len());
        assert_eq!(literals.outputs.capacity(), outputs.len());
        literals
    }
}

impl From<Origin> for Source {
    fn from(origin: Origin) -> Self {
        match origin {
            Origin::Founded => Self::Founded,
            Origin::Tip => Self::Tip,
        }
    }
}

impl From<Source> for Origin {
    fn from(source: Source) -> Self {
        match source {
            Source::Founded => Self::Founded,
            Source::Tip => Self::Tip,
        }
    }
}

impl Clone for Entry {
    fn clone(&self) -> Self {
        Self {
            row: self.row.clone(),
            source: self.source,
            hits: self.hits,
            unshared: self.unshared,
            born: self.born,
            delivered: self.delivered,
        }
    }
}

impl Clone for Ledger {
    fn clone(&self) -> Self {
        Self {
            owner: self.owner.clone(),
            rows: self.rows.clone(),
            postings: self.postings.clone(),
            ..*self
        }
    }
}

impl From<Retained> for Retention {
    fn from(retained: Retained) -> Self {
        match retained {
            Retained::Added(position) => Self::Added(position),
            Retained::Subsumed(position) => Self::Subsumed(position),
            Retained::Declined => Self::Declined,
        }
    }
}

/// Runs what makes at most one retention. Document 01 lets `born` and `evicted` stay at the greatest number, where the
/// Rust's additions would overflow: such a count is first lowered by one, and is the greatest number again after.
fn saturating<T>(ledger: &mut Ledger, run: impl FnOnce(&mut Ledger) -> T) -> T {
    let born = ledger.born == u64::MAX;
    let evicted = ledger.evicted == u64::MAX;
    ledger.born -= u64::from(born);
    ledger.evicted -= u64::from(evicted);
    let result = run(ledger);
    if born {
        ledger.born = u64::MAX;
    }
    if evicted {
        ledger.evicted = u64::MAX;
    }
    result
}

/// Whether `born` or `evicted` could overflow in this many retentions.
fn near_saturation(ledger: &Ledger, retentions: usize) -> bool {
    (u64::MAX - ledger.born.max(ledger.evicted)) < retentions as u64
}

/// Whether delivering goes on after this row: it was delivered, or it was passed over. Only a Declined row ends it.
fn goes_on(entry: &Entry, limits: LearningLimits) -> bool {
    let passed_over =
        entry.row.lengths().0 > limits.share_conditions && entry.hits < limits.share_hits;
    (entry.delivered && entry.unshared == 0) || passed_over
}

/// `seed_rows`; near saturation it is called for each row by itself.
fn seed_all(
    tier: &mut Ledger,
    rows: &[Entry],
    read: u64,
    transfer: &mut Transfer,
    work: &mut Work<'_>,
) -> Metered<bool> {
    let outputs = tier.limits().founded_outputs;
    if !near_saturation(tier, rows.len()) {
        return tier.seed_rows(rows, read, outputs, transfer, work);
    }
    for row in rows.chunks(1) {
        let whole = saturating(tier, |tier| {
            tier.seed_rows(row, read, outputs, transfer, work)
        })?;
        if !whole {
            return Ok(false);
        }
    }
    Ok(true)
}

/// `deliver_rows`; near saturation it is called for each row by itself.
fn deliver_all(
    rows: &mut [Entry],
    store: &mut Ledger,
    limits: LearningLimits,
    transfer: &mut Transfer,
    work: &mut Work<'_>,
) -> Metered<()> {
    if !near_saturation(store, rows.len()) {
        return deliver_rows(rows, store, limits, transfer, work);
    }
    for row in rows.chunks_mut(1) {
        saturating(store, |store| {
            deliver_rows(row, store, limits, transfer, work)
        })?;
        if !goes_on(&row[0], limits) {
            return Ok(());
        }
    }
    Ok(())
}

impl Tier {
    /// A fresh ledger, as the Rust prepares one for its owner.
    pub fn new(limits: LearningLimits) -> Self {
        let mut ledger = Ledger::default();
        ledger.prepare(&LearningOwner::theory(&Theory, limits));
        Self { ledger }
    }

    pub fn limits(&self) -> LearningLimits {
        self.ledger.limits()
    }

    pub fn fields(&self) -> Fields {
        let ledger = &self.ledger;
        Fields {
            rows: ledger.rows.len(),
            born: ledger.born,
            epoch: ledger.epoch,
            attempts: ledger.attempts,
            remaining: ledger.remaining,
            sharing: ledger.sharing,
            evicted: ledger.evicted,
            founded: ledger.founded,
            stale: ledger.stale,
            full: ledger.full,
            mark: ledger.seeded_from,
        }
    }

    /// Sets every field but the numbers of rows and of Founded rows. Postings can be made stale, never the other way.
    pub fn set_fields(&mut self, fields: Fields) {
        let ledger = &mut self.ledger;
        ledger.born = fields.born;
        ledger.epoch = fields.epoch;
        ledger.attempts = fields.attempts;
        ledger.remaining = fields.remaining;
        ledger.sharing = fields.sharing;
        ledger.evicted = fields.evicted;
        ledger.full = fields.full;
        ledger.seeded_from = fields.mark;
        if fields.stale {
            ledger.stale = true;
            ledger.postings.clear();
        }
    }

    pub fn shape(&self, position: usize) -> Shape {
        self.ledger.rows[position].row.shape()
    }

    pub fn record(&self, position: usize) -> Record {
        let entry = &self.ledger.rows[position];
        Record {
            hits: entry.hits,
            unshared: entry.unshared,
            born: entry.born,
            delivered: entry.delivered,
        }
    }

    pub fn origin(&self, position: usize) -> Origin {
        self.ledger.rows[position].source.into()
    }

    pub fn set_record(&mut self, position: usize, record: Record) {
        let entry = &mut self.ledger.rows[position];
        entry.hits = record.hits;
        entry.unshared = record.unshared;
        entry.born = record.born;
        entry.delivered = record.delivered;
    }

    /// The postings (atom, position). The Rust keeps a part of them after a stopped rebuild; document 01 keeps none.
    pub fn postings(&self) -> &[(usize, usize)] {
        if self.ledger.stale {
            return &[];
        }
        &self.ledger.postings
    }

    pub fn can_capture(&self) -> bool {
        self.ledger.can_capture()
    }

    /// `capture` after `collect`, for a row that is given.
    pub fn capture(
        &mut self,
        conditions: &[Literal],
        outputs: &[Literal],
        origin: Origin,
        work: &mut Work<'_>,
    ) -> Metered<Retention> {
        let ledger = &mut self.ledger;
        ledger.attempts += 1;
        let mut remaining = ledger.remaining;
        let proposed = Proposed {
            literals: Literals::exact(conditions, outputs),
            source: origin.into(),
            hits: 0,
            maximum_outputs: ledger.limits().founded_outputs,
        };
        let result = saturating(ledger, |ledger| {
            ledger.retain(proposed, &mut remaining, work, &mut 0)
        });
        ledger.remaining = remaining;
        Ok(result?.into())
    }

    pub fn hit(&mut self, position: usize) {
        self.ledger.hit(position);
    }

    pub fn begin_narrowing(&mut self) {
        self.ledger.begin_narrowing();
    }

    pub fn candidates(&mut self, atoms: &[usize], work: &mut Work<'_>) -> Metered<Vec<usize>> {
        let mut rows = Vec::new();
        self.ledger.candidates(atoms, &mut rows, work)?;
        Ok(rows)
    }

    pub fn deduction(
        &self,
        position: usize,
        held: &[u64],
        cut: &[u64],
        work: &mut Work<'_>,
    ) -> Metered<Deduced> {
        let deduction = self.ledger.deduction(position, held, cut, work)?;
        Ok(deduction.into())
    }

    pub fn next_publication_output(
        &self,
        position: usize,
        cursor: &mut Cursor,
        held: &[u64],
        cut: &[u64],
        work: &mut Work<'_>,
    ) -> Metered<Option<Literal>> {
        let mut moved = OutputCursor::from_fields(*cursor);
        let result = self
            .ledger
            .next_publication_output(position, &mut moved, held, cut, work);
        *cursor = moved.fields();
        result
    }

    /// `seed` below the class lookup, from the store with this number. `moved` is the number of rows Added.
    pub fn seed(
        &mut self,
        store: &Self,
        number: u64,
        moved: &mut u64,
        work: &mut Work<'_>,
    ) -> Metered<()> {
        let tier = &mut self.ledger;
        let read = match tier.seeded_from {
            Some((store_number, born)) if store_number == number => born,
            _ => 0,
        };
        let mark = (number, store.ledger.born);
        let mut transfer = transfer(tier);
        let result = seed_all(tier, &store.ledger.rows, read, &mut transfer, work);
        tier.sharing = transfer.sharing;
        *moved = transfer.moved;
        if result? {
            tier.seeded_from = Some(mark);
        }
        Ok(())
    }

    /// `deliver` below the class lookup. `moved` is the number of rows Added.
    pub fn deliver(
        &mut self,
        store: &mut Self,
        moved: &mut u64,
        work: &mut Work<'_>,
    ) -> Metered<()> {
        let tier = &mut self.ledger;
        let limits = tier.limits();
        let mut transfer = transfer(tier);
        let result = deliver_all(
            &mut tier.rows,
            &mut store.ledger,
            limits,
            &mut transfer,
            work,
        );
        tier.sharing = transfer.sharing;
        *moved = transfer.moved;
        result
    }
}

/// A transfer that has moved nothing yet.
fn transfer(tier: &Ledger) -> Transfer {
    Transfer {
        sharing: tier.sharing,
        moved: 0,
        peak: 0,
    }
}
