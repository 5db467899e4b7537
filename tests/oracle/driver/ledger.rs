//! A ledger and the calls of document 01, on plain numbers.
//!
//! Every call tests its refusals in the order of document 01, then runs the Rust on a fresh meter with the given limit.
//! Regions are given as words. The lengths of buffers (number 2) and damaged slots do not exist here.

use zetesis_algebra::region::Region;
use zetesis_ferraris::regions::{
    Cursor, Deduced, Fields, LearningLimits, Literal, Metered, Origin, Record, Retention, Tier,
    Work, metered,
};

use crate::answer::Answer;
use crate::literals::{MOST_ATOMS, atoms_of, code, codes, groups, is_region, is_row, literals};

/// The limits, in document 01's order.
#[derive(Clone, Copy, Debug, PartialEq, Eq)]
#[allow(missing_docs)]
pub struct Limits {
    pub atoms: u64,
    pub tier_rows: u64,
    pub founded_conditions: u64,
    pub founded_outputs: u64,
    pub founded_floor: u64,
    pub founded_attempts: u64,
    pub founded_work: u64,
    pub share_work: u64,
    pub share_conditions: u64,
    pub share_hits: u64,
}

impl Limits {
    /// Whether the limits are in their ranges.
    pub fn in_range(&self) -> bool {
        (1..=MOST_ATOMS).contains(&self.atoms)
            && (1..=4_096).contains(&self.tier_rows)
            && self.founded_conditions <= 16
            && self.founded_outputs <= 64
    }

    /// The Rust's limits. The fields that are not named serve `collect`, byte counts and walks, which are left behind.
    fn learning(&self) -> LearningLimits {
        LearningLimits {
            tier_rows: self.tier_rows as usize,
            founded_floor: self.founded_floor as usize,
            founded_conditions: self.founded_conditions as usize,
            founded_outputs: self.founded_outputs as usize,
            founded_attempts: self.founded_attempts as usize,
            founded_work: self.founded_work,
            share_work: self.share_work,
            share_conditions: self.share_conditions as usize,
            share_hits: self.share_hits,
            ..LearningLimits::DEFAULT
        }
    }
}

/// The header, but for its limits.
#[derive(Clone, Copy, Debug, PartialEq, Eq)]
#[allow(missing_docs)]
pub struct Header {
    pub number: u64,
    pub rows: u64,
    pub born: u64,
    pub epoch: u64,
    pub attempts: u64,
    pub remaining: u64,
    pub sharing: u64,
    pub evicted: u64,
    pub deliveries: u64,
    pub seeded: u64,
    pub stale: bool,
    pub full: bool,
    /// The seed mark: a store's number and its born.
    pub mark: Option<(u64, u64)>,
    /// The Founded rows.
    pub founded: u64,
}

/// A row as its slot holds it: codes, and groups (index, present bits, absent bits). A scalar row has no group.
#[derive(Clone, Debug, PartialEq, Eq)]
#[allow(missing_docs)]
pub struct Row {
    pub conditions: Vec<u64>,
    pub outputs: Vec<u64>,
    pub groups: Vec<(u64, u64, u64)>,
    pub condition_groups: u64,
    pub hits: u64,
    pub unshared: u64,
    pub born: u64,
    pub delivered: bool,
    /// 0 for Founded, 1 for a Tip.
    pub source: u64,
}

impl Row {
    /// Whether the row is packed.
    pub fn is_packed(&self) -> bool {
        !self.groups.is_empty()
    }
}

/// The held and the cut words of a region.
#[derive(Clone, Debug, Default, PartialEq, Eq)]
#[allow(missing_docs)]
pub struct Masks {
    pub held: Vec<u64>,
    pub cut: Vec<u64>,
}

/// The end of a call that gives an answer and a charge.
#[derive(Clone, Copy, Debug, PartialEq, Eq)]
#[allow(missing_docs)]
pub struct Done {
    pub answer: Answer,
    pub charge: u64,
}

/// The end of Candidates. The answer is Found where there are rows to give.
#[derive(Clone, Debug, PartialEq, Eq)]
#[allow(missing_docs)]
pub struct Found {
    pub answer: Answer,
    pub charge: u64,
    pub rows: Vec<u64>,
}

/// The end of Next output.
#[derive(Clone, Copy, Debug, PartialEq, Eq)]
#[allow(missing_docs)]
pub struct Published {
    pub answer: Answer,
    pub charge: u64,
    pub cursor: Cursor,
}

/// The end of Close and of Decide.
#[derive(Clone, Debug, PartialEq, Eq)]
#[allow(missing_docs)]
pub struct Closed {
    pub answer: Answer,
    pub charge: u64,
    pub region: Masks,
    /// The contradicted output of the last Require that a closing acted on.
    pub contradicted: Option<u64>,
}

/// A ledger: the Rust's, and the numbers of a store that the Rust keeps elsewhere.
#[derive(Clone)]
pub struct Ledger {
    tier: Tier,
    atoms: u64,
    number: u64,
    deliveries: u64,
    seeded: u64,
}

/// Make: a fresh ledger, or the number of the refusal.
pub fn make(limits: Limits, number: u64) -> Result<Ledger, u64> {
    if !limits.in_range() {
        return Err(1);
    }
    Ok(Ledger {
        tier: Tier::new(limits.learning()),
        atoms: limits.atoms,
        number,
        deliveries: 0,
        seeded: 0,
    })
}

/// Seed the tier from the store.
pub fn seed(tier: &mut Ledger, store: &mut Ledger, limit: u64) -> Done {
    if let Some(number) = transfer_refusal(tier, store) {
        return refused(number);
    }
    let mut moved = 0;
    let (result, charge) = metered(limit, |work| {
        tier.tier.seed(&store.tier, store.number, &mut moved, work)
    });
    store.seeded = store.seeded.saturating_add(moved);
    finished(result, charge)
}

/// Deliver the tier's rows to the store.
pub fn deliver(tier: &mut Ledger, store: &mut Ledger, limit: u64) -> Done {
    if let Some(number) = transfer_refusal(tier, store) {
        return refused(number);
    }
    let mut moved = 0;
    let (result, charge) = metered(limit, |work| {
        tier.tier.deliver(&mut store.tier, &mut moved, work)
    });
    store.deliveries = store.deliveries.saturating_add(moved);
    finished(result, charge)
}

/// Decide one atom of a region over `atoms` atoms.
pub fn decide(atoms: u64, atom: u64, value: bool, region: Masks) -> Closed {
    let fit = (1..=MOST_ATOMS).contains(&atoms) && is_region(atoms, &region.held, &region.cut);
    if !fit {
        return unclosed(6, region);
    }
    let mut decided = region_of(atoms, &region);
    let answer = match mark(&mut decided, (atom as usize, value)) {
        true => Answer::True,
        false => Answer::False,
    };
    Closed {
        answer,
        charge: 0,
        region: masks_of(&decided),
        contradicted: None,
    }
}

impl Ledger {
    /// The number of atoms.
    pub fn atoms(&self) -> u64 {
        self.atoms
    }

    /// The limits.
    pub fn limits(&self) -> Limits {
        let limits = self.tier.limits();
        Limits {
            atoms: self.atoms,
            tier_rows: limits.tier_rows as u64,
            founded_conditions: limits.founded_conditions as u64,
            founded_outputs: limits.founded_outputs as u64,
            founded_floor: limits.founded_floor as u64,
            founded_attempts: limits.founded_attempts as u64,
            founded_work: limits.founded_work,
            share_work: limits.share_work,
            share_conditions: limits.share_conditions as u64,
            share_hits: limits.share_hits,
        }
    }

    /// The header.
    pub fn header(&self) -> Header {
        let fields = self.tier.fields();
        Header {
            number: self.number,
            rows: fields.rows as u64,
            born: fields.born,
            epoch: fields.epoch as u64,
            attempts: fields.attempts as u64,
            remaining: fields.remaining,
            sharing: fields.sharing,
            evicted: fields.evicted,
            deliveries: self.deliveries,
            seeded: self.seeded,
            stale: fields.stale,
            full: fields.full,
            mark: fields.mark,
            founded: fields.founded as u64,
        }
    }

    /// Sets every field of the header but rows and founded; stale can be set, never cleared.
    pub fn set_header(&mut self, header: Header) {
        self.number = header.number;
        self.deliveries = header.deliveries;
        self.seeded = header.seeded;
        self.tier.set_fields(Fields {
            rows: header.rows as usize,
            born: header.born,
            epoch: header.epoch as usize,
            attempts: header.attempts as usize,
            remaining: header.remaining,
            sharing: header.sharing,
            evicted: header.evicted,
            founded: header.founded as usize,
            stale: header.stale,
            full: header.full,
            mark: header.mark,
        });
    }

    /// The number of rows.
    pub fn rows(&self) -> usize {
        self.tier.fields().rows
    }

    /// The row at a position below `rows`.
    pub fn row(&self, position: usize) -> Row {
        let shape = self.tier.shape(position);
        let record = self.tier.record(position);
        Row {
            conditions: codes(&shape.conditions),
            outputs: codes(&shape.outputs),
            groups: groups(&shape.groups),
            condition_groups: shape.condition_groups as u64,
            hits: record.hits,
            unshared: record.unshared,
            born: record.born,
            delivered: record.delivered,
            source: match self.tier.origin(position) {
                Origin::Founded => 0,
                Origin::Tip => 1,
            },
        }
    }

    /// Sets hits, unshared, born and delivered of the row at a position below `rows`.
    pub fn set_record(&mut self, position: usize, record: Record) {
        self.tier.set_record(position, record);
    }

    /// The posting words, ascending; none where stale.
    pub fn postings(&self) -> Vec<u64> {
        self.tier
            .postings()
            .iter()
            .map(|&(atom, position)| atom as u64 * 4_096 + position as u64)
            .collect()
    }

    /// Offer a row of a source: 0 for Founded, 1 for a Tip.
    pub fn offer(
        &mut self,
        conditions: &[u64],
        outputs: &[u64],
        source: u64,
        limit: u64,
    ) -> Done {
        let limits = self.limits();
        let most = (limits.founded_conditions, limits.founded_outputs);
        if !self.contents_fit() {
            return refused(3);
        }
        if !is_row(self.atoms, most, conditions, outputs) {
            return refused(4);
        }
        let origin = match source {
            0 => Origin::Founded,
            1 => Origin::Tip,
            _ => return refused(11),
        };
        if !self.tier.can_capture() {
            return done(Answer::Shut, 0);
        }
        let (conditions, outputs) = (literals(conditions), literals(outputs));
        let (result, charge) = metered(limit, |work| {
            self.tier.capture(&conditions, &outputs, origin, work)
        });
        let answer = match result {
            None => Answer::Stopped,
            Some(Retention::Declined) => Answer::Declined,
            Some(Retention::Subsumed(position)) => Answer::Subsumed(position as u64),
            Some(Retention::Added(position)) => Answer::Added(position as u64),
        };
        done(answer, charge)
    }

    /// Count a hit of the row at a position.
    pub fn hit(&mut self, position: u64) -> Done {
        if let Some(number) = self.position_refusal(position) {
            return refused(number);
        }
        self.tier.hit(position as usize);
        done(Answer::Done, 0)
    }

    /// Begin.
    pub fn begin(&mut self) -> Done {
        if !self.contents_fit() {
            return refused(3);
        }
        self.tier.begin_narrowing();
        done(Answer::Done, 0)
    }

    /// The candidates for a list of atoms.
    pub fn candidates(&mut self, atoms: &[u64], limit: u64) -> Found {
        if !self.contents_fit() {
            return found(Answer::Refused(3), 0, Vec::new());
        }
        let atoms: Vec<usize> = atoms.iter().map(|&atom| atom as usize).collect();
        match metered(limit, |work| self.tier.candidates(&atoms, work)) {
            (None, charge) => found(Answer::Stopped, charge, Vec::new()),
            (Some(rows), charge) => found(Answer::Found, charge, rows),
        }
    }

    /// The deduction of the row at a position, on a region.
    pub fn deduce(&self, position: u64, region: &Masks, limit: u64) -> Done {
        if let Some(number) = self.reading_refusal(position, region) {
            return refused(number);
        }
        let position = position as usize;
        let (held, cut) = (&region.held[..], &region.cut[..]);
        let (result, charge) =
            metered(limit, |work| self.tier.deduction(position, held, cut, work));
        let named = || contradicted(&self.tier.shape(position).outputs, (held, cut));
        done(deduced(result, named), charge)
    }

    /// The next output that the row at a position publishes on a region.
    pub fn next_output(
        &self,
        position: u64,
        cursor: Cursor,
        region: &Masks,
        limit: u64,
    ) -> Published {
        let refusal = self
            .reading_refusal(position, region)
            .or_else(|| (!self.cursor_fits(position, cursor)).then_some(8));
        if let Some(number) = refusal {
            return published(Answer::Refused(number), 0, cursor);
        }
        let mut moved = cursor;
        let (result, charge) = metered(limit, |work| {
            self.tier.next_publication_output(
                position as usize,
                &mut moved,
                &region.held,
                &region.cut,
                work,
            )
        });
        let answer = match result {
            None => Answer::Stopped,
            Some(None) => Answer::End,
            Some(Some(output)) => Answer::Output(code(output)),
        };
        published(answer, charge, moved)
    }

    /// Close a region.
    pub fn close(&mut self, region: Masks, limit: u64) -> Closed {
        let refusal = (!self.contents_fit())
            .then_some(3)
            .or_else(|| self.region_refusal(&region));
        if let Some(number) = refusal {
            return unclosed(number, region);
        }
        let mut closing = region_of(self.atoms, &region);
        let mut named = None;
        let (result, charge) = metered(limit, |work| {
            rounds(&mut self.tier, &mut closing, &mut named, work)
        });
        let answer = match result {
            None => Answer::Stopped,
            Some(false) => Answer::Conflict,
            Some(true) => Answer::Closed,
        };
        Closed {
            answer,
            charge,
            region: masks_of(&closing),
            contradicted: named,
        }
    }

    /// Number 3, as far as the fields that can be set go: the Rust's own rows and postings are always in order.
    fn contents_fit(&self) -> bool {
        let limits = self.tier.limits();
        let fields = self.tier.fields();
        fields.rows <= limits.tier_rows
            && fields.epoch < limits.tier_rows
            && fields.attempts <= limits.founded_attempts
            && (0..fields.rows)
                .all(|position| (1..=fields.born).contains(&self.tier.record(position).born))
    }

    fn position_refusal(&self, position: u64) -> Option<u64> {
        if !self.contents_fit() {
            return Some(3);
        }
        (position >= self.rows() as u64).then_some(5)
    }

    fn region_refusal(&self, region: &Masks) -> Option<u64> {
        (!is_region(self.atoms, &region.held, &region.cut)).then_some(6)
    }

    fn reading_refusal(&self, position: u64, region: &Masks) -> Option<u64> {
        self.position_refusal(position)
            .or_else(|| self.region_refusal(region))
    }

    /// Number 8: a scalar row's cursor is a place among its outputs; a packed row's has bits of the group loaded last.
    fn cursor_fits(&self, position: u64, cursor: Cursor) -> bool {
        let shape = self.tier.shape(position as usize);
        let groups = &shape.groups[shape.condition_groups..];
        let empty = cursor.word == 0 && cursor.present == 0 && cursor.absent == 0;
        if shape.groups.is_empty() {
            return cursor.next <= shape.outputs.len() && empty;
        }
        if cursor.next > groups.len() {
            return false;
        }
        if cursor.next == 0 {
            return empty;
        }
        let (index, present, absent) = groups[cursor.next - 1];
        cursor.word == index && cursor.present & !present == 0 && cursor.absent & !absent == 0
    }
}

/// The numbers of Seed and Deliver.
fn transfer_refusal(tier: &Ledger, store: &Ledger) -> Option<u64> {
    if !tier.contents_fit() || !store.contents_fit() {
        return Some(3);
    }
    (tier.atoms != store.atoms).then_some(7)
}

/// Closing, which the Rust does not have: document 01, module 8, with 02's rule of hits. True is Closed, false is Conflict. `named` is
/// the output that the last Require names, also where a stop or a Conflict comes after it.
fn rounds(
    tier: &mut Tier,
    region: &mut Region,
    named: &mut Option<u64>,
    work: &mut Work<'_>,
) -> Metered<bool> {
    tier.begin_narrowing();
    let mut decided: Vec<usize> = Vec::new();
    let (mut before, mut unread) = (vec![0; region.mask_words()], vec![0; region.mask_words()]);
    loop {
        region.snapshot_decided(&mut before);
        for position in tier.candidates(&decided, work)? {
            region.snapshot_decided(&mut unread);
            let end = apply(tier, position, region, named, work);
            // Document 02, Two: a hit for a reading that decided an atom, also before a stop, or ended in Conflict.
            if matches!(end, Ok(false)) || region.decided_since(&unread).next().is_some() {
                tier.hit(position);
            }
            if !end? {
                return Ok(false);
            }
        }
        decided = region
            .decided_since(&before)
            .map(|(atom, _)| atom)
            .collect();
        if decided.is_empty() {
            return Ok(true);
        }
    }
}

/// Deduce one row on the region as it is, and decide what follows. False is Conflict.
fn apply(
    tier: &Tier,
    position: usize,
    region: &mut Region,
    named: &mut Option<u64>,
    work: &mut Work<'_>,
) -> Metered<bool> {
    let (held, cut) = region.decision_words();
    match tier.deduction(position, held, cut, work)? {
        Deduced::Nothing => Ok(true),
        Deduced::Require(literal) => {
            // Of the region as it is now, before the literal is marked.
            *named = Some(contradicted(&tier.shape(position).outputs, (held, cut)));
            Ok(mark(region, literal))
        }
        Deduced::Force => publish(tier, position, region, work),
    }
}

/// Decide every output that the row publishes. False is Conflict.
fn publish(
    tier: &Tier,
    position: usize,
    region: &mut Region,
    work: &mut Work<'_>,
) -> Metered<bool> {
    let mut cursor = Cursor::default();
    loop {
        let (held, cut) = region.decision_words();
        let output = tier.next_publication_output(position, &mut cursor, held, cut, work)?;
        match output {
            None => return Ok(true),
            Some(literal) if !mark(region, literal) => return Ok(false),
            Some(_) => {}
        }
    }
}

/// The Rust's `Region::decide`, by its two public names.
fn mark(region: &mut Region, (atom, value): (usize, bool)) -> bool {
    if value {
        region.hold(atom)
    } else {
        region.cut(atom)
    }
}

/// The Rust's region with these words, which are a region.
fn region_of(atoms: u64, masks: &Masks) -> Region {
    let mut region = Region::all_open(atoms as usize);
    for atom in atoms_of(&masks.held) {
        region.hold(atom as usize);
    }
    for atom in atoms_of(&masks.cut) {
        region.cut(atom as usize);
    }
    region
}

fn masks_of(region: &Region) -> Masks {
    let (held, cut) = region.decision_words();
    Masks {
        held: held.to_vec(),
        cut: cut.to_vec(),
    }
}

/// The output that a Require names, which the Rust does not say: document 02, Six. Of the row's outputs whose opposite the region marks
/// it is the one with the least code.
pub(crate) fn contradicted(outputs: &[Literal], (held, cut): (&[u64], &[u64])) -> u64 {
    let against = |&&(atom, present): &&Literal| {
        let opposite = if present { cut } else { held };
        opposite[atom / 64] >> (atom % 64) & 1 == 1
    };
    let codes = outputs.iter().filter(against).copied().map(code);
    codes.min().expect("some output is contradicted")
}

/// The answer of a deduction, and of a Require the output that it names; none is a stop.
pub(crate) fn deduced(result: Option<Deduced>, named: impl FnOnce() -> u64) -> Answer {
    match result {
        None => Answer::Stopped,
        Some(Deduced::Nothing) => Answer::Nothing,
        Some(Deduced::Force) => Answer::Force,
        Some(Deduced::Require(literal)) => Answer::Require {
            required: code(literal),
            contradicted: named(),
        },
    }
}

fn done(answer: Answer, charge: u64) -> Done {
    Done { answer, charge }
}

fn refused(number: u64) -> Done {
    done(Answer::Refused(number), 0)
}

/// A refused closing or decision: the region as it was given.
fn unclosed(number: u64, region: Masks) -> Closed {
    Closed {
        answer: Answer::Refused(number),
        charge: 0,
        region,
        contradicted: None,
    }
}

fn finished(result: Option<()>, charge: u64) -> Done {
    done(result.map_or(Answer::Stopped, |()| Answer::Done), charge)
}

fn found(answer: Answer, charge: u64, rows: Vec<usize>) -> Found {
    Found {
        answer,
        charge,
        rows: rows.into_iter().map(|row| row as u64).collect(),
    }
}

fn published(answer: Answer, charge: u64, cursor: Cursor) -> Published {
    Published {
        answer,
        charge,
        cursor,
    }
}
