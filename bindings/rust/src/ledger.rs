//! A ledger and its calls.

use crate::answers::{
    Candidates, Charged, Closed, Deduction, NextOutput, Offer, Refusal, Transfer, answered,
};
use crate::boundary::{
    CursorWords, HEADER_WORDS, Header, MeterWords, POSTING_WORDS, SLOT_WORDS, call, ledger_begin,
    ledger_candidates, ledger_close, ledger_deduce, ledger_deliver, ledger_hit, ledger_make,
    ledger_next_output, ledger_offer, ledger_seed,
};
use crate::limits::LearningLimits;
use crate::region::{Literal, Region, codes};

/// What is charged so far, and the limit that it may not pass.
#[derive(Clone, Copy, Debug, PartialEq, Eq)]
pub struct Meter {
    words: MeterWords,
}

impl Meter {
    /// Nothing charged yet.
    pub const fn new(limit: u64) -> Meter {
        Meter { words: [0, limit] }
    }

    /// The ticks charged so far.
    pub const fn charged(&self) -> u64 {
        self.words[0]
    }

    /// The limit.
    pub const fn limit(&self) -> u64 {
        self.words[1]
    }
}

/// A place among the outputs of a row. The default one is the start.
#[derive(Clone, Copy, Debug, Default, PartialEq, Eq)]
pub struct Cursor {
    words: CursorWords,
}

/// A store that a tier was seeded from, whole: its number, and its born then.
#[derive(Clone, Copy, Debug, PartialEq, Eq)]
pub struct Mark {
    /// The store's number.
    pub number: u64,
    /// The store's born.
    pub born: u64,
}

/// Who a row is from. The floor protects Founded rows, and no Tips.
#[derive(Clone, Copy, Debug, PartialEq, Eq, Hash)]
pub enum Source {
    /// A house rule.
    Founded,
    /// A chef's tip.
    Tip,
}

impl Source {
    const fn word(self) -> u64 {
        match self {
            Source::Founded => 0,
            Source::Tip => 1,
        }
    }

    /// Of a word in an accepted slot: there is no third.
    const fn of(word: u64) -> Source {
        match word {
            0 => Source::Founded,
            _ => Source::Tip,
        }
    }
}

/// A ledger with its words: the header, the slots and the postings, and two buffers that a closing works in.
///
/// The words are always a ledger's: they come from [`Ledger::make`] or were tested by [`Ledger::from_words`], and nothing but
/// the proved functions writes them. So its methods are refused for what is given to them alone.
#[derive(Clone, Debug)]
pub struct Ledger {
    header: Header,
    slots: Vec<u64>,
    postings: Vec<u64>,
    row_words: Vec<u64>,
    atom_words: Vec<u64>,
}

impl Ledger {
    /// Makes an empty ledger, with a number for good. Refused by 1 for limits outside their ranges.
    pub fn make(limits: &LearningLimits, number: u64) -> Result<Ledger, Refusal> {
        // Limits out of range are refused whatever is lent: nothing then.
        let rows = if limits.tier_rows <= 4_096 {
            limits.tier_rows as usize
        } else {
            0
        };
        let mut header = [0; HEADER_WORDS];
        let mut slots = vec![0; SLOT_WORDS * rows];
        let mut postings = vec![0; POSTING_WORDS * rows];
        answered(
            |answer| call!(ledger_make(&limits.words(), number, &mut header, answer, [mut slots], [mut postings])),
        )?;
        Ok(Ledger::with_buffers(header, slots, postings))
    }

    /// The ledger of given words, as [`Ledger::header`], [`Ledger::slots`] and [`Ledger::postings`] give them. Refused by 1, 2
    /// or 3 if they are no ledger's.
    pub fn from_words(
        header: Header,
        slots: Vec<u64>,
        postings: Vec<u64>,
    ) -> Result<Ledger, Refusal> {
        // Begin has no refusal but these, and writes the header alone: a copy of it.
        let mut copy = header;
        begin(&mut copy, &slots, &postings)?;
        Ok(Ledger::with_buffers(header, slots, postings))
    }

    /// Of accepted words: there are at most 4,096 rows and 1,048,576 atoms.
    fn with_buffers(header: Header, slots: Vec<u64>, postings: Vec<u64>) -> Ledger {
        let limits = LearningLimits::of(&header);
        Ledger {
            header,
            slots,
            postings,
            row_words: vec![0; limits.tier_rows as usize],
            atom_words: vec![0; limits.atoms as usize],
        }
    }

    /// Offers a Founded row: conditions and outputs by ascending codes. Refused by 4 if they are no row, or larger than
    /// founded_conditions and founded_outputs.
    pub fn offer(
        &mut self,
        meter: &mut Meter,
        conditions: &[Literal],
        outputs: &[Literal],
    ) -> Result<Charged<Offer>, Refusal> {
        self.offer_as(meter, conditions, outputs, Source::Founded)
    }

    /// As [`Ledger::offer`], of a row from either source. What is added has this source, also if it was joined with a row of the
    /// other, or took its place; a row that says as much already keeps its own.
    pub fn offer_as(
        &mut self,
        meter: &mut Meter,
        conditions: &[Literal],
        outputs: &[Literal],
        source: Source,
    ) -> Result<Charged<Offer>, Refusal> {
        let (conditions, outputs) = (codes(conditions), codes(outputs));
        let answer = answered(|answer| {
            call!(ledger_offer(
                &mut self.header, answer, &mut meter.words, [mut self.slots], [mut self.postings],
                [conditions], [outputs], source.word()
            ))
        })?;
        Ok(Charged::new(Offer::of(answer), answer))
    }

    /// Counts one hit more for the row at a position, and one more that is not shared yet. Refused by 5.
    pub fn hit(&mut self, position: usize) -> Result<(), Refusal> {
        answered(|answer| {
            call!(ledger_hit(&mut self.header, answer, [mut self.slots], [self.postings], position as u64))
        })
        .map(drop)
    }

    /// Has the next search take all rows. Refused by nothing: the words are a ledger's.
    pub fn begin(&mut self) -> Result<(), Refusal> {
        begin(&mut self.header, &self.slots, &self.postings)
    }

    /// The rows to be looked at after these atoms were decided; all rows, if there are at most 64, or after
    /// [`Ledger::begin`]. Refused by nothing: the words are a ledger's.
    pub fn candidates(
        &mut self,
        meter: &mut Meter,
        atoms: &[u64],
    ) -> Result<Charged<Candidates>, Refusal> {
        let answer = answered(|answer| {
            call!(ledger_candidates(
                &mut self.header, answer, &mut meter.words, [self.slots], [mut self.postings], [atoms], [mut self.row_words]
            ))
        })?;
        let found = match answer[0] {
            0 => Candidates::Rows(
                self.row_words
                    .iter()
                    .take(answer[1] as usize)
                    .map(|&row| row as usize)
                    .collect(),
            ),
            _ => Candidates::Stopped,
        };
        Ok(Charged::new(found, answer))
    }

    /// What the row at a position says of a region. Refused by 5, and 6 for a region over another number of atoms.
    pub fn deduce(
        &self,
        meter: &mut Meter,
        position: usize,
        region: &Region,
    ) -> Result<Charged<Deduction>, Refusal> {
        let (held, cut) = region.over(self.atoms());
        let answer = answered(|answer| {
            call!(ledger_deduce(
                &self.header,
                answer,
                &mut meter.words,
                [self.slots],
                [self.postings],
                position as u64,
                [held],
                [cut]
            ))
        })?;
        Ok(Charged::new(Deduction::of(answer), answer))
    }

    /// The next output of the row at a position, and the cursor past it; a packed row's outputs that the region has already
    /// are passed over. Refused by 5, 6 for a region over another number of atoms, and 8 for another row's cursor.
    pub fn next_output(
        &self,
        meter: &mut Meter,
        position: usize,
        cursor: &mut Cursor,
        region: &Region,
    ) -> Result<Charged<NextOutput>, Refusal> {
        let (held, cut) = region.over(self.atoms());
        let answer = answered(|answer| {
            call!(ledger_next_output(
                &self.header,
                answer,
                &mut meter.words,
                &mut cursor.words,
                [self.slots],
                [self.postings],
                position as u64,
                [held],
                [cut]
            ))
        })?;
        Ok(Charged::new(NextOutput::of(answer), answer))
    }

    /// Closes a region under the rows: all that they force or require is marked in it. Each reading of a row that marks an atom or
    /// ends in Conflict counts one hit for it. Of what was required the last is told by the output that was contradicted. Refused by 6
    /// for a region over another number of atoms.
    pub fn close(
        &mut self,
        meter: &mut Meter,
        region: &mut Region,
    ) -> Result<Charged<Closed>, Refusal> {
        let (held, cut) = region.over_mut(self.atoms());
        let answer = answered(|answer| {
            call!(ledger_close(
                &mut self.header, answer, &mut meter.words, [mut self.slots], [mut self.postings], [mut held], [mut cut],
                [mut self.row_words], [mut self.atom_words]
            ))
        })?;
        Ok(Charged::new(Closed::of(answer), answer))
    }

    /// This ledger, the tier, takes the rows of a store, each with its source, paid from its own sharing account. Rows up to its
    /// seed mark are passed over. Refused by 7 for ledgers over different numbers of atoms.
    pub fn seed(
        &mut self,
        store: &mut Ledger,
        meter: &mut Meter,
    ) -> Result<Charged<Transfer>, Refusal> {
        let answer = answered(|answer| {
            call!(ledger_seed(
                &mut self.header, &mut store.header, answer, &mut meter.words, [mut self.slots], [mut self.postings],
                [store.slots], [store.postings]
            ))
        })?;
        Ok(Charged::new(Transfer::of(answer), answer))
    }

    /// A store takes the rows of this ledger, the tier, each with its source, paid from the tier's sharing account. Rows without
    /// news, and wide ones with few hits, are passed over. Refused by 7 for ledgers over different numbers of atoms.
    pub fn deliver(
        &mut self,
        store: &mut Ledger,
        meter: &mut Meter,
    ) -> Result<Charged<Transfer>, Refusal> {
        let answer = answered(|answer| {
            call!(ledger_deliver(
                &mut self.header, &mut store.header, answer, &mut meter.words, [mut self.slots], [self.postings],
                [mut store.slots], [mut store.postings]
            ))
        })?;
        Ok(Charged::new(Transfer::of(answer), answer))
    }

    fn atoms(&self) -> u64 {
        self.limits().atoms
    }

    /// The limits that it was made with.
    pub fn limits(&self) -> LearningLimits {
        LearningLimits::of(&self.header)
    }

    /// The number given when it was made.
    pub fn number(&self) -> u64 {
        self.header[10]
    }

    /// How many rows there are.
    pub fn rows(&self) -> usize {
        self.header[11] as usize
    }

    /// How many of them are Founded; the others are Tips.
    pub fn founded(&self) -> usize {
        self.header[25] as usize
    }

    /// The source of the row at a position; none if there is no row.
    pub fn source(&self, position: usize) -> Option<Source> {
        let mut rows = self.slots.chunks_exact(SLOT_WORDS).take(self.rows());
        rows.nth(position).map(|slot| Source::of(slot[168]))
    }

    /// How many rows were ever added.
    pub fn born(&self) -> u64 {
        self.header[12]
    }

    /// How many rows were offered.
    pub fn attempts(&self) -> u64 {
        self.header[14]
    }

    /// The reads left for offers.
    pub fn remaining(&self) -> u64 {
        self.header[15]
    }

    /// The reads left for transfers.
    pub fn sharing(&self) -> u64 {
        self.header[16]
    }

    /// How many rows were evicted.
    pub fn evicted(&self) -> u64 {
        self.header[17]
    }

    /// How many rows were added to it, as a store, by deliveries.
    pub fn deliveries(&self) -> u64 {
        self.header[18]
    }

    /// How many rows of it, as a store, were added to tiers by seedings.
    pub fn seeded(&self) -> u64 {
        self.header[19]
    }

    /// The store that it was last seeded from, whole.
    pub fn mark(&self) -> Option<Mark> {
        let [set, number, born] = [self.header[22], self.header[23], self.header[24]];
        (set != 0).then_some(Mark { number, born })
    }

    /// The words of the header, in the order of include/ledger.h.
    pub fn header(&self) -> &Header {
        &self.header
    }

    /// The words of the slots, 169 a row.
    pub fn slots(&self) -> &[u64] {
        &self.slots
    }

    /// The words of the postings, 80 a row.
    pub fn postings(&self) -> &[u64] {
        &self.postings
    }
}

fn begin(header: &mut Header, slots: &[u64], postings: &[u64]) -> Result<(), Refusal> {
    answered(|answer| call!(ledger_begin(header, answer, [slots], [postings]))).map(drop)
}
