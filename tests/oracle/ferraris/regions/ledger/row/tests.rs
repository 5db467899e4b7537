//! The driver's way into `row`, compiled where the Rust keeps tests of its own, so that private items are in reach.

use super::{Literals, OutputCursor, Row, Word, Words, includes};
use crate::regions::ledger::Deduction;
use crate::regions::{Cursor, Deduced, Leaves, Literal, Metered, Shape, Work, metered};

impl Clone for Row {
    fn clone(&self) -> Self {
        match self {
            Self::Scalar(row) => Self::Scalar(Literals::exact(&row.conditions, &row.outputs)),
            Self::Packed {
                words,
                premise_words,
                conditions,
                outputs,
            } => Self::Packed {
                words: words.clone(),
                premise_words: *premise_words,
                conditions: *conditions,
                outputs: *outputs,
            },
        }
    }
}

impl Row {
    pub(in crate::regions) fn shape(&self) -> Shape {
        let (words, condition_groups): (&[Word], usize) = match self {
            Self::Scalar(_) => (&[], 0),
            Self::Packed {
                words,
                premise_words,
                ..
            } => (words, *premise_words),
        };
        Shape {
            conditions: self.conditions().collect(),
            outputs: self.outputs().collect(),
            groups: words
                .iter()
                .map(|word| (word.index, word.held[0], word.cut[0]))
                .collect(),
            condition_groups,
        }
    }
}

impl OutputCursor {
    pub(in crate::regions) fn from_fields(fields: Cursor) -> Self {
        Self {
            next: fields.next,
            word: fields.word,
            present: Words::new([fields.present]),
            absent: Words::new([fields.absent]),
        }
    }

    pub(in crate::regions) fn fields(&self) -> Cursor {
        Cursor {
            next: self.next,
            word: self.word,
            present: self.present[0],
            absent: self.absent[0],
        }
    }
}

impl From<Deduction> for Deduced {
    fn from(deduction: Deduction) -> Self {
        match deduction {
            Deduction::None => Self::Nothing,
            Deduction::ForceOutputs => Self::Force,
            Deduction::Require { atom, value } => Self::Require((atom, value)),
        }
    }
}

/// A row of the Rust, in the form that it gives itself.
fn prepared(conditions: &[Literal], outputs: &[Literal]) -> Row {
    let mut account = u64::MAX;
    let literals = Literals::exact(conditions, outputs);
    let (row, _) = metered(u64::MAX, |work| {
        Row::prepare(literals, &mut account, work, &mut 0)
    });
    row.flatten().expect("nothing runs out")
}

impl Leaves {
    pub fn prepare(
        conditions: &[Literal],
        outputs: &[Literal],
        account: &mut u64,
        work: &mut Work<'_>,
    ) -> Metered<Option<Shape>> {
        let row = Row::prepare(Literals::exact(conditions, outputs), account, work, &mut 0)?;
        Ok(row.map(|row| row.shape()))
    }

    pub fn includes(
        candidates: &[Literal],
        required: &[Literal],
        account: &mut u64,
        work: &mut Work<'_>,
    ) -> Metered<Option<bool>> {
        includes(candidates.iter(), required.iter(), account, work)
    }

    pub fn subsumes(
        row: (&[Literal], &[Literal]),
        other: (&[Literal], &[Literal]),
        account: &mut u64,
        work: &mut Work<'_>,
    ) -> Metered<Option<bool>> {
        prepared(row.0, row.1).subsumes(&Literals::exact(other.0, other.1), account, work)
    }

    pub fn subsumed_by(
        row: (&[Literal], &[Literal]),
        other: (&[Literal], &[Literal]),
        account: &mut u64,
        work: &mut Work<'_>,
    ) -> Metered<Option<bool>> {
        prepared(row.0, row.1).subsumed_by(&Literals::exact(other.0, other.1), account, work)
    }

    /// The outputs of `other` are replaced by the union, where the Rust does so.
    pub fn union_outputs(
        row: (&[Literal], &[Literal]),
        other: (&[Literal], &mut Vec<Literal>),
        maximum: usize,
        account: &mut u64,
        work: &mut Work<'_>,
    ) -> Metered<Option<bool>> {
        let mut literals = Literals::exact(other.0, other.1);
        let result =
            prepared(row.0, row.1).union_outputs(&mut literals, maximum, account, work, &mut 0);
        *other.1 = literals.outputs;
        result
    }

    pub fn deduction(
        row: (&[Literal], &[Literal]),
        held: &[u64],
        cut: &[u64],
        work: &mut Work<'_>,
    ) -> Metered<Deduced> {
        let deduction = prepared(row.0, row.1).deduction(held, cut, work)?;
        Ok(deduction.into())
    }

    pub fn next_publication_output(
        row: (&[Literal], &[Literal]),
        cursor: &mut Cursor,
        held: &[u64],
        cut: &[u64],
        work: &mut Work<'_>,
    ) -> Metered<Option<Literal>> {
        let mut moved = OutputCursor::from_fields(*cursor);
        let result = prepared(row.0, row.1).next_publication_output(&mut moved, held, cut, work);
        *cursor = moved.fields();
        result
    }
}
