
// What follows is the benchmark's: each function so many times in a row, on one account and one meter that do not run out
// unless they are given so. A call that takes its literals apart gets fresh ones each time, as the ledger makes them.

impl Leaves {
    pub fn time_prepare(
        (conditions, outputs): (&[Literal], &[Literal]),
        mut account: u64,
        times: u64,
    ) -> u64 {
        let (_, charge) = metered(u64::MAX, |work| {
            for _ in 0..times {
                let literals = Literals::exact(conditions, outputs);
                std::hint::black_box(Row::prepare(literals, &mut account, work, &mut 0)?);
            }
            Ok(())
        });
        charge
    }

    /// The candidates are the outputs of a stored row, as in `subsumes`, or a plain list.
    pub fn time_includes(
        candidates: &[Literal],
        required: &[Literal],
        stored: bool,
        times: u64,
    ) -> u64 {
        let row = prepared(&[], candidates);
        let mut account = u64::MAX;
        let (_, charge) = metered(u64::MAX, |work| {
            for _ in 0..times {
                let required = required.iter().copied();
                std::hint::black_box(if stored {
                    includes(row.outputs(), required, &mut account, work)?
                } else {
                    includes(candidates.iter().copied(), required, &mut account, work)?
                });
            }
            Ok(())
        });
        charge
    }

    pub fn time_subsumes(
        row: (&[Literal], &[Literal]),
        other: (&[Literal], &[Literal]),
        turned: bool,
        times: u64,
    ) -> u64 {
        let row = prepared(row.0, row.1);
        let other = Literals::exact(other.0, other.1);
        let mut account = u64::MAX;
        let (_, charge) = metered(u64::MAX, |work| {
            for _ in 0..times {
                std::hint::black_box(if turned {
                    row.subsumed_by(&other, &mut account, work)?
                } else {
                    row.subsumes(&other, &mut account, work)?
                });
            }
            Ok(())
        });
        charge
    }

    pub fn time_union_outputs(
        row: (&[Literal], &[Literal]),
        other: (&[Literal], &[Literal]),
        maximum: u64,
        times: u64,
    ) -> u64 {
        let row = prepared(row.0, row.1);
        let mut account = u64::MAX;
        let (_, charge) = metered(u64::MAX, |work| {
            for _ in 0..times {
                let mut literals = Literals::exact(other.0, other.1);
                row.union_outputs(&mut literals, maximum as usize, &mut account, work, &mut 0)?;
                std::hint::black_box(literals);
            }
            Ok(())
        });
        charge
    }

    pub fn time_deduction(
        row: (&[Literal], &[Literal]),
        held: &[u64],
        cut: &[u64],
        times: u64,
    ) -> u64 {
        let row = prepared(row.0, row.1);
        let (_, charge) = metered(u64::MAX, |work| {
            for _ in 0..times {
                std::hint::black_box(row.deduction(held, cut, work)?);
            }
            Ok(())
        });
        charge
    }
}
