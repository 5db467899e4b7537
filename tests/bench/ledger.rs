
// What follows is the benchmark's: closing, written plainly over the ledger's own functions. The caller keeps the buffers,
// so that no call makes one anew.

use super::Deduction;
use zetesis_algebra::region::Region;

impl Tier {
    /// The rows to be looked at, in a list that is kept from call to call.
    pub fn candidates_into(
        &mut self,
        atoms: &[usize],
        rows: &mut Vec<usize>,
        work: &mut Work<'_>,
    ) -> Metered<()> {
        self.ledger.candidates(atoms, rows, work)
    }

    /// Closes a region, and gives the number of rounds; none is Conflict. `before` has as many words as the region.
    pub fn close(
        &mut self,
        region: &mut Region,
        before: &mut [u64],
        decided: &mut Vec<usize>,
        rows: &mut Vec<usize>,
        work: &mut Work<'_>,
    ) -> Metered<Option<u64>> {
        let ledger = &mut self.ledger;
        ledger.begin_narrowing();
        decided.clear();
        let mut rounds = 0;
        loop {
            rounds += 1;
            region.snapshot_decided(before);
            ledger.candidates(decided, rows, work)?;
            for &position in rows.iter() {
                if !read(ledger, position, region, work)? {
                    return Ok(None);
                }
            }
            decided.clear();
            decided.extend(region.decided_since(before).map(|(atom, _)| atom));
            if decided.is_empty() {
                return Ok(Some(rounds));
            }
        }
    }
}

/// Reads one row, and counts one hit if that decided an atom or ended in Conflict. False is Conflict.
fn read(
    ledger: &mut Ledger,
    position: usize,
    region: &mut Region,
    work: &mut Work<'_>,
) -> Metered<bool> {
    let mut decided = false;
    let end = follow(ledger, position, region, &mut decided, work);
    if decided || matches!(end, Ok(false)) {
        ledger.hit(position);
    }
    end
}

/// Deduces one row and decides what follows. False is Conflict.
fn follow(
    ledger: &Ledger,
    position: usize,
    region: &mut Region,
    decided: &mut bool,
    work: &mut Work<'_>,
) -> Metered<bool> {
    let (held, cut) = region.decision_words();
    match ledger.deduction(position, held, cut, work)? {
        Deduction::None => Ok(true),
        Deduction::Require { atom, value } => Ok(mark(region, (atom, value), decided)),
        Deduction::ForceOutputs => publish(ledger, position, region, decided, work),
    }
}

/// Decides every output that the row publishes. False is Conflict.
fn publish(
    ledger: &Ledger,
    position: usize,
    region: &mut Region,
    decided: &mut bool,
    work: &mut Work<'_>,
) -> Metered<bool> {
    let mut cursor = OutputCursor::default();
    loop {
        let (held, cut) = region.decision_words();
        match ledger.next_publication_output(position, &mut cursor, held, cut, work)? {
            None => return Ok(true),
            Some(literal) if !mark(region, literal, decided) => return Ok(false),
            Some(_) => {}
        }
    }
}

/// Decides a literal, and says so if its atom was open.
fn mark(region: &mut Region, (atom, value): Literal, decided: &mut bool) -> bool {
    *decided |= region.decision(atom).is_none();
    if value {
        region.hold(atom)
    } else {
        region.cut(atom)
    }
}
