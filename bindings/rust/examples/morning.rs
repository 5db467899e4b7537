//! A morning at the bakery: the panel learns the house rules, closes the plan of the day under them, finds a plan that breaks
//! one, and hands its rules on to the panel of the second shop.

use ledger::{Charged, Closed, Closing, LearningLimits, Ledger, Literal, Meter, Refusal, Region};

/// The points of a plan, an atom each.
const POINTS: [&str; 6] = [
    "rye on deck two",
    "steam on deck three",
    "croissants on deck one",
    "warm proofer",
    "second baker",
    "window stall",
];
const RYE: Literal = Literal::held(0);
const STEAM: Literal = Literal::held(1);
const NO_STEAM: Literal = Literal::cut(1);
const CROISSANTS: Literal = Literal::held(2);
const PROOFER: Literal = Literal::held(3);
const BAKER: Literal = Literal::held(4);
const STALL: Literal = Literal::held(5);

/// The house rules: while all on the left hold, so must what is on the right.
const RULES: [(&[Literal], Literal); 4] = [
    (&[RYE], NO_STEAM),
    (&[CROISSANTS], PROOFER),
    (&[RYE, PROOFER], BAKER),
    (&[CROISSANTS], STALL),
];

fn name(literal: Literal) -> String {
    let sign = if literal.is_held() { "" } else { "no " };
    format!("{sign}{}", POINTS[literal.atom() as usize])
}

fn names(literals: impl IntoIterator<Item = Literal>) -> String {
    let names: Vec<String> = literals.into_iter().map(name).collect();
    names.join(", ")
}

/// Closes a plan and prints what it was and what it became.
fn close(panel: &mut Ledger, meter: &mut Meter, decided: &[Literal]) -> Result<(), Refusal> {
    println!("plan: {}", names(decided.iter().copied()));
    let mut plan = Region::new(POINTS.len() as u64)?;
    if !decided.iter().all(|&literal| plan.decide(literal)) {
        println!("  holds and cuts the same point");
        return Ok(());
    }
    let Charged { answer, ticks } = panel.close(meter, &mut plan)?;
    let Closed { end, contradicted } = answer;
    match end {
        Closing::Closed => println!("  {}; {ticks} ticks", names(plan.literals())),
        Closing::Conflict => println!("  breaks a rule; {ticks} ticks"),
        Closing::Stopped => println!("  not done in {ticks} ticks"),
    }
    // Why the last rule that was read backwards spoke: the plan is against this output of it.
    if let Some(output) = contradicted {
        println!("  because of {}", name(output));
    }
    Ok(())
}

fn main() -> Result<(), Refusal> {
    let atoms = POINTS.len() as u64;
    let mut meter = Meter::new(10_000);
    let mut panel = Ledger::make(&LearningLimits::tier(atoms), 1)?;
    for (conditions, output) in RULES {
        let Charged { answer, ticks } = panel.offer(&mut meter, conditions, &[output])?;
        let (left, right) = (names(conditions.iter().copied()), name(output));
        println!("{left}: {right} -> {answer:?}, {ticks} ticks");
    }
    println!("{} rules in {} rows", RULES.len(), panel.rows());

    close(&mut panel, &mut meter, &[RYE, CROISSANTS])?;
    close(&mut panel, &mut meter, &[RYE, STEAM])?;
    close(&mut panel, &mut meter, &[RYE, !BAKER])?;

    // The second shop's panel learns them from the house's store, and closes the plan of the day alike.
    let mut store = Ledger::make(&LearningLimits::store(atoms), 2)?;
    let mut second = Ledger::make(&LearningLimits::tier(atoms), 3)?;
    panel.deliver(&mut store, &mut meter)?;
    second.seed(&mut store, &mut meter)?;
    let (came, went) = (store.deliveries(), store.seeded());
    println!("{came} rows delivered to the store, {went} seeded from it");
    close(&mut second, &mut meter, &[RYE, CROISSANTS])?;

    // A plan over other points is none of this panel's.
    match panel.close(&mut meter, &mut Region::new(100)?) {
        Err(refusal) => println!("a plan over 100 points is {refusal}"),
        Ok(closed) => println!("a plan over 100 points: {:?}", closed.answer.end),
    }
    println!("{} ticks in all", meter.charged());
    Ok(())
}
