//! Every method through the linked library. The figures are document 01's bench cards, or counted by hand from its modules and from
//! document 02.
//! That the functions meet their definitions is proved; what is tried here is that the wrapper lends the right words.

use Source::{Founded, Tip};
use ledger::{
    Candidates, Charged, Closed, Closing, Cursor, Deduction, LearningLimits, Ledger, Literal, Mark,
    Meter, NextOutput, Offer, Refusal, Region, Source, Transfer,
};

fn codes<const N: usize>(codes: [u32; N]) -> [Literal; N] {
    codes.map(Literal::from_code)
}

fn charged<T>(answer: T, ticks: u64) -> Result<Charged<T>, Refusal> {
    Ok(Charged { answer, ticks })
}

/// A closing that ended so, and named this output or none.
fn closed(
    end: Closing,
    contradicted: Option<Literal>,
    ticks: u64,
) -> Result<Charged<Closed>, Refusal> {
    charged(Closed { end, contradicted }, ticks)
}

/// Limits over 128 atoms with room for so many rows.
fn limits(tier_rows: u64) -> LearningLimits {
    LearningLimits {
        tier_rows,
        founded_floor: 1,
        share_hits: 3,
        ..LearningLimits::tier(128)
    }
}

/// Two rows over 128 atoms: 7 → 140, scalar, and 1, 3 → 140, 142, packed.
fn two_rows(number: u64) -> Ledger {
    let mut ledger = Ledger::make(&limits(2), number).unwrap();
    let mut meter = Meter::new(1000);
    assert_eq!(
        ledger.offer(&mut meter, &codes([7]), &codes([140])),
        charged(Offer::Added(0), 2)
    );
    // 2 to compare it with the first row, 8 to write it.
    assert_eq!(
        ledger.offer(&mut meter, &codes([1, 3]), &codes([140, 142])),
        charged(Offer::Added(1), 10)
    );
    assert_eq!(meter.charged(), 12);
    ledger
}

fn region(literals: &[Literal]) -> Region {
    let mut region = Region::new(128).unwrap();
    for &literal in literals {
        assert!(region.decide(literal));
    }
    region
}

fn same_words(a: &Ledger, b: &Ledger) -> bool {
    a.header() == b.header() && a.slots() == b.slots() && a.postings() == b.postings()
}

#[test]
fn limits_are_those_of_document_01() {
    let tier = LearningLimits::tier(128);
    assert_eq!(
        LearningLimits::DEFAULT,
        LearningLimits {
            atoms: 1_048_576,
            tier_rows: 64,
            founded_conditions: 16,
            founded_outputs: 64,
            founded_floor: 64,
            founded_attempts: 256,
            founded_work: 131_072,
            share_work: 131_072,
            share_conditions: 8,
            share_hits: 2,
        }
    );
    assert_eq!(
        tier,
        LearningLimits {
            atoms: 128,
            ..LearningLimits::DEFAULT
        }
    );
    assert_eq!(
        LearningLimits::store(128),
        LearningLimits {
            tier_rows: 256,
            founded_floor: 0,
            ..tier
        }
    );
    assert_eq!(Ledger::make(&tier, 5).unwrap().limits(), tier);
}

#[test]
fn a_ledger_is_made_empty_or_refused() {
    let ledger = Ledger::make(&limits(2), 9).unwrap();
    assert_eq!(
        (
            ledger.number(),
            ledger.rows(),
            ledger.born(),
            ledger.attempts(),
            ledger.evicted()
        ),
        (9, 0, 0, 0, 0)
    );
    assert_eq!((ledger.founded(), ledger.source(0)), (0, None));
    assert_eq!(
        (
            ledger.remaining(),
            ledger.sharing(),
            ledger.deliveries(),
            ledger.seeded()
        ),
        (131_072, 131_072, 0, 0)
    );
    assert_eq!(ledger.mark(), None);
    assert!(
        ledger
            .slots()
            .iter()
            .chain(ledger.postings())
            .all(|&word| word == 0)
    );
    assert_eq!((ledger.slots().len(), ledger.postings().len()), (338, 160));
    for rows in [0, 4097, u64::MAX] {
        assert_eq!(Ledger::make(&limits(rows), 9).err(), Some(Refusal(1)));
    }
    for atoms in [0, 1_048_577, u64::MAX] {
        assert_eq!(
            Ledger::make(&LearningLimits::tier(atoms), 9).err(),
            Some(Refusal(1))
        );
    }
}

#[test]
fn words_are_taken_back_or_refused() {
    let ledger = two_rows(9);
    let (header, slots, postings) = (
        *ledger.header(),
        ledger.slots().to_vec(),
        ledger.postings().to_vec(),
    );
    assert!(same_words(
        &Ledger::from_words(header, slots.clone(), postings.clone()).unwrap(),
        &ledger
    ));
    let mut wide = header;
    wide[0] = u64::MAX;
    assert_eq!(
        Ledger::from_words(wide, slots.clone(), postings.clone()).err(),
        Some(Refusal(1))
    );
    assert_eq!(
        Ledger::from_words(header, slots[1..].to_vec(), postings.clone()).err(),
        Some(Refusal(2))
    );
    assert_eq!(
        Ledger::from_words(header, slots.clone(), vec![]).err(),
        Some(Refusal(2))
    );
    let mut damaged = slots;
    damaged[7] = 2;
    assert_eq!(
        Ledger::from_words(header, damaged, postings).err(),
        Some(Refusal(3))
    );
}

#[test]
fn offers_are_added_joined_subsumed_shut_declined_and_stopped() {
    let mut ledger = Ledger::make(&limits(64), 9).unwrap();
    let mut meter = Meter::new(1000);
    assert_eq!(
        ledger.offer(&mut meter, &codes([7]), &codes([140])),
        charged(Offer::Added(0), 2)
    );
    assert_eq!(
        ledger.offer(&mut meter, &codes([7]), &codes([140])),
        charged(Offer::Subsumed(0), 3)
    );
    assert_eq!(
        ledger.offer(&mut meter, &codes([7]), &codes([142])),
        charged(Offer::Added(0), 14)
    );
    assert_eq!(
        (
            ledger.rows(),
            ledger.born(),
            ledger.attempts(),
            ledger.remaining()
        ),
        (1, 2, 3, 131_072 - 19)
    );
    assert_eq!((meter.charged(), meter.limit()), (19, 1000));
    assert_eq!(
        ledger.offer(&mut Meter::new(1), &codes([9]), &codes([140])),
        charged(Offer::Stopped, 1)
    );
    let mut poor = Ledger::make(
        &LearningLimits {
            founded_attempts: 1,
            founded_work: 1,
            ..limits(2)
        },
        9,
    )
    .unwrap();
    assert_eq!(
        poor.offer(&mut meter, &codes([7]), &codes([140])),
        charged(Offer::Declined, 1)
    );
    assert_eq!(
        poor.offer(&mut meter, &codes([7]), &codes([140])),
        charged(Offer::Shut, 0)
    );
}

#[test]
fn a_refused_offer_changes_nothing() {
    let before = two_rows(9);
    let mut ledger = before.clone();
    let mut meter = Meter::new(1000);
    for (conditions, outputs) in [
        (vec![Literal::held(128)], vec![Literal::cut(70)]),
        (vec![Literal::held(u64::MAX)], vec![]),
        (codes([9, 7]).to_vec(), vec![]),
        (codes([6, 7]).to_vec(), vec![]),
        (vec![], codes([140, 140]).to_vec()),
        ((0..17).map(Literal::held).collect(), vec![]),
        (vec![], (0..65).map(Literal::held).collect()),
    ] {
        assert_eq!(
            ledger.offer(&mut meter, &conditions, &outputs),
            Err(Refusal(4))
        );
        assert!(same_words(&ledger, &before));
        assert_eq!(meter, Meter::new(1000));
    }
}

#[test]
fn hits_are_counted_in_the_row_named() {
    let mut ledger = two_rows(9);
    assert_eq!(ledger.hit(1), Ok(()));
    assert_eq!(
        (
            ledger.slots()[4],
            ledger.slots()[169 + 4],
            ledger.slots()[169 + 5]
        ),
        (0, 1, 1)
    );
    assert_eq!(ledger.hit(2), Err(Refusal(5)));
    assert_eq!(ledger.hit(usize::MAX), Err(Refusal(5)));
}

#[test]
fn rows_are_deduced() {
    let ledger = two_rows(9);
    let deduced =
        |limit, position, region: &Region| ledger.deduce(&mut Meter::new(limit), position, region);
    let (three, seventy) = (Literal::held(3), Literal::held(70));
    assert_eq!(
        deduced(1000, 0, &region(&[three])),
        charged(Deduction::Force, 2)
    );
    let require = |required: Literal, contradicted: Literal| {
        let answer = Deduction::Require {
            required,
            contradicted,
        };
        charged(answer, 3)
    };
    assert_eq!(
        deduced(1000, 0, &region(&[seventy])),
        require(Literal::cut(3), Literal::cut(70))
    );
    assert_eq!(
        deduced(1000, 0, &region(&[Literal::cut(3)])),
        charged(Deduction::Nothing, 2)
    );
    assert_eq!(
        deduced(1000, 0, &region(&[])),
        charged(Deduction::Nothing, 3)
    );
    let both = region(&[Literal::held(0), Literal::held(71)]);
    assert_eq!(
        deduced(1000, 1, &both),
        require(Literal::cut(1), Literal::cut(71))
    );
    // Of two contradicted outputs the one with the lesser code.
    let all = region(&[Literal::held(0), seventy, Literal::held(71)]);
    assert_eq!(
        deduced(1000, 1, &all),
        require(Literal::cut(1), Literal::cut(70))
    );
    assert_eq!(deduced(1, 0, &both), charged(Deduction::Stopped, 1));
    assert_eq!(deduced(1000, 2, &both), Err(Refusal(5)));
    assert_eq!(
        deduced(1000, 0, &Region::new(129).unwrap()),
        Err(Refusal(6))
    );
}

#[test]
fn outputs_come_one_by_one() {
    let ledger = two_rows(9);
    let (mut meter, mut cursor, empty) = (Meter::new(4), Cursor::default(), region(&[]));
    assert_eq!(
        ledger.next_output(&mut meter, 0, &mut cursor, &empty),
        charged(NextOutput::Output(Literal::cut(70)), 1)
    );
    assert_eq!(
        ledger.next_output(&mut meter, 0, &mut cursor, &empty),
        charged(NextOutput::End, 0)
    );
    assert_eq!(
        ledger.next_output(&mut meter, 1, &mut cursor, &empty),
        Err(Refusal(8))
    );
    // The packed row: a tick for the group and one for the output; 140 holds already.
    cursor = Cursor::default();
    let known = region(&[Literal::cut(70)]);
    assert_eq!(
        ledger.next_output(&mut meter, 1, &mut cursor, &known),
        charged(NextOutput::Output(Literal::cut(71)), 2)
    );
    assert_eq!(
        ledger.next_output(&mut meter, 1, &mut Cursor::default(), &known),
        charged(NextOutput::Stopped, 1)
    );
}

#[test]
fn candidates_are_all_rows_or_those_of_the_atoms() {
    let mut ledger = Ledger::make(&limits(65), 9).unwrap();
    let mut meter = Meter::new(1_000_000);
    for atom in 0..65 {
        let added = ledger
            .offer(&mut meter, &[Literal::held(atom)], &[Literal::cut(127)])
            .unwrap();
        assert_eq!(added.answer, Offer::Added(atom as usize));
    }
    let all = || Candidates::Rows((0..65).collect());
    assert_eq!(ledger.candidates(&mut meter, &[]), charged(all(), 0));
    assert_eq!(
        ledger.candidates(&mut Meter::new(5), &[3]),
        charged(Candidates::Stopped, 5)
    );
    // 130 postings are built; then a tick an atom and a posting.
    assert_eq!(
        ledger.candidates(&mut meter, &[3, 200, 3]),
        charged(Candidates::Rows(vec![3]), 130 + 3 + 2)
    );
    assert_eq!(ledger.candidates(&mut meter, &[127]), charged(all(), 66));
    assert_eq!(ledger.begin(), Ok(()));
    assert_eq!(ledger.candidates(&mut meter, &[3]), charged(all(), 0));
}

#[test]
fn regions_are_closed() {
    let mut ledger = two_rows(9);
    let mut plan = region(&[Literal::held(3)]);
    // Two rounds: 2 to deduce each row, 1 for the output of the first.
    assert_eq!(
        ledger.close(&mut Meter::new(1000), &mut plan),
        closed(Closing::Closed, None, 10)
    );
    assert!(plan.literals().eq([Literal::held(3), Literal::cut(70)]));
    // The first round decides an atom, the second none; nor does a closing of what is closed.
    assert_eq!(ledger.slots()[4], 1);
    assert_eq!(
        ledger.close(&mut Meter::new(1000), &mut plan),
        closed(Closing::Closed, None, 5)
    );
    assert_eq!(ledger.slots()[4], 1);
    let mut against = region(&[Literal::held(3), Literal::held(70)]);
    // 2 to deduce the first row, 1 for its output. A Conflict names nothing, but counts, though nothing was decided.
    assert_eq!(
        ledger.close(&mut Meter::new(1000), &mut against),
        closed(Closing::Conflict, None, 3)
    );
    assert_eq!(ledger.slots()[4], 2);
    assert_eq!(
        ledger.close(&mut Meter::new(0), &mut plan),
        closed(Closing::Stopped, None, 0)
    );
    assert_eq!(
        ledger.close(&mut Meter::new(1000), &mut Region::new(200).unwrap()),
        Err(Refusal(6))
    );
}

#[test]
fn a_closing_names_the_output_of_its_last_require() {
    let mut ledger = two_rows(9);
    let mut close = |limit: u64, literals: &[Literal]| {
        let mut plan = region(literals);
        let closed = ledger.close(&mut Meter::new(limit), &mut plan);
        (closed, plan)
    };
    let [zero, one, seventy, seventy_one] = [0, 1, 70, 71].map(Literal::held);
    // Two rounds. The first: 3 to deduce each row, of which the second alone requires; then 3 and 2.
    let (ended, plan) = close(1000, &[zero, seventy_one]);
    assert_eq!(ended, closed(Closing::Closed, Some(Literal::cut(71)), 11));
    assert!(plan.contains(Literal::cut(1)) && !plan.contains(Literal::cut(3)));
    // Stopped after the first row has required, and before the second does.
    let (ended, plan) = close(3, &[zero, seventy, seventy_one]);
    assert_eq!(ended, closed(Closing::Stopped, Some(Literal::cut(70)), 3));
    assert!(plan.contains(Literal::cut(3)) && !plan.contains(Literal::cut(1)));
    // The first row requires, the second is against the region: 3 and 2 to deduce them, 2 for the output.
    let (ended, plan) = close(1000, &[zero, one, seventy]);
    assert_eq!(ended, closed(Closing::Conflict, Some(Literal::cut(70)), 7));
    assert!(plan.contains(Literal::cut(3)));
}

/// 7 → 140 and 9 → 7: what the first requires is against the second's output.
#[test]
fn of_two_requires_the_last_is_told() {
    let mut ledger = Ledger::make(&limits(2), 9).unwrap();
    let mut meter = Meter::new(1000);
    for (condition, output) in [(7, 140), (9, 7)] {
        let offered = ledger.offer(&mut meter, &codes([condition]), &codes([output]));
        assert!(matches!(offered.unwrap().answer, Offer::Added(_)));
    }
    let mut plan = region(&[Literal::held(70)]);
    let ended = ledger.close(&mut meter, &mut plan).unwrap();
    assert_eq!(
        ended.answer,
        Closed {
            end: Closing::Closed,
            contradicted: Some(Literal::held(3))
        }
    );
    assert!(plan.contains(Literal::cut(3)) && plan.contains(Literal::cut(4)));
}

/// A region over up to 64 atoms has one word a side, over up to 128 two: others than the ledger's have fewer, more or as many.
#[test]
fn a_region_over_other_atoms_is_refused() {
    for (atoms, others) in [
        (20, [1, 3, 19, 21, 64, 65]),
        (100, [3, 64, 65, 99, 101, 129]),
    ] {
        let mut ledger = Ledger::make(&LearningLimits::tier(atoms), 9).unwrap();
        let mut meter = Meter::new(1000);
        // Every plan holds point 15.
        ledger.offer(&mut meter, &[], &[Literal::held(15)]).unwrap();
        for other in others {
            refused_unchanged(&mut ledger, other);
        }
        let mut plan = Region::new(atoms).unwrap();
        let closed = ledger.close(&mut meter, &mut plan).unwrap();
        assert_eq!(closed.answer.end, Closing::Closed);
        assert!(plan.literals().eq([Literal::held(15)]));
    }
}

/// Every call with a region over so many atoms is refused by 6, and changes nothing.
fn refused_unchanged(ledger: &mut Ledger, atoms: u64) {
    let before = ledger.clone();
    let mut plan = Region::new(atoms).unwrap();
    assert!(plan.decide(Literal::held(0)));
    let (lent, mut cursor, mut meter) = (plan.clone(), Cursor::default(), Meter::new(1000));
    assert_eq!(ledger.deduce(&mut meter, 0, &plan), Err(Refusal(6)));
    assert_eq!(
        ledger.next_output(&mut meter, 0, &mut cursor, &plan),
        Err(Refusal(6))
    );
    assert_eq!(ledger.close(&mut meter, &mut plan), Err(Refusal(6)));
    // The position is tested before the region.
    assert_eq!(ledger.deduce(&mut meter, 1, &plan), Err(Refusal(5)));
    assert_eq!((meter, cursor), (Meter::new(1000), Cursor::default()));
    assert!(plan == lent && same_words(ledger, &before));
}

/// A tunnel line has 200,000 points: a code and the same in its low bits are two.
#[test]
fn codes_have_32_bits() {
    let mut ledger = Ledger::make(&LearningLimits::tier(200_000), 9).unwrap();
    let mut meter = Meter::new(1000);
    let (near, far, last) = (
        Literal::held(3),
        Literal::held(32_771),
        Literal::cut(199_999),
    );
    assert_eq!(far.code(), near.code() + 65_536);
    assert_eq!(
        ledger.offer(&mut meter, &[far], &[last]),
        charged(Offer::Added(0), 2)
    );
    let offered = ledger.offer(&mut meter, &[near], &[Literal::held(65_536)]);
    assert_eq!(offered.unwrap().answer, Offer::Added(1));
    for code in [400_000, u32::MAX] {
        assert_eq!(
            ledger.offer(&mut meter, &codes([code]), &[last]),
            Err(Refusal(4))
        );
    }
    let mut plan = Region::new(200_000).unwrap();
    assert!(plan.decide(far));
    assert_eq!(
        ledger.deduce(&mut meter, 0, &plan),
        charged(Deduction::Force, 2)
    );
    assert_eq!(
        ledger.close(&mut meter, &mut plan).unwrap().answer.end,
        Closing::Closed
    );
    assert!(plan.literals().eq([far, last]));
    let mut small = Ledger::make(&LearningLimits::tier(32_768), 9).unwrap();
    assert_eq!(small.offer(&mut meter, &[far], &[]), Err(Refusal(4)));
}

#[test]
fn a_tier_is_seeded_from_a_store() {
    let mut store = two_rows(4);
    for _ in 0..5 {
        store.hit(0).unwrap();
    }
    let mut tier = Ledger::make(&limits(2), 9).unwrap();
    let mut meter = Meter::new(1000);
    // 3 and 5 to read the rows, 2 to compare the second with the first, 2 and 8 to write them.
    assert_eq!(
        tier.seed(&mut store, &mut meter),
        charged(Transfer::Done, 20)
    );
    assert_eq!(
        (tier.rows(), tier.sharing(), tier.mark()),
        (2, 131_072 - 20, Some(Mark { number: 4, born: 2 }))
    );
    // Two additions in a tier of two rows halve the hits that came along.
    assert_eq!(
        (tier.slots()[4], tier.slots()[5], tier.slots()[7]),
        (2, 0, 1)
    );
    assert_eq!((store.seeded(), store.sharing()), (2, 131_072));
    assert_eq!(
        tier.seed(&mut store, &mut meter),
        charged(Transfer::Done, 2)
    );
    assert_eq!(
        tier.seed(&mut store, &mut Meter::new(1)),
        charged(Transfer::Stopped, 1)
    );
    let mut wide = Ledger::make(&LearningLimits::store(129), 5).unwrap();
    assert_eq!(tier.seed(&mut wide, &mut meter), Err(Refusal(7)));
}

#[test]
fn a_store_takes_what_is_delivered() {
    let mut tier = two_rows(9);
    for _ in 0..5 {
        tier.hit(0).unwrap();
    }
    let mut store = Ledger::make(&limits(2), 4).unwrap();
    let mut meter = Meter::new(1000);
    // As a seeding, and 1 for each row.
    assert_eq!(
        tier.deliver(&mut store, &mut meter),
        charged(Transfer::Done, 22)
    );
    assert_eq!(
        (store.rows(), store.deliveries(), store.slots()[4]),
        (2, 2, 2)
    );
    assert_eq!(
        (
            tier.sharing(),
            tier.slots()[4],
            tier.slots()[5],
            tier.slots()[7]
        ),
        (131_072 - 20, 5, 0, 1)
    );
    tier.hit(0).unwrap();
    // 1 for each row, 3 to read the first, 3 to find it subsumed.
    assert_eq!(
        tier.deliver(&mut store, &mut meter),
        charged(Transfer::Done, 8)
    );
    assert_eq!((store.rows(), store.slots()[4]), (2, 3));
    assert_eq!(
        tier.deliver(&mut store, &mut Meter::new(1)),
        charged(Transfer::Stopped, 1)
    );
    let mut wide = Ledger::make(&LearningLimits::store(129), 5).unwrap();
    assert_eq!(tier.deliver(&mut wide, &mut meter), Err(Refusal(7)));
}

#[test]
fn a_region_is_decided_or_refused() {
    let mut plan = Region::new(128).unwrap();
    assert!(plan.decide(Literal::held(66)));
    assert!(plan.decide(Literal::held(66)));
    assert!(plan.decide(Literal::cut(0)));
    assert!(!plan.decide(Literal::held(0)));
    assert!(!plan.decide(Literal::held(128)));
    assert!(!plan.decide(Literal::cut(u64::MAX)));
    assert_eq!(
        (plan.atoms(), plan.held(), plan.cut()),
        (128, &[0, 4][..], &[1, 0][..])
    );
    assert!(plan.literals().eq([Literal::cut(0), Literal::held(66)]));
    assert!(
        plan.contains(Literal::held(66))
            && !plan.contains(Literal::cut(66))
            && !plan.contains(Literal::held(u64::MAX))
    );
    for atoms in [0, 1_048_577, u64::MAX] {
        assert_eq!(Region::new(atoms), Err(Refusal(6)));
    }
    assert_eq!(
        Region::from_words(128, vec![1, 0], vec![1, 0]),
        Err(Refusal(6))
    );
    assert_eq!(
        Region::from_words(100, vec![0, 1 << 36], vec![0, 0]),
        Err(Refusal(6))
    );
    assert_eq!(Region::from_words(128, vec![1], vec![2]), Err(Refusal(6)));
    assert_eq!(Region::from_words(128, vec![0, 4], vec![1, 0]), Ok(plan));
}

#[test]
fn literals_and_refusals_say_what_they_are() {
    assert_eq!(
        (Literal::held(70).code(), Literal::cut(70).code()),
        (141, 140)
    );
    assert_eq!(
        (
            Literal::from_code(141).atom(),
            Literal::from_code(141).is_held()
        ),
        (70, true)
    );
    assert_eq!(
        (!Literal::held(70), !Literal::cut(70)),
        (Literal::cut(70), Literal::held(70))
    );
    assert_eq!(
        Refusal(7).to_string(),
        "refused by 7: tier and store over different numbers of atoms"
    );
    assert_eq!(
        Refusal(11).to_string(),
        "refused by 11: a source that is neither Founded nor Tip"
    );
}

// ---- Sources: document 02, Eight

/// A row by its source: conditions → outputs.
type Rule<'a> = (Source, &'a [u32], &'a [u32]);

/// Offers a row to a ledger that has reads enough.
fn offer(ledger: &mut Ledger, (source, conditions, outputs): Rule) -> Offer {
    let literals = |codes: &[u32]| codes.iter().copied().map(Literal::from_code).collect();
    let (conditions, outputs): (Vec<_>, Vec<_>) = (literals(conditions), literals(outputs));
    let offered = ledger.offer_as(&mut Meter::new(1000), &conditions, &outputs, source);
    offered.unwrap().answer
}

/// A ledger over 128 atoms with room for so many rows and so many protected, to which these were offered and added.
fn added(tier_rows: u64, founded_floor: u64, rules: &[Rule]) -> Ledger {
    let limits = LearningLimits {
        founded_floor,
        ..limits(tier_rows)
    };
    let mut ledger = Ledger::make(&limits, 9).unwrap();
    for &rule in rules {
        assert!(matches!(offer(&mut ledger, rule), Offer::Added(_)));
    }
    ledger
}

/// The sources in their order, with as many Founded ones as the header counts.
fn sources(ledger: &Ledger) -> Vec<Source> {
    let sources: Vec<Source> = (0..).map_while(|row| ledger.source(row)).collect();
    let founded = sources.iter().filter(|&&source| source == Founded).count();
    assert_eq!(
        (sources.len(), founded),
        (ledger.rows(), ledger.founded()),
        "{sources:?}"
    );
    sources
}

#[test]
fn a_row_has_the_source_that_it_was_offered_with() {
    let rows: [Rule; 3] = [
        (Tip, &[7], &[140]),
        (Founded, &[9], &[142]),
        (Tip, &[11], &[144]),
    ];
    let ledger = added(4, 0, &rows);
    assert_eq!(sources(&ledger), [Tip, Founded, Tip]);
    assert_eq!([3, 4, usize::MAX].map(|row| ledger.source(row)), [None; 3]);
    // The last word of each slot, and of the header.
    let last: Vec<u64> = ledger.slots().chunks(169).map(|slot| slot[168]).collect();
    assert_eq!((last, ledger.header()[25]), (vec![1, 0, 1, 0], 1));
    // `offer` is of house rules.
    let mut house = added(4, 0, &[]);
    let offered = house.offer(&mut Meter::new(1000), &codes([7]), &codes([140]));
    assert_eq!(offered, charged(Offer::Added(0), 2));
    assert_eq!(sources(&house), [Founded]);
}

/// No read is paid for a source, and a Tip is an attempt as any row.
#[test]
fn a_tip_costs_what_a_founded_row_costs() {
    let mut ledgers = [Founded, Tip].map(|source| (source, added(2, 0, &[])));
    for (conditions, outputs, ticks, answer) in [
        (7, 140, 2, Offer::Added(0)),
        (7, 140, 3, Offer::Subsumed(0)),
        (7, 142, 14, Offer::Added(0)),
    ] {
        for (source, ledger) in &mut ledgers {
            let (conditions, outputs) = (codes([conditions]), codes([outputs]));
            let offered = ledger.offer_as(&mut Meter::new(1000), &conditions, &outputs, *source);
            assert_eq!(offered, charged(answer, ticks));
        }
    }
    for (_, ledger) in &ledgers {
        assert_eq!((ledger.attempts(), ledger.remaining()), (3, 131_072 - 19));
    }
    let limit = LearningLimits {
        founded_conditions: 0,
        ..limits(2)
    };
    let mut narrow = Ledger::make(&limit, 9).unwrap();
    let offered = narrow.offer_as(&mut Meter::new(1000), &codes([7]), &[], Tip);
    assert_eq!(offered, Err(Refusal(4)));
}

#[test]
fn up_to_the_floor_a_tip_is_evicted_and_founded_rows_stay() {
    let mut ledger = added(2, 1, &[(Founded, &[7], &[140]), (Tip, &[9], &[142])]);
    // The Founded row has fewer hits and was born first, and stays.
    ledger.hit(1).unwrap();
    assert_eq!(offer(&mut ledger, (Tip, &[11], &[144])), Offer::Added(1));
    assert_eq!(
        offer(&mut ledger, (Founded, &[13], &[146])),
        Offer::Added(1)
    );
    assert_eq!((sources(&ledger), ledger.evicted()), (vec![Founded; 2], 2));
    // Two Founded rows are above the floor: now the older one goes, for a Tip too.
    assert_eq!(offer(&mut ledger, (Tip, &[15], &[148])), Offer::Added(0));
    assert_eq!(
        (sources(&ledger), ledger.evicted()),
        (vec![Tip, Founded], 3)
    );
    assert_eq!(offer(&mut ledger, (Tip, &[17], &[150])), Offer::Added(0));
    assert_eq!(
        (sources(&ledger), ledger.evicted()),
        (vec![Tip, Founded], 4)
    );
}

#[test]
fn above_the_floor_hits_alone_choose() {
    let rows: [Rule; 3] = [
        (Tip, &[7], &[140]),
        (Founded, &[9], &[142]),
        (Founded, &[11], &[144]),
    ];
    // Three additions in a tier of three rows have halved the hits already: these stay as they are.
    for (floor, position) in [(1, 1), (2, 0)] {
        let mut ledger = added(3, floor, &rows);
        ledger.hit(0).unwrap();
        ledger.hit(2).unwrap();
        assert_eq!(
            offer(&mut ledger, (Founded, &[13], &[146])),
            Offer::Added(position)
        );
    }
    // Of Tips the one with the fewest hits, of as many the oldest.
    let rows: [Rule; 3] = [
        (Tip, &[7], &[140]),
        (Tip, &[9], &[142]),
        (Founded, &[11], &[144]),
    ];
    for (hit, position) in [(0, 1), (1, 0), (2, 0)] {
        let mut ledger = added(3, 1, &rows);
        ledger.hit(hit).unwrap();
        assert_eq!(
            offer(&mut ledger, (Tip, &[13], &[146])),
            Offer::Added(position)
        );
    }
}

/// For one and two rows in a tier of two, each from either source, and every floor up to one above it.
#[test]
fn being_full_shuts_exactly_without_a_tip_and_up_to_the_floor() {
    let first: Rule = (Founded, &[7], &[140]);
    for of_first in [Founded, Tip] {
        for of_second in [None, Some(Founded), Some(Tip)] {
            for floor in 0..=3 {
                let mut rows = vec![(of_first, first.1, first.2)];
                rows.extend(of_second.map(|source| (source, &[9][..], &[142][..])));
                let founded = rows.iter().filter(|row| row.0 == Founded).count();
                let shut = rows.len() == 2 && founded == rows.len() && founded as u64 <= floor;
                // New, to be joined, and one that says nothing new: Shut comes before all of them.
                for (output, source) in [(144, Founded), (144, Tip), (140, Founded), (140, Tip)] {
                    for condition in [7, 11] {
                        let mut ledger = added(2, floor, &rows);
                        let before = ledger.clone();
                        let answer = offer(&mut ledger, (source, &[condition], &[output]));
                        assert_eq!(answer == Offer::Shut, shut, "{rows:?}, floor {floor}");
                        assert!(!shut || same_words(&ledger, &before));
                    }
                }
            }
        }
    }
}

#[test]
fn a_joined_row_has_the_source_of_the_row_offered() {
    for (old, new) in [
        (Founded, Tip),
        (Tip, Founded),
        (Tip, Tip),
        (Founded, Founded),
    ] {
        // 7 → 140 and 7 → 142 are joined; 7 → 140 takes the place of 3, 7 → 140, for it asks for less.
        for (before, after) in [
            ((&[7][..], 140), (&[7][..], 142)),
            ((&[3, 7][..], 140), (&[7][..], 140)),
        ] {
            let mut ledger = added(2, 1, &[(old, before.0, &[before.1])]);
            assert_eq!(ledger.founded(), usize::from(old == Founded));
            assert_eq!(
                offer(&mut ledger, (new, after.0, &[after.1])),
                Offer::Added(0)
            );
            assert_eq!(sources(&ledger), [new]);
        }
    }
    // Two rows of either source, and one that takes the place of both.
    let rows: [Rule; 2] = [(Founded, &[7, 9], &[140]), (Tip, &[7, 11], &[140])];
    for source in [Founded, Tip] {
        let mut ledger = added(4, 0, &rows);
        assert_eq!(offer(&mut ledger, (source, &[7], &[140])), Offer::Added(0));
        assert_eq!(sources(&ledger), [source]);
    }
}

#[test]
fn a_row_that_says_as_much_keeps_its_source() {
    for (old, new) in [(Founded, Tip), (Tip, Founded)] {
        let mut ledger = added(2, 0, &[(old, &[7], &[140, 142])]);
        assert_eq!(offer(&mut ledger, (new, &[7], &[142])), Offer::Subsumed(0));
        assert_eq!(sources(&ledger), [old]);
    }
}

#[test]
fn transfers_hand_the_source_on() {
    let rows: [Rule; 3] = [
        (Tip, &[7], &[140]),
        (Founded, &[9], &[142]),
        (Tip, &[11], &[144]),
    ];
    let mut tier = added(3, 0, &rows);
    let (mut store, mut second) = (added(4, 0, &[]), added(4, 0, &[]));
    let mut meter = Meter::new(1000);
    tier.deliver(&mut store, &mut meter).unwrap();
    second.seed(&mut store, &mut meter).unwrap();
    assert_eq!((store.deliveries(), store.seeded()), (3, 3));
    for ledger in [&tier, &store, &second] {
        assert_eq!(sources(ledger), [Tip, Founded, Tip]);
    }
    // What the store knows already brings hits, and no source.
    let mut other = added(2, 0, &[(Founded, &[7], &[140]), (Tip, &[9], &[142])]);
    other.hit(0).unwrap();
    other.deliver(&mut store, &mut meter).unwrap();
    assert_eq!(sources(&store), [Tip, Founded, Tip]);
    assert_eq!((store.deliveries(), store.slots()[4]), (3, 1));
    // The receiver's floor and Founded rows decide: with a Tip there is a place, else the transfer ends at the first row.
    for (held, taken) in [(Tip, 1), (Founded, 0)] {
        for source in [Founded, Tip] {
            let mut giver = added(1, 0, &[(source, &[9], &[142])]);
            let mut full = added(1, 1, &[(held, &[7], &[140])]);
            assert_eq!(
                full.seed(&mut giver, &mut meter).unwrap().answer,
                Transfer::Done
            );
            let now = if taken == 1 { source } else { held };
            assert_eq!(
                (
                    sources(&full),
                    full.evicted(),
                    giver.seeded(),
                    full.mark().is_some()
                ),
                (vec![now], taken, taken, taken == 1)
            );
        }
    }
}

#[test]
fn words_with_other_sources_are_taken_or_refused() {
    let ledger = added(3, 0, &[(Tip, &[7], &[140]), (Founded, &[9], &[142])]);
    let taken = |source: usize, word: u64, founded: u64| {
        let (mut header, mut slots) = (*ledger.header(), ledger.slots().to_vec());
        slots[source] = word;
        header[25] = founded;
        Ledger::from_words(header, slots, ledger.postings().to_vec()).map(|ledger| sources(&ledger))
    };
    assert_eq!(taken(168, 1, 1), Ok(vec![Tip, Founded]));
    assert_eq!(taken(168, 0, 2), Ok(vec![Founded, Founded]));
    assert_eq!(taken(169 + 168, 1, 0), Ok(vec![Tip, Tip]));
    for (place, word, founded) in [
        (168, 0, 1),
        (168, 1, 0),
        (168, 1, 2),
        (168, 1, u64::MAX),
        (168, 2, 0),
        (168, 2, 1),
        (168, u64::MAX, 1),
        (168, u64::MAX, 3),
        (169 + 168, 2, 1),
        (2 * 169 + 168, 1, 1),
    ] {
        assert_eq!(
            taken(place, word, founded),
            Err(Refusal(3)),
            "{place}: {word}"
        );
    }
}

/// No `Source` has another word: what 11 refuses is offered to the function itself.
#[test]
fn a_third_source_is_refused_by_the_function() {
    let ledger = added(2, 0, &[(Tip, &[7], &[140])]);
    let offered = |source: u64, output: u64, broken: bool| {
        let (mut header, mut slots) = (*ledger.header(), ledger.slots().to_vec());
        let (mut postings, mut answer, mut meter) = (ledger.postings().to_vec(), [5; 4], [0, 1000]);
        header[25] += u64::from(broken);
        let (given, given_slots) = (header, slots.clone());
        // SAFETY: each pointer is of as many words as are said, and what is written is borrowed for it alone.
        let refused = unsafe {
            ledger_offer(
                header.as_mut_ptr(),
                answer.as_mut_ptr(),
                meter.as_mut_ptr(),
                slots.as_mut_ptr(),
                slots.len(),
                postings.as_mut_ptr(),
                postings.len(),
                [9].as_ptr(),
                1,
                [output].as_ptr(),
                1,
                source,
            )
        };
        let kept = (header, &slots, answer, meter) == (given, &given_slots, [5; 4], [0, 1000]);
        assert_eq!(kept && postings == ledger.postings(), refused != 0);
        refused
    };
    assert_eq!([0, 1].map(|source| offered(source, 142, false)), [0, 0]);
    for source in [2, 256, 1 << 32, u64::MAX - 1, u64::MAX] {
        assert_eq!(offered(source, 142, false), 11);
        assert_eq!(offered(source, 256, false), 4);
        assert_eq!(offered(source, 142, true), 3);
    }
}

// In the library that the package is linked with; include/ledger.h has it in full.
unsafe extern "C" {
    fn ledger_offer(
        head: *mut u64,
        answer: *mut u64,
        meter: *mut u64,
        slots: *mut u64,
        slots_len: usize,
        postings: *mut u64,
        postings_len: usize,
        conditions: *const u64,
        conditions_len: usize,
        outputs: *const u64,
        outputs_len: usize,
        source: u64,
    ) -> u64;
}
