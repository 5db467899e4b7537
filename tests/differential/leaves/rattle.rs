//! A call as the verified functions end it.

use crate::case::{Answer, Case, End, Function, SLOT_WORDS};
use crate::library::{self, Four};

/// What lent words hold before a call: a call that leaves them alone leaves it there.
const UNTOUCHED: u64 = 0x5a5a_5a5a_5a5a_5a5a;

/// What a call gave back: its result, the answer's words, and what it wrote.
struct Given {
    result: u64,
    answer: Four,
    words: Vec<u64>,
}

fn call(case: &Case) -> Given {
    let paying = [
        case.account,
        u64::from(case.sharing),
        case.charged,
        case.limit,
    ];
    let (atoms, row, other) = (case.atoms, &case.row, &case.other);
    let mut answer = [UNTOUCHED; 4];
    let mut slot = [UNTOUCHED; SLOT_WORDS];
    let mut words = Vec::new();
    let result = match case.function {
        Function::Prepare => library::prepare(atoms, row, &paying, 1, &mut slot, &mut answer),
        Function::Includes => {
            library::includes(atoms, row, other, case.number, &paying, 1, &mut answer)
        }
        Function::Subsumes => library::subsumes(atoms, row, other, false, &paying, 1, &mut answer),
        Function::SubsumedBy => library::subsumes(atoms, row, other, true, &paying, 1, &mut answer),
        Function::UnionOutputs => {
            let most = case.number;
            library::union_outputs(atoms, row, other, most, &paying, 1, &mut slot, &mut answer)
        }
        Function::Deduction => {
            library::deduction(atoms, row, &case.held, &case.cut, &paying, 1, &mut answer)
        }
        Function::NextOutput => {
            let (held, cut, mut cursor) = (&case.held, &case.cut, case.cursor);
            let result =
                library::next_output(atoms, row, held, cut, &mut cursor, &paying, &mut answer);
            if result == 0 || cursor != case.cursor {
                words = cursor.to_vec();
            }
            result
        }
        Function::Decide => {
            let (mut held, mut cut) = (case.held.clone(), case.cut.clone());
            let (atom, value) = (case.number, case.value);
            let result = library::decide(atoms, &mut held, &mut cut, atom, value, &mut answer);
            if result == 0 || (&held, &cut) != (&case.held, &case.cut) {
                words = [held, cut].concat();
            }
            result
        }
        Function::NextFrom => library::next_from(&case.held, case.number, &mut answer),
        Function::Contains => {
            answer[0] = u64::from(library::contains(&case.held, case.number));
            0
        }
        Function::Insert => {
            words = case.held.clone();
            library::insert(&mut words, case.number);
            answer[0] = 1;
            0
        }
    };
    if slot != [UNTOUCHED; SLOT_WORDS] {
        words = slot.to_vec();
    }
    if result != 0 && answer != [UNTOUCHED; 4] {
        words.extend(answer);
    }
    Given {
        result,
        answer,
        words,
    }
}

/// Whether the third word of an answer says something: the account left, or the output that a Require names. In others it is 0; of contains
/// and insert, which answer no words, it is not looked at.
fn says_third(function: Function, number: u64) -> bool {
    let requires = function == Function::Deduction && number == 3;
    let wordless = matches!(function, Function::Contains | Function::Insert);
    function.pays() || requires || wordless
}

/// How the verified functions end the call. A number that is no answer of theirs ends the program.
pub fn run(case: &Case) -> End {
    let mut given = call(case);
    let [number, value, left, charged] = given.answer;
    if given.result == 0 && !says_third(case.function, number) && left != 0 {
        given.words.push(left);
    }
    let ended = |answer: Answer, account: u64, charge: u64| End {
        answer,
        account,
        charge,
        words: given.words.clone(),
    };
    if given.result != 0 {
        return ended(Answer::Unfit(given.result), case.account, 0);
    }
    let function = case.function;
    let answer = match (function, number) {
        (Function::Decide | Function::Contains | Function::Insert, 0) => Answer::No,
        (Function::Decide | Function::Contains | Function::Insert, 1) => Answer::Yes,
        (Function::NextFrom, 0) => Answer::Nothing,
        (Function::NextFrom, 1) => Answer::At(value),
        (_, 0) => Answer::Stopped,
        (Function::Deduction, 1) => Answer::Nothing,
        (Function::Deduction, 2) => Answer::Force,
        (Function::Deduction, 3) => Answer::Require(value, left),
        (Function::NextOutput, 1) => Answer::End,
        (Function::NextOutput, 2) => Answer::Output(value),
        (_, 1) => Answer::Declined,
        (_, 2) => Answer::No,
        (_, 3) => Answer::Yes,
        other => panic!("no answer: {other:?}"),
    };
    if !function.ticks() {
        return ended(answer, case.account, 0);
    }
    // The kind of the account comes back as it was given; a wrong one shows as another account.
    let kept = !function.pays() || value == u64::from(case.sharing);
    let account = if function.pays() { left } else { case.account };
    ended(
        answer,
        if kept { account } else { !account },
        charged.wrapping_sub(case.charged),
    )
}
