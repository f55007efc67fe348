//! The proved parts of equalize as functions of a case, and what their comparisons share.

use boards::families::{FAMILIES, case};
use boards::guarded::Lent;
use boards::{Call, Case, Equalize, Outcome, call};

boards::calls! {
    fn stages_fill(amounts: *const f32, amounts_len: usize, hot: *const u32, hot_len: usize, threshold: f32, limit: u32, allowance: u32);
    fn stages_plan(amounts: *const f32, amounts_len: usize, hot: *const u32, hot_len: usize, threshold: f32, limit: u32, allowance: u32);
}

/// What a case asks of equalize.
pub fn asked(case: &Case) -> &Equalize {
    let Call::Equalize(ask) = &case.call else { panic!("a part of equalize is asked") };
    ask
}

/// What the proved filling answers and leaves.
pub fn fill(case: &Case) -> Result<Outcome, &'static str> {
    let (board, mut lent, ask) = (case.board.clone(), Lent::new(case, 6), asked(case));
    let number = call!(stages_fill, &board, &mut lent, *const f32, ask.hot.as_ptr(), ask.hot.len(), ask.threshold, ask.limit, ask.allowance);
    lent.outcome(number, &board, case)
}

/// What the proved filling and planning answer and leave.
pub fn plan(case: &Case) -> Result<Outcome, &'static str> {
    let (board, mut lent, ask) = (case.board.clone(), Lent::new(case, 6), asked(case));
    let number = call!(stages_plan, &board, &mut lent, *const f32, ask.hot.as_ptr(), ask.hot.len(), ask.threshold, ask.limit, ask.allowance);
    lent.outcome(number, &board, case)
}

/// Changes these words and floats, every event byte and every number of the answer, one at a time: how many, or the first whose change isn't
/// noticed.
pub fn alter(left: &Outcome, (words, floats): (Vec<usize>, Vec<usize>), differs: impl Fn(&Outcome) -> bool) -> Result<u64, String> {
    let mut changed = left.clone();
    for &at in &words {
        changed.words[at] ^= 1;
        if !differs(&changed) {
            return Err(format!("word {at} changed, and not noticed"));
        }
        changed.words[at] ^= 1;
    }
    for &at in &floats {
        let cell = changed.floats[at];
        changed.floats[at] = f32::from_bits(cell.to_bits() ^ 1);
        if !differs(&changed) {
            return Err(format!("float {at} changed, and not noticed"));
        }
        changed.floats[at] = cell;
    }
    for at in 0..changed.events.len() {
        changed.events[at] ^= 1;
        if !differs(&changed) {
            return Err(format!("event byte {at} changed, and not noticed"));
        }
        changed.events[at] ^= 1;
    }
    for at in 0..changed.answer.len() {
        changed.answer[at] ^= 1;
        if !differs(&changed) {
            return Err(format!("number {at} of the answer changed, and not noticed"));
        }
        changed.answer[at] ^= 1;
    }
    Ok((words.len() + floats.len() + changed.events.len() + changed.answer.len()) as u64)
}

/// Tests a part on so many boards a family, with no turns, and tells the first difference.
pub fn on_boards(each: u64, seed: u64, mut test: impl FnMut(&Case) -> Option<String>) {
    for (family, name) in FAMILIES.into_iter().enumerate() {
        for seed in seed..seed + if name == "large" { each.div_ceil(100) } else { each } {
            let mut case = case(family, 1, seed);
            if let Call::Equalize(ask) = &mut case.call {
                ask.turns.clear();
            }
            if let Some(difference) = test(&case) {
                println!("{name} {seed} differs: {difference}");
                std::process::exit(1);
            }
        }
    }
}
