//! NaNs in gas and scratch, of both signs, quiet and signalling, no two alike in one case: a refused call must leave every bit of them, and a call that is
//! done those past its room. No promise says so, since a float of the definitions has one NaN.

use crate::outcome;
use boards::random::Random;
use boards::refusal::refusal;
use boards::{Case, Outcome, families, faults};

const CALLS: [&str; 3] = ["equalize", "depressurize", "planet walk"];
/// How many floats past the room a call that is done is lent.
const PAST: usize = 64;

/// The NaN with this number, from 4 on to 2^24: sign, quiet bit and payload.
fn nan(number: u32) -> f32 {
    let payload = (number >> 2).wrapping_mul(0x2f_6a35) & 0x3f_ffff;
    f32::from_bits((number & 1) << 31 | 0x7f80_0000 | (number & 2) << 21 | payload)
}

/// The case with NaNs in the amounts from one on and in all floats, of which there are more than the room where the call is done.
fn with_nans(case: &Case, from: usize) -> Case {
    let (mut case, mut next) = (case.clone(), (4..).map(nan));
    let mut fill = |cells: &mut [f32]| cells.fill_with(|| next.next().expect("a NaN"));
    fill(&mut case.board.amounts[from..]);
    if refusal(&case) == 0 {
        case.floats.resize(case.room().floats + PAST, 0.0);
    }
    fill(&mut case.floats);
    case
}

/// The NaNs among what was left.
fn nans(left: &mut Outcome) -> Vec<&mut f32> {
    left.amounts.iter_mut().chain(&mut left.floats).filter(|x| x.is_nan()).collect()
}

/// Flips a bit of one of these NaNs, which stays one: its sign, its quiet bit or a bit of its payload.
fn flip(mut nans: Vec<&mut f32>, random: &mut Random) {
    let at = random.below(nans.len() as u64) as usize;
    let bits = nans[at].to_bits();
    let flipped = [31, 22, random.below(22)].map(|bit| f32::from_bits(bits ^ 1 << bit));
    *nans[at] = random.pick(&flipped.into_iter().filter(|x| x.is_nan()).collect::<Vec<_>>());
}

/// What a call was seen to hold: calls by refusal, 0 being done; NaNs that were compared; flipped bits that were noticed.
#[derive(Default)]
struct Held {
    calls: [u64; 8],
    nans: u64,
    noticed: u64,
}

impl Held {
    /// Makes a call and compares every number and every bit that it left; then a bit of a NaN is flipped, which must be noticed.
    fn test(&mut self, random: &mut Random, case: &Case) -> Result<(), String> {
        let (mut left, due) = (outcome(case)?, filled::play::outcome(case));
        if left != due {
            return Err(format!("differs\nlibrary: {left:x?}\ndue: {due:x?}"));
        }
        self.calls[due.answer[0] as usize] += 1;
        let held = nans(&mut left);
        self.nans += held.len() as u64;
        if !held.is_empty() {
            flip(held, random);
            self.noticed += 1;
            return (left != due).then_some(()).ok_or("a bit of a NaN was flipped, and not noticed".to_string());
        }
        Ok(())
    }

    /// A case three times: gas as it is, with a NaN at its end, of NaNs alone.
    fn all(&mut self, random: &mut Random, label: &str, case: &Case) {
        let amounts = case.board.amounts.len();
        for from in [amounts, amounts.saturating_sub(1), 0] {
            if let Err(found) = self.test(random, &with_nans(case, from)) {
                println!("{label}, NaNs from amount {from} on: {found}");
                std::process::exit(1);
            }
        }
    }
}

/// Every fault alone and every two, from a seed on, and boards of every family; false where a call doesn't answer each of its refusals.
pub fn payloads(each: u64, seed: u64) -> bool {
    let (mut held, mut random) = (CALLS.map(|_| Held::default()), Random::new(seed));
    for seed in seed..seed + each {
        faults::cases(seed, &mut |label, _, case| held[case.call.number() as usize - 1].all(&mut random, label, case));
    }
    for call in 1..=3 {
        families::cases(call, each, seed, &mut |label, case| held[call as usize - 1].all(&mut random, label, case));
    }
    for (name, Held { calls: [done, refused @ ..], nans, noticed }) in CALLS.iter().zip(&held) {
        println!("{name}: {done} done, refusals 1 to 7 {refused:?}, {nans} NaNs as they were, {noticed} flipped bits noticed, no difference");
    }
    held.iter().zip(CALLS).all(|(held, name)| (0..8).all(|number| held.calls[number] > 0 || (number == 6 && name != "equalize")))
}
