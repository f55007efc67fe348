//! What the proved planning leaves, beside the text's.

use crate::parts::{alter, fill, on_boards, plan};
use boards::refusal::refusal;
use boards::scratch::{filling_differs, planned_fixed, planning_differs, refused};
use boards::{Call, Case, Played};

/// The text's run, with two clock tests more where it isn't cancelled in filling: so it plans where the proved part does.
fn played(case: &Case) -> Played {
    let played = filled::play::play(case);
    if played.filling.over || !played.cancelled {
        return played;
    }
    let mut more = case.clone();
    if let Call::Equalize(ask) = &mut more.call {
        ask.allowance += 2;
    }
    filled::play::play(&more)
}

/// What a comparison came to: boards; by number, those refused; those on which the clock ran out in filling; zones planned; links with a weight,
/// and how many of these aren't 0; cells changed on purpose, each of them noticed.
#[derive(Debug, Default)]
struct Compared {
    boards: u64,
    refused: [u64; 7],
    over: u64,
    zones: u64,
    weights: u64,
    moved: u64,
    altered: u64,
}

impl Compared {
    /// Compares one board; `Some` tells the difference.
    fn test(&mut self, case: &Case) -> Option<String> {
        let (filled, left) = match (fill(case), plan(case)) {
            (Ok(filled), Ok(left)) => (filled, left),
            (Err(broken), _) | (_, Err(broken)) => return Some(broken.to_string()),
        };
        self.boards += 1;
        let number = refusal(case);
        if number != 0 {
            self.refused[number as usize - 1] += 1;
            return (left != refused(case, number, 6)).then(|| format!("refusal {number} is due, answer {:?}", left.answer));
        }
        let played = played(case);
        if let Some(what) = filling_differs(case, &played, &filled) {
            return Some(format!("{what}, answer {:?}", filled.answer));
        }
        if played.filling.over {
            self.over += 1;
            return (left != filled).then(|| "the clock ran out in filling, and something was planned".to_string());
        }
        if let Some(what) = planning_differs(case, &played, &filled, &left) {
            return Some(format!("{what}, answer {:?}", left.answer));
        }
        let weights = || played.planned.iter().flatten().map(|edge| edge.weight);
        self.zones += played.planned.len() as u64;
        self.weights += weights().count() as u64;
        self.moved += weights().filter(|&weight| weight != 0.0).count() as u64;
        if case.board.ids.len() <= 4 {
            match alter(&left, planned_fixed(case, &left), |changed| planning_differs(case, &played, &filled, changed).is_some()) {
                Ok(cells) => self.altered += cells,
                Err(unnoticed) => return Some(unnoticed),
            }
        }
        None
    }
}

pub fn compare(each: u64, seed: u64) {
    let mut compared = Compared::default();
    on_boards(each, seed, |case| compared.test(case));
    println!("planning: {compared:?}, no difference");
}
