//! The refusals 1 to 7 of the calls, from document 01's table, in its order.

use crate::case::{Board, Call, Case};

const MOST: f32 = 1_099_511_627_776.0; // 2^40

fn ascending(list: &[u32]) -> bool {
    list.windows(2).all(|pair| pair[0] < pair[1])
}

fn finite_sign_clear(x: f32) -> bool {
    x.is_finite() && x.is_sign_positive()
}

fn sizes_fit(board: &Board, call: &Call) -> bool {
    let lent = match call {
        Call::Equalize(ask) => ask.hot.len() <= 4_096 && ask.turns.len() <= 65_536,
        _ => true,
    };
    let within = |size: usize| (1..=4_096).contains(&size);
    lent && within(board.ids.len()) && within(board.immutable.len()) && board.neighbours.len() <= 24_576 && (1..=64).contains(&board.gases)
}

fn lengths_fit(board: &Board) -> bool {
    let turfs = board.ids.len();
    board.flags.len() == turfs
        && board.planetary.len() == turfs
        && board.mixtures.len() == turfs
        && board.starts.len() == turfs + 1
        && board.link_flags.len() == board.neighbours.len()
        && board.amounts.len() == board.immutable.len() * board.gases as usize
}

fn links_fit(board: &Board) -> bool {
    let turfs = board.ids.len();
    let from_to = board.starts.first() == Some(&0) && board.starts.get(turfs) == Some(&(board.neighbours.len() as u32));
    if !from_to || !board.starts.is_sorted() {
        return false;
    }
    let rows = board.neighbours.iter().all(|&row| (row as usize) < turfs);
    let mixtures = board.mixtures.iter().all(|&row| (row as usize) < board.immutable.len());
    let each = (0..turfs).all(|row| {
        let mut seen = std::collections::HashSet::from([row as u32]);
        board.neighbours[board.links(row)].iter().all(|&neighbour| seen.insert(neighbour))
    });
    rows && mixtures && each
}

fn amounts_fit(board: &Board, call: &Call) -> bool {
    let threshold = match call {
        Call::Equalize(ask) => finite_sign_clear(ask.threshold),
        _ => true,
    };
    threshold && board.amounts.iter().all(|&x| finite_sign_clear(x) && x <= MOST)
}

fn hot_fits(call: &Call) -> bool {
    match call {
        Call::Equalize(ask) => ascending(&ask.hot),
        _ => true,
    }
}

fn room_fits(case: &Case) -> bool {
    let room = case.room();
    case.events.len() >= room.events && case.words.len() >= room.words && case.floats.len() >= room.floats
}

/// The numbers of all tests that fail, ascending.
pub fn failed(case: &Case) -> Vec<u32> {
    let (board, call) = (&case.board, &case.call);
    let passed = [
        sizes_fit(board, call),
        lengths_fit(board),
        ascending(&board.ids),
        links_fit(board),
        amounts_fit(board, call),
        hot_fits(call),
        room_fits(case),
    ];
    (1..).zip(passed).filter(|(_, passed)| !passed).map(|(number, _)| number).collect()
}

/// The number of the first test that fails, or 0.
pub fn refusal(case: &Case) -> u32 {
    failed(case).first().copied().unwrap_or(0)
}
