//! Random boards by family. A family, a call and a seed decide a case, the same on every machine.

use crate::case::{Board, Call, Case, Equalize, Walk, with_both_arrows};
use crate::faults::spoil;
use crate::paper::board;
use crate::random::Random;
use crate::shapes::{amount, any_links, chain, extreme, grid, scattered_hub};

/// The families; `refusals` and `pairs` are ill-formed by one rule and by two.
pub const FAMILIES: [&str; 19] = [
    "tiny",
    "grids",
    "chains",
    "hubs",
    "one-way",
    "shared",
    "space",
    "planets",
    "firelocks",
    "disabled",
    "gases",
    "extremes",
    "hot",
    "allowances",
    "thresholds",
    "fast",
    "large",
    "refusals",
    "pairs",
];

fn fill_amounts(random: &mut Random, board: &mut Board, one: fn(&mut Random) -> f32) {
    board.amounts = (0..board.immutable.len() * board.gases as usize).map(|_| one(random)).collect();
}

/// Ids that ascend with gaps, sometimes up to the last one that there is.
fn fresh_ids(random: &mut Random, turfs: usize) -> Vec<u32> {
    let step = random.within(1, 12) as u64;
    let mut ids: Vec<u32> = Vec::with_capacity(turfs);
    let mut id = random.below(20) as u32;
    for _ in 0..turfs {
        ids.push(id);
        id += 1 + random.below(step) as u32;
    }
    if random.once_in(16) {
        let up = u32::MAX - ids[turfs - 1];
        ids.iter_mut().for_each(|id| *id += up);
    }
    ids
}

fn sprinkle(random: &mut Random, bytes: &mut [u8], from: &[u8]) {
    bytes.iter_mut().for_each(|byte| *byte = random.pick(from));
}

/// Mixtures fewer or more than turfs, shared at random.
fn share(random: &mut Random, board: &mut Board) {
    let mixtures = random.within(1, board.ids.len() + 2);
    board.mixtures.iter_mut().for_each(|row| *row = random.below(mixtures as u64) as u32);
    board.immutable = vec![0; mixtures];
    fill_amounts(random, board, amount);
}

/// The board of a family, with the amounts that go with it.
fn family_board(random: &mut Random, family: &str) -> Board {
    let links = match family {
        "tiny" => any_links(random, 4, true),
        "grids" => grid(random.within(1, 9), random.within(1, 9)),
        "chains" => chain(random.within(1, 60)),
        "hubs" => {
            let turfs = random.within(2, 60);
            scattered_hub(random, turfs)
        }
        "fast" => grid(random.within(2, 7), random.within(2, 7)),
        "large" => match random.below(4) {
            0 => grid(64, random.within(32, 64)),
            1 => chain(random.within(1_000, 4_096)),
            2 => {
                let turfs = random.within(1_000, 4_096);
                scattered_hub(random, turfs)
            }
            _ => any_links(random, 3_000, true),
        },
        _ => any_links(random, 20, !matches!(family, "hot" | "allowances")),
    };
    let mut made = board(&links.iter().map(Vec::as_slice).collect::<Vec<_>>(), &[]);
    made.ids = fresh_ids(random, links.len());
    if random.once_in(2) {
        for row in 0..links.len() {
            let part = made.links(row);
            random.shuffle(&mut made.neighbours[part]);
        }
    }
    made.gases = match family {
        "gases" => random.within(2, 64) as u32,
        "extremes" => random.within(1, 4) as u32,
        _ => random.pick(&[1, 1, 1, 2, 3]),
    };
    fill_amounts(random, &mut made, if family == "extremes" { extreme } else { amount });
    let mixed = random.once_in(3);
    if family == "shared" || mixed && random.once_in(4) {
        share(random, &mut made);
    }
    let mut byte = |name: &str, bytes: &mut [u8], often: &[u8], seldom: &[u8]| {
        if family == name {
            sprinkle(random, bytes, often);
        } else if mixed {
            sprinkle(random, bytes, seldom);
        }
    };
    byte("space", &mut made.immutable, &[0, 0, 0, 0, 1, 255], &[0, 0, 0, 0, 0, 0, 0, 0, 0, 1]);
    byte("planets", &mut made.planetary, &[0, 0, 0, 1, 128], &[0, 0, 0, 0, 0, 0, 0, 0, 0, 1]);
    byte("firelocks", &mut made.link_flags, &[0, 2, 2, 3, 253, 255], &[0, 0, 0, 2, 5]);
    byte("disabled", &mut made.flags, &[0, 1, 2, 3, 4, 252], &[2, 2, 2, 2, 2, 1, 3, 6, 0]);
    if family == "firelocks" {
        sprinkle(random, &mut made.planetary, &[0, 0, 1]);
    }
    made
}

fn hot(random: &mut Random, board: &Board, all: bool) -> Vec<u32> {
    let mut ids: Vec<u32> = board.ids.iter().copied().filter(|_| all || random.once_in(3)).collect();
    if random.once_in(3) {
        (0..random.within(1, 4)).for_each(|_| ids.push(random.next() as u32 % 200));
    }
    if ids.is_empty() {
        ids.push(random.pick(&board.ids));
    }
    ids.sort_unstable();
    ids.dedup();
    ids.truncate(4_096);
    ids
}

fn equalize(random: &mut Random, family: &str, board: &Board) -> Equalize {
    let turfs = board.ids.len() as u64;
    let all = random.once_in(4) || matches!(family, "hot" | "large");
    let hot = hot(random, board, all);
    let gap = (board.amounts[0] - board.amounts[board.amounts.len() - 1]).abs();
    let limit = match family {
        "planets" => random.below(6) as u32,
        _ => random.pick(&[0, 3, 10, 100, 2_000, u32::MAX]),
    };
    let threshold = match family {
        "thresholds" => random.pick(&[0.0, gap, f32::from_bits(gap.to_bits() + 1), f32::from_bits(1), f32::MAX, 1.0, 16.0]),
        _ => random.pick(&[0.0, 0.5, 0.103_934_71, 4.0]),
    };
    let allowance = match family {
        "allowances" => random.below(turfs + 4) as u32,
        _ => random.pick(&[u32::MAX, u32::MAX, 1_000_000, turfs as u32 + 2]),
    };
    Equalize { hot, turns: Vec::new(), threshold, limit, allowance }
}

fn walk(random: &mut Random, family: &str, board: &Board) -> Walk {
    let id = if random.once_in(10) { random.next() as u32 } else { random.pick(&board.ids) };
    let limit = match family {
        "planets" | "allowances" => random.below(6) as u32,
        _ => random.pick(&[0, 1, 2, 5, 20, 2_000, u32::MAX]),
    };
    Walk { id, limit }
}

/// The case of a family (its place in `FAMILIES`), a call (1 to 3) and a seed.
pub fn case(family: usize, call: u32, seed: u64) -> Case {
    let mut random = Random::new(seed.wrapping_mul(1_000_003).wrapping_add(family as u64 * 31 + u64::from(call)));
    let (random, name) = (&mut random, FAMILIES[family]);
    let broken = matches!(name, "refusals" | "pairs");
    let name = if broken { FAMILIES[random.within(0, 15)] } else { name };
    let board = family_board(random, name);
    let asked = match call {
        1 => Call::Equalize(equalize(random, name, &board)),
        2 => Call::Depressurize(walk(random, name, &board).into()),
        _ => Call::PlanetWalk(walk(random, name, &board)),
    };
    let mut case = Case::new(board, asked, random.pick(&[0, 0, 1, 40]));
    if broken {
        (0..if FAMILIES[family] == "pairs" { 2 } else { 1 }).for_each(|_| spoil(random, &mut case));
    }
    case
}

/// The same case with a list of turns, if it is equalize's.
pub fn with_turns(mut case: Case, seed: u64) -> Case {
    let mut random = Random::new(seed ^ 0x7475_726e);
    if let Call::Equalize(ask) = &mut case.call {
        let most = random.pick(&[3, 10, case.board.ids.len() + 3]);
        ask.turns = (0..random.within(1, most)).map(|_| random.pick(&[0, 1, 2, 7, u32::MAX, 12_345])).collect();
    }
    case
}

/// A call's cases of every family from a seed on, so many each, of large boards a hundredth, equalize's with turns too and depressurize's with both
/// settings of its arrows; each with what it is called.
pub fn cases(call: u32, each: u64, seed: u64, test: &mut impl FnMut(&str, &Case)) {
    for (family, name) in FAMILIES.into_iter().enumerate() {
        for seed in seed..seed + if name == "large" { each.div_ceil(100) } else { each } {
            let (label, plain) = (format!("{name}, call {call}, seed {seed}"), case(family, call, seed));
            with_both_arrows(&label, &plain, test);
            if call == 1 {
                test(&format!("{label}, with turns"), &with_turns(plain, seed));
            }
        }
    }
}
