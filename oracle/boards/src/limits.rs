//! Boards at each limit of document 01 and one beyond, on small boards and on those where all else is at its limit too; crowded rows.

use crate::case::{Call, Case, Equalize, Room, Walk, with_both_arrows};
use crate::paper::board;
use crate::random::Random;
use crate::refusal::refusal;
use crate::shapes::{self, amount};
use std::collections::BTreeSet;

/// Turfs, links, mixtures, gases, hot ids, turns.
type Sizes = [usize; 6];
const NAMES: [&str; 6] = ["turfs", "links", "mixtures", "gases", "hot ids", "turns"];
const LEAST: Sizes = [1, 0, 1, 1, 0, 0];
const FEW: Sizes = [160, 400, 9, 2, 3, 5];
const MOST: Sizes = [4_096, 24_576, 4_096, 64, 4_096, 65_536];

/// So many links: each turf is linked to the one that stands so many rows behind it, then to the one another number of rows behind.
fn links(turfs: usize, links: usize) -> Vec<Vec<u32>> {
    let mut rows = vec![Vec::new(); turfs];
    for link in 0..links {
        let (row, half) = (link % turfs, link / turfs / 2 + 1);
        let step = if link / turfs % 2 == 0 { half } else { turfs - half };
        rows[row].push(((row + step) % turfs) as u32);
    }
    rows
}

/// So many ids ascending: the board's from the first on, then others.
fn hot(ids: &[u32], count: usize) -> Vec<u32> {
    let mut hot: BTreeSet<u32> = ids.iter().copied().take(count).collect();
    let others = (1..).filter(|id| id % 10 != 0).take(count - hot.len());
    hot.extend(others);
    hot.into_iter().collect()
}

/// A board of these sizes with random amounts, and a call of it.
fn sized(random: &mut Random, call: u32, sizes: Sizes) -> Case {
    linked(random, call, &links(sizes[0], sizes[1]), sizes)
}

/// The same with these links.
fn linked(random: &mut Random, call: u32, links: &[Vec<u32>], [turfs, _, mixtures, gases, hots, turns]: Sizes) -> Case {
    let mut made = board(&links.iter().map(Vec::as_slice).collect::<Vec<_>>(), &[]);
    made.mixtures.iter_mut().for_each(|row| *row %= mixtures.max(1) as u32);
    made.immutable = vec![0; mixtures];
    made.gases = gases as u32;
    made.amounts = (0..mixtures * gases).map(|_| amount(random)).collect();
    let walk = Walk { id: 10, limit: u32::MAX };
    let turns = (0..turns).map(|_| random.next() as u32).collect();
    let ask = Equalize { hot: hot(&made.ids, hots), turns, threshold: 0.0, limit: u32::MAX, allowance: u32::MAX };
    if random.once_in(2) {
        let (space, planet) = (made.immutable.last_mut(), made.planetary.get_mut(turfs / 2));
        space.into_iter().for_each(|byte| *byte = u8::from(call == 2));
        planet.into_iter().for_each(|byte| *byte = u8::from(call == 3));
    }
    let asked = [Call::Equalize(ask), Call::Depressurize(walk.clone().into()), Call::PlanetWalk(walk)][call as usize - 1].clone();
    Case::new(made, asked, 0)
}

/// A small board, and a call of it.
pub fn few(random: &mut Random, call: u32) -> Case {
    sized(random, call, FEW)
}

/// A crowded row: a hub linked with all other turfs, and the same with a neighbour twice, first and last, and with itself for a neighbour; each with
/// the refusal that is due.
fn crowded(random: &mut Random, call: u32, turfs: usize, hub: usize) -> [(&'static str, u32, Case); 3] {
    let well = shapes::hub(turfs, hub);
    let with_last = |end: u32| {
        let mut rows = well.clone();
        *rows[hub].last_mut().expect("a link") = end;
        rows
    };
    let (twice, itself) = (with_last(well[hub][0]), with_last(hub as u32));
    let mut made = |links: &[Vec<u32>]| linked(random, call, links, but(FEW, 0, turfs));
    [("a hub", 0, made(&well)), ("a hub's neighbour twice", 4, made(&twice)), ("a hub linked to itself", 4, made(&itself))]
}

/// What can be at its limit or beyond in a cell or a length; each with the refusal that is due.
fn cells(case: &Case) -> Vec<(&'static str, u32, Case)> {
    let with = |change: &dyn Fn(&mut Case)| {
        let mut changed = case.clone();
        change(&mut changed);
        changed
    };
    let last = |change: fn(&mut f32)| with(&|case| change(case.board.amounts.last_mut().expect("an amount")));
    let room = |events: usize, words: usize, floats: usize| {
        let room = case.room();
        with(&|case| case.lend(Room { events: room.events + events - 1, words: room.words + words - 1, floats: room.floats + floats - 1 }))
    };
    let mut all = vec![
        ("the last id is the last there is", 0, with(&|case| *case.board.ids.last_mut().expect("an id") = u32::MAX)),
        ("the last id again", 3, with(&|case| case.board.ids[4_095] = case.board.ids[4_094])),
        ("all amounts at the limit", 0, with(&|case| case.board.amounts.fill(1_099_511_627_776.0))),
        ("the last amount beyond", 5, last(|amount| *amount = f32::from_bits(0x5380_0001))),
        ("the last amount -0", 5, last(|amount| *amount = -0.0)),
        ("the last mixture row beyond", 4, with(&|case| case.board.mixtures[4_095] = 4_096)),
        ("the last neighbour beyond", 4, with(&|case| case.board.neighbours[24_575] = 4_096)),
        ("the last start beyond", 4, with(&|case| case.board.starts[4_096] = 24_577)),
        ("events short by one", 7, room(0, 1, 1)),
        ("words short by one", 7, room(1, 0, 1)),
        ("floats short by one", 7, room(1, 1, 0)),
        ("areas longer by one", 0, room(2, 2, 2)),
    ];
    if let Call::Equalize(ask) = &case.call {
        let asked = |ask: Equalize| with(&|case| case.call = Call::Equalize(ask.clone()));
        let end = |id: u32| [&ask.hot[..4_095], &[id]].concat();
        all.extend([
            ("the largest threshold", 0, asked(Equalize { threshold: f32::MAX, ..ask.clone() })),
            ("an infinite threshold", 5, asked(Equalize { threshold: f32::INFINITY, ..ask.clone() })),
            ("no clock test allowed", 0, asked(Equalize { allowance: 0, ..ask.clone() })),
            ("turf limit 0", 0, asked(Equalize { limit: 0, ..ask.clone() })),
            ("the last hot id is the last there is", 0, asked(Equalize { hot: end(u32::MAX), ..ask.clone() })),
            ("the last hot id again", 6, asked(Equalize { hot: end(ask.hot[4_094]), ..ask.clone() })),
        ]);
    }
    all
}

/// Sizes with one of them another.
fn but(mut sizes: Sizes, place: usize, size: usize) -> Sizes {
    sizes[place] = size;
    sizes
}

/// Every such board of every call, of depressurize with both settings of its arrows; each with what it is called.
pub fn cases(seed: u64, test: &mut impl FnMut(&str, &Case)) {
    for call in 1..=3 {
        let mut random = Random::new(seed.wrapping_mul(1_000_003).wrapping_add(u64::from(call)));
        let mut one = |label: &str, due: u32, case: &Case| {
            assert_eq!(refusal(case), due, "{label}");
            with_both_arrows(&format!("{label}, call {call}, limits {seed}"), case, test);
        };
        one("all least", 0, &sized(&mut random, call, LEAST));
        for place in (0..NAMES.len()).filter(|&place| call == 1 || place < 4) {
            let (name, most) = (NAMES[place], MOST[place]);
            one(&format!("{name} at the limit"), 0, &sized(&mut random, call, but(FEW, place, most)));
            one(&format!("{name} beyond"), 1, &sized(&mut random, call, but(FEW, place, most + 1)));
            one(&format!("{name} beyond, all else at the limit"), 1, &sized(&mut random, call, but(MOST, place, most + 1)));
            if matches!(place, 0 | 2 | 3) {
                let few = if place == 0 { but(FEW, 1, 0) } else { FEW };
                one(&format!("no {name}"), 1, &sized(&mut random, call, but(few, place, 0)));
            }
        }
        let most = sized(&mut random, call, MOST);
        one("all at the limit", 0, &most);
        cells(&most).iter().for_each(|(label, due, case)| one(label, *due, case));
        for (turfs, hub) in [3, 32, 33, 4_096].into_iter().flat_map(|turfs| [(turfs, 0), (turfs, turfs - 1)]) {
            let rows = crowded(&mut random, call, turfs, hub);
            rows.iter().for_each(|(label, due, case)| one(&format!("{label} in row {hub} of {turfs}"), *due, case));
        }
    }
}
