//! The ways in which a case can be ill-formed, each with the refusal that is due where it is the only one.

use crate::case::{Board, Call, Case, Equalize, with_both_arrows};
use crate::limits::few;
use crate::random::Random;
use crate::refusal::failed;

/// A way to break a rule, at a row and a link.
pub struct Fault {
    pub number: u32,
    pub name: &'static str,
    pub make: fn(&mut Random, &mut Case, [usize; 2]),
}

const fn fault(number: u32, name: &'static str, make: fn(&mut Random, &mut Case, [usize; 2])) -> Fault {
    Fault { number, name, make }
}

/// How many of the faults are in tables that every call is lent; the others are in what only equalize is asked.
pub const OF_TABLES: usize = 28;

/// Every fault.
pub const FAULTS: [Fault; 33] = [
    fault(1, "no turf", |_, case, _| case.board = Board { gases: case.board.gases, starts: vec![0], ..Board::default() }),
    fault(1, "4,097 turfs", |_, case, _| turfs(&mut case.board, 4_097)),
    fault(1, "no mixture", |_, case, _| mixtures(&mut case.board, 0)),
    fault(1, "4,097 mixtures", |_, case, _| mixtures(&mut case.board, 4_097)),
    fault(1, "24,577 links", |_, case, _| links(&mut case.board, 24_577)),
    fault(1, "0, 65 or more gases", |random, case, _| case.board.gases = random.pick(&[0, 65, u32::MAX])),
    fault(2, "a flag missing", |_, case, _| shorten(&mut case.board.flags)),
    fault(2, "a planetary byte too many", |_, case, _| case.board.planetary.push(0)),
    fault(2, "a mixture row missing", |_, case, _| shorten(&mut case.board.mixtures)),
    fault(2, "a start too many", |_, case, _| case.board.starts.push(case.board.neighbours.len() as u32)),
    fault(2, "a start missing", |_, case, _| shorten(&mut case.board.starts)),
    fault(2, "a link flag too many", |_, case, _| case.board.link_flags.push(0)),
    fault(2, "an amount too many", |_, case, _| case.board.amounts.push(1.0)),
    fault(2, "an amount missing", |_, case, _| shorten(&mut case.board.amounts)),
    fault(3, "ids descend", |_, case, _| case.board.ids.reverse()),
    fault(3, "an id twice", |_, case, [row, _]| repeat(&mut case.board.ids, row)),
    fault(4, "a start beyond the links", |_, case, [row, _]| put_beyond(&mut case.board, Some(row))),
    fault(4, "the last start beyond the links", |_, case, _| put_beyond(&mut case.board, None)),
    fault(4, "the first start isn't 0", |_, case, _| put(&mut case.board.starts, 0, 1)),
    fault(4, "a neighbour row beyond", |_, case, [_, link]| put(&mut case.board.neighbours, link, case.board.ids.len() as u32)),
    fault(4, "a neighbour row far beyond", |_, case, [_, link]| put(&mut case.board.neighbours, link, u32::MAX)),
    fault(4, "a mixture row beyond", |_, case, [row, _]| put(&mut case.board.mixtures, row, case.board.immutable.len() as u32)),
    fault(4, "a link to the row itself", |_, case, [row, link]| put(&mut case.board.neighbours, link, row as u32)),
    fault(4, "a neighbour twice", |_, case, [_, link]| repeat(&mut case.board.neighbours, link)),
    fault(5, "an amount below 0, -0, not finite or above 2^40", |random, case, _| spoil_amount(random, &mut case.board)),
    fault(7, "events short by one", |_, case, _| case.events.truncate(case.room().events.saturating_sub(1))),
    fault(7, "words short by one", |_, case, _| case.words.truncate(case.room().words.saturating_sub(1))),
    fault(7, "floats short by one", |_, case, _| case.floats.truncate(case.room().floats.saturating_sub(1))),
    fault(5, "a threshold below 0, -0 or not finite", |random, case, _| {
        ask(case, |ask| ask.threshold = random.pick(&[-0.0, -1.0, f32::INFINITY, f32::NAN]));
    }),
    fault(6, "the last hot id twice", |_, case, _| ask(case, |ask| ask.hot.push(ask.hot[ask.hot.len() - 1]))),
    fault(6, "hot ids descend", |_, case, _| ask(case, |ask| ask.hot = vec![5, 4])),
    fault(1, "4,097 hot ids", |_, case, _| ask(case, |ask| ask.hot = (0..4_097).collect())),
    fault(1, "65,537 turns", |_, case, _| ask(case, |ask| ask.turns = vec![0; 65_537])),
];

/// The last element is missing.
fn shorten<T>(list: &mut Vec<T>) {
    list.pop();
}

fn turfs(board: &mut Board, count: usize) {
    board.ids = (0..count as u32).collect();
    board.flags.resize(count, 0);
    board.planetary.resize(count, 0);
    board.mixtures.resize(count, 0);
    board.starts.resize(count + 1, board.neighbours.len() as u32);
}

fn mixtures(board: &mut Board, count: usize) {
    board.immutable.resize(count, 0);
    board.amounts.resize(count * board.gases.min(65) as usize, 1.0);
}

fn links(board: &mut Board, count: usize) {
    board.neighbours.resize(count, 0);
    board.link_flags.resize(count, 0);
}

fn put<T>(list: &mut [T], at: usize, value: T) {
    if let Some(cell) = list.get_mut(at) {
        *cell = value;
    }
}

/// A row's start, or the last one, leads past the links.
fn put_beyond(board: &mut Board, row: Option<usize>) {
    put(&mut board.starts, row.unwrap_or(board.ids.len()), board.neighbours.len() as u32 + 1);
}

/// The next element becomes the same.
fn repeat(list: &mut [u32], at: usize) {
    if at + 1 < list.len() {
        list[at + 1] = list[at];
    }
}

fn spoil_amount(random: &mut Random, board: &mut Board) {
    let bits = random.pick(&[0x8000_0000, 0xbf80_0000, 0x7f80_0000, 0xff80_0000, 0x7fc0_0000, 0x5380_0001, 0x7f7f_ffff]);
    let at = random.below(board.amounts.len().max(1) as u64) as usize;
    put(&mut board.amounts, at, f32::from_bits(bits));
}

fn ask(case: &mut Case, change: impl FnOnce(&mut Equalize)) {
    if let Call::Equalize(ask) = &mut case.call {
        change(ask);
    }
}

/// A fault at random, which may change nothing on a small board.
pub fn spoil(random: &mut Random, case: &mut Case) {
    let (turfs, links) = (case.board.ids.len(), case.board.neighbours.len());
    let (row, link) = (random.below(turfs.max(1) as u64) as usize, random.below(links.max(1) as u64) as usize);
    let at = match random.below(34) as usize {
        at @ 0..24 => at,
        24..=26 => 24,
        at @ 27..30 => at - 2,
        _ if matches!(case.call, Call::Equalize(_)) => OF_TABLES + random.below(5) as usize,
        _ => return,
    };
    (FAULTS[at].make)(random, case, [row, link]);
}

/// A case with two faults, made in the order in which neither undoes the other; none where both orders do.
fn both(random: &mut Random, well: &Case, faults: [&Fault; 2]) -> Option<Case> {
    let numbers = faults.map(|fault| fault.number);
    [faults, [faults[1], faults[0]]].into_iter().find_map(|faults| {
        let mut case = well.clone();
        faults.iter().for_each(|fault| (fault.make)(random, &mut case, [1, 1]));
        let failed = failed(&case);
        numbers.iter().all(|number| failed.contains(number)).then_some(case)
    })
}

/// Every fault alone, and every two that break different rules, in tables of every call, of depressurize with both settings of its arrows; each with
/// what it is called and the two numbers, which are one where it is alone. What is due is the lesser.
pub fn cases(seed: u64, test: &mut impl FnMut(&str, [u32; 2], &Case)) {
    for call in 1..=3 {
        let mut random = Random::new(seed.wrapping_mul(1_000_003).wrapping_add(u64::from(call)));
        let well = few(&mut random, call);
        let faults = &FAULTS[..if call == 1 { FAULTS.len() } else { OF_TABLES }];
        let mut one = |label: &str, numbers: [u32; 2], case: &Case| {
            with_both_arrows(&format!("{label}, call {call}, faults {seed}"), case, &mut |label, case| test(label, numbers, case));
        };
        for (place, first) in faults.iter().enumerate() {
            let mut alone = well.clone();
            (first.make)(&mut random, &mut alone, [1, 1]);
            one(first.name, [first.number; 2], &alone);
            for second in faults[place + 1..].iter().filter(|second| second.number != first.number) {
                let numbers = [first.number.min(second.number), first.number.max(second.number)];
                if let Some(case) = both(&mut random, &well, [first, second]) {
                    one(&format!("{} and {}", first.name, second.name), numbers, &case);
                }
            }
        }
    }
}
