//! Document 01's boards and results, P1 to P12 and the six-node boards, as the document gives them; and two boards with arrows towards space.

use crate::case::{Board, Breach, Call, Case, Equalize};
use crate::events::{Event, encode};
use crate::outcome::Outcome;

/// A board of the paper: its name, the call, and what the paper says of it.
pub struct Row {
    pub name: &'static str,
    pub case: Case,
    pub answer: Vec<u32>,
    pub amounts: Vec<f32>,
    pub events: Vec<Event>,
}

impl Row {
    /// What the paper's row says of every lent cell.
    pub fn outcome(&self) -> Outcome {
        let mut outcome = Outcome { answer: self.answer.clone(), amounts: self.amounts.clone(), ..self.case.refused(0) };
        let (bytes, room) = (encode(&self.events), self.case.room());
        outcome.events[..bytes.len()].copy_from_slice(&bytes);
        outcome.words[..room.words].fill(0);
        outcome.floats[..room.floats].fill(0.0);
        outcome
    }
}

/// Turfs 10, 20, .. with these neighbours and own mixtures of one gas, all enabled.
pub fn board(neighbours: &[&[u32]], amounts: &[f32]) -> Board {
    let turfs = neighbours.len();
    let mut starts = vec![0];
    neighbours.iter().for_each(|row| starts.push(starts[starts.len() - 1] + row.len() as u32));
    Board {
        ids: (1..=turfs as u32).map(|i| i * 10).collect(),
        flags: vec![2; turfs],
        planetary: vec![0; turfs],
        mixtures: (0..turfs as u32).collect(),
        link_flags: vec![0; starts[turfs] as usize],
        starts,
        neighbours: neighbours.concat(),
        immutable: vec![0; turfs],
        gases: 1,
        amounts: amounts.to_vec(),
    }
}

/// Board A.
pub fn board_a() -> Board {
    board(&[&[1], &[0]], &[32.0, 16.0])
}

/// A chain that is open to space at its end, which holds gas too.
pub fn breached_chain() -> Board {
    Board { immutable: vec![0, 0, 1], ..board(&[&[1], &[0, 2], &[1]], &[32.0, 16.0, 4.0]) }
}

/// What board A is asked.
pub fn ask_a() -> Equalize {
    Equalize { hot: vec![10], turns: vec![], threshold: 0.5, limit: 10, allowance: 100 }
}

fn pressure(zone: u32, amount: f32, from: u32, to: u32) -> Event {
    Event::Pressure { zone, amount, from, to }
}

fn equalize(name: &'static str, board: Board, ask: Equalize, answer: [u32; 6], amounts: &[f32], events: &[Event]) -> Row {
    let mut numbers = vec![0];
    numbers.extend(answer);
    let case = Case::new(board, Call::Equalize(ask), 5);
    Row { name, case, answer: numbers, amounts: amounts.to_vec(), events: events.to_vec() }
}

fn depressurize(name: &'static str, board: Board, [limit, arrows]: [u32; 2], answer: [u32; 2], amounts: &[f32], events: &[Event]) -> Row {
    let case = Case::new(board, Call::Depressurize(Breach { id: 10, limit, arrows }), 5);
    Row { name, case, answer: vec![0, answer[0], answer[1]], amounts: amounts.to_vec(), events: events.to_vec() }
}

/// P12's records, whose arrows both run from 10 to this turf.
fn p12(to: u32) -> [Event; 6] {
    [
        Event::Target { id: 20, target: 20 },
        Event::Target { id: 10, target: 20 },
        Event::HighPressure { id: 10 },
        Event::Difference { id: 10, amount: 0.0, from: 10, to },
        Event::Difference { id: to, amount: 0.0, from: 10, to },
        Event::FloorRip { id: 10, amount: 0.0 },
    ]
}

/// The records of the chain that is open to space, with arrows that point there.
const CHAIN_TO_SPACE: [Event; 10] = [
    Event::Target { id: 30, target: 30 },
    Event::Target { id: 20, target: 30 },
    Event::Target { id: 10, target: 30 },
    Event::HighPressure { id: 10 },
    Event::Difference { id: 10, amount: 16.0, from: 10, to: 20 },
    Event::HighPressure { id: 20 },
    Event::Difference { id: 20, amount: 20.0, from: 20, to: 30 },
    Event::Difference { id: 30, amount: 20.0, from: 20, to: 30 },
    Event::FloorRip { id: 10, amount: 16.0 },
    Event::FloorRip { id: 20, amount: 4.0 },
];

/// The rows P1 to P12, and two with arrows towards space. An answer is cancelled, processed, tests, zones, apart, bytes; of depressurize, outcome
/// and bytes.
pub fn rows() -> Vec<Row> {
    let a = board_a;
    let ask = ask_a;
    let p1 = [pressure(0, 8.0, 10, 20)];
    let even = [24.0, 24.0];
    let with = |amounts: &[f32]| Board { amounts: amounts.to_vec(), ..a() };
    let space = || Board { immutable: vec![0, 1], ..with(&[32.0, 0.0]) };
    let planet = || Board { planetary: vec![0, 1], ..a() };
    let chain = || board(&[&[1], &[0, 2], &[1]], &[64.0, 11.0, 0.0]);
    let twins = || board(&[&[1], &[0], &[3], &[2]], &[32.0, 16.0, 32.0, 16.0]);
    let twin_ask = |turns: Vec<u32>| Equalize { hot: vec![10, 30], turns, ..ask() };
    vec![
        equalize("P1", a(), ask(), [0, 2, 4, 1, 1, 20], &even, &p1),
        equalize("P2", a(), Equalize { allowance: 4, ..ask() }, [0, 2, 4, 1, 1, 20], &even, &p1),
        equalize("P3", a(), Equalize { allowance: 3, ..ask() }, [1, 2, 4, 0, 0, 0], &[32.0, 16.0], &[]),
        equalize("P4", a(), Equalize { allowance: 2, ..ask() }, [1, 0, 3, 0, 0, 0], &[32.0, 16.0], &[]),
        equalize("P5", with(&[9.5, 16.0]), ask(), [0, 0, 2, 0, 1, 0], &[9.5, 16.0], &[]),
        equalize("P5 at 10", with(&[10.0, 16.0]), ask(), [0, 2, 4, 1, 1, 20], &[13.0, 13.0], &[pressure(0, 3.0, 20, 10)]),
        equalize("P6", with(&[32.0, 32.0]), ask(), [0, 0, 2, 0, 1, 0], &[32.0, 32.0], &[]),
        equalize("P6 threshold 0", with(&[32.0, 32.0]), Equalize { threshold: 0.0, ..ask() }, [0, 2, 4, 1, 1, 0], &[32.0, 32.0], &[]),
        equalize("P7", space(), ask(), [0, 0, 4, 0, 1, 8], &[32.0, 0.0], &[Event::DepressurizeWanted { id: 10 }]),
        equalize(
            "P7 disabled",
            Board { flags: vec![2, 0], ..space() },
            ask(),
            [0, 0, 3, 0, 1, 8],
            &[32.0, 0.0],
            &[Event::DepressurizeWanted { id: 10 }],
        ),
        equalize("P8", planet(), Equalize { limit: 1, ..ask() }, [0, 2, 4, 1, 1, 0], &[32.0, 16.0], &[]),
        equalize("P9", planet(), Equalize { limit: 2, ..ask() }, [0, 2, 4, 1, 1, 20], &even, &p1),
        equalize(
            "P10",
            chain(),
            Equalize { hot: vec![20], ..ask() },
            [0, 3, 5, 1, 1, 40],
            &[25.0; 3],
            &[pressure(0, 39.0, 10, 20), pressure(0, 25.0, 20, 30)],
        ),
        equalize("P11 turn 1", twins(), twin_ask(vec![1]), [0, 4, 6, 2, 1, 40], &[24.0; 4], &[pressure(1, 8.0, 30, 40), pressure(0, 8.0, 10, 20)]),
        equalize("P11 no turns", twins(), twin_ask(vec![]), [0, 4, 6, 2, 1, 40], &[24.0; 4], &[pressure(0, 8.0, 10, 20), pressure(1, 8.0, 30, 40)]),
        depressurize("P12", space(), [10, 0], [2, 84], &[0.0, 0.0], &p12(10)),
        depressurize("P12 limit 0", space(), [0, 0], [0, 0], &[32.0, 0.0], &[]),
        depressurize("P12, arrows to space", space(), [10, 1], [2, 84], &[0.0, 0.0], &p12(20)),
        depressurize("a chain, arrows to space", breached_chain(), [2, 1], [2, 136], &[0.0, 0.0, 4.0], &CHAIN_TO_SPACE),
    ]
}

/// A ring of six turfs, for the fast pass. With 20 at every second turf three give, and the fast pass shares each one's 10 between its two
/// neighbours; with 42 and 18 at opposite turfs two give, without it, and the first sends 20 of its 32 to the side it looks at first.
pub fn six(amounts: [f32; 6]) -> Case {
    let ring: Vec<Vec<u32>> = (0..6).map(|row| vec![(row + 1) % 6, (row + 5) % 6]).collect();
    Case::new(board(&ring.iter().map(Vec::as_slice).collect::<Vec<_>>(), &amounts), Call::Equalize(ask_a()), 0)
}
