//! What a call answers and leaves, put together from what was played.

use crate::case::{Board, Breach, Call, Case};
use crate::events::{Event, encode};

/// An edge of a zone with its weight.
#[derive(Clone, Copy, Debug)]
pub struct Edge {
    pub from: u32,
    pub to: u32,
    pub weight: f32,
}

/// Results compare by bits.
impl PartialEq for Edge {
    fn eq(&self, other: &Self) -> bool {
        (self.from, self.to, self.weight.to_bits()) == (other.from, other.to, other.weight.to_bits())
    }
}

/// A zone as filled: its nodes and edges in order of insertion, its total.
#[derive(Clone, Debug, PartialEq)]
pub struct Zone {
    pub nodes: Vec<u32>,
    pub edges: Vec<Edge>,
    pub moles: f32,
}

/// What filling alone came to: the rows found, ascending; its clock tests; whether the clock ran out in it.
#[derive(Clone, Debug, Default, PartialEq)]
pub struct Filling {
    pub found: Vec<u32>,
    pub tests: u32,
    pub over: bool,
}

/// What the text did with a board.
#[derive(Clone, Debug, PartialEq)]
pub struct Played {
    pub amounts: Vec<f32>,
    pub events: Vec<Event>,
    pub cancelled: bool,
    pub processed: u32,
    pub tests: u32,
    pub filling: Filling,
    /// the zones kept, as filled
    pub zones: Vec<Zone>,
    /// by zone, its edges as planned
    pub planned: Vec<Vec<Edge>>,
    /// depressurize came to its way back
    pub vented: bool,
}

/// Everything that a call answers and leaves: its numbers and every lent cell.
#[derive(Clone, Debug)]
pub struct Outcome {
    pub answer: Vec<u32>,
    pub amounts: Vec<f32>,
    pub events: Vec<u8>,
    pub words: Vec<u32>,
    pub floats: Vec<f32>,
}

/// Floats as bits.
pub fn bits(floats: &[f32]) -> Vec<u32> {
    floats.iter().map(|x| x.to_bits()).collect()
}

/// Results compare by bits.
impl PartialEq for Outcome {
    fn eq(&self, other: &Self) -> bool {
        (&self.answer, &self.events, &self.words) == (&other.answer, &other.events, &other.words)
            && bits(&self.amounts) == bits(&other.amounts)
            && bits(&self.floats) == bits(&other.floats)
    }
}

/// Which node of which zone each turn finishes, zones having so many nodes (document 01, module 8).
pub fn turn_order(nodes: &[usize], turns: &[u32]) -> Vec<(usize, usize)> {
    let mut next = vec![0; nodes.len()];
    let mut unfinished: Vec<usize> = (0..nodes.len()).filter(|&zone| nodes[zone] > 0).collect();
    let mut order = Vec::new();
    let mut turns = turns.iter();
    while !unfinished.is_empty() {
        let pick = turns.next().map_or(0, |&turn| turn as usize % unfinished.len());
        let zone = unfinished[pick];
        order.push((zone, next[zone]));
        next[zone] += 1;
        if next[zone] == nodes[zone] {
            unfinished.remove(pick);
        }
    }
    order
}

/// 1 exactly when no changeable mixture is in two zones.
pub fn apart(board: &Board, zones: &[Zone]) -> u32 {
    let mut zone_of = vec![None; board.immutable.len()];
    for (number, zone) in zones.iter().enumerate() {
        for &row in &zone.nodes {
            let mixture = board.mixtures[row as usize] as usize;
            let first = *zone_of[mixture].get_or_insert(number);
            if board.immutable[mixture] == 0 && first != number {
                return 0;
            }
        }
    }
    1
}

/// Whether depressurize's first walk meets a planetary turf: the text doesn't show it, so it is walked here.
pub fn meets_planet(board: &Board, breach: &Breach) -> bool {
    let Ok(first) = board.ids.binary_search(&breach.id) else { return false };
    let mut queue = Rows::new(first, board.ids.len());
    let mut place = 0;
    while let Some(&row) = queue.rows.get(place) {
        place += 1;
        if board.planetary[row] != 0 {
            return true;
        }
        if !board.is_immutable(row) && board.is_enabled(row) && place <= breach.limit as usize {
            for link in board.links(row) {
                queue.insert(board.neighbours[link] as usize);
            }
        }
    }
    false
}

/// A list of rows in order of insertion, each once.
pub struct Rows {
    pub rows: Vec<usize>,
    has: Vec<bool>,
}

impl Rows {
    pub fn none(turfs: usize) -> Self {
        Self { rows: Vec::new(), has: vec![false; turfs] }
    }
    pub fn new(first: usize, turfs: usize) -> Self {
        let mut rows = Self::none(turfs);
        rows.insert(first);
        rows
    }
    /// Whether the row is new.
    pub fn insert(&mut self, row: usize) -> bool {
        let new = !std::mem::replace(&mut self.has[row], true);
        if new {
            self.rows.push(row);
        }
        new
    }
}

impl Case {
    /// A refusal: its number, all else zero, lent memory unchanged.
    pub fn refused(&self, number: u32) -> Outcome {
        let mut answer = vec![0; [7, 3, 2][self.call.number() as usize - 1]];
        answer[0] = number;
        let (events, words, floats) = (self.events.clone(), self.words.clone(), self.floats.clone());
        Outcome { answer, amounts: self.board.amounts.clone(), events, words, floats }
    }

    /// A call that was done: the text's gas and events, its counts, the scratch's first words and floats zero.
    pub fn done(&self, played: &Played) -> Outcome {
        let bytes = encode(&played.events);
        let answer = match &self.call {
            Call::Equalize(_) => {
                let kept = if played.cancelled { [0, 0] } else { [played.zones.len() as u32, apart(&self.board, &played.zones)] };
                vec![0, played.cancelled.into(), played.processed, played.tests, kept[0], kept[1], bytes.len() as u32]
            }
            Call::Depressurize(breach) => {
                let outcome = if played.vented { 2 } else { meets_planet(&self.board, breach).into() };
                vec![0, outcome, bytes.len() as u32]
            }
            Call::PlanetWalk(_) => vec![0, bytes.len() as u32],
        };
        let room = self.room();
        let mut outcome = Outcome { answer, amounts: played.amounts.clone(), ..self.refused(0) };
        outcome.events[..bytes.len()].copy_from_slice(&bytes);
        outcome.words[..room.words].fill(0);
        outcome.floats[..room.floats].fill(0.0);
        outcome
    }
}
