//! How equalize's scratch is laid out while it works, and whether what filling and planning leave in it is what the text's came to.

use crate::case::{Board, Case};
use crate::events::encode;
use crate::outcome::{Outcome, Played, bits};
use std::ops::Range;

/// Arrays of words, by number: those that filling writes.
const OWNER: usize = 0;
const QUEUE: usize = 5;
const PLACES: usize = 6;
const FOUND: usize = 8;
const STARTS: usize = 11;
const NODES: usize = 12;
/// Of floats: the totals of the zones.
const MOLES: usize = 4;
/// What planning writes. Of words: the reverses, those of its state and its searches, and past the arrays, behind a word for each mixture, those
/// that the search for the reverses works with. Of floats: the weights and its state.
const REVERSE: usize = 1;
const PLAN_WORDS: Range<usize> = 1..8;
const WEIGHT: usize = 0;
const PLAN_FLOATS: Range<usize> = 0..3;

/// Arrays one after the other, and last what is left of so many cells.
fn arrays(sizes: &[usize], cells: usize) -> Vec<Range<usize>> {
    let mut ranges: Vec<Range<usize>> = Vec::new();
    for &size in sizes {
        let start = ranges.last().map_or(0, |range| range.end);
        ranges.push(start..start + size);
    }
    let start = ranges.last().map_or(0, |range| range.end);
    ranges.push(start..cells);
    ranges
}

/// By link: owner, reverse. By row: direction, via, fast, queue, places, list, found, cursor, live. By zone: where its nodes start. Nodes.
fn word_arrays(board: &Board, cells: usize) -> Vec<Range<usize>> {
    let (n, e) = (board.ids.len(), board.neighbours.len());
    arrays(&[e, e, n, n, n, n, n, n, n, n, n, n + 1, n + e], cells)
}

/// By link: weight. By row: delta, amount. By link: lifted. By zone: its total.
fn float_arrays(board: &Board, cells: usize) -> Vec<Range<usize>> {
    let (n, e) = (board.ids.len(), board.neighbours.len());
    arrays(&[e, n, n, e, n], cells)
}

/// What a refused part leaves: its number with all else zero, everything as it was lent.
pub fn refused(case: &Case, number: u32, numbers: usize) -> Outcome {
    let mut answer = vec![0; numbers];
    answer[0] = number;
    Outcome { answer, ..case.refused(number) }
}

/// The words and the floats that filling's promise fixes, on a board where the clock didn't run out: all but what a fill works with, and what
/// stands behind the last zone.
pub fn fixed(case: &Case, left: &Outcome) -> (Vec<usize>, Vec<usize>) {
    let (words, floats) = (word_arrays(&case.board, left.words.len()), float_arrays(&case.board, left.floats.len()));
    let (zones, nodes) = (left.answer[2] as usize, left.answer[3] as usize);
    let word = |array: usize| match array {
        QUEUE | PLACES => 0..0,
        STARTS => words[array].start..words[array].start + zones + 1,
        NODES => words[array].start..words[array].start + nodes,
        _ => words[array].clone(),
    };
    let float = |array: usize| if array == MOLES { floats[array].start..floats[array].start + zones } else { floats[array].clone() };
    ((0..words.len()).flat_map(word).collect(), (0..floats.len()).flat_map(float).collect())
}

/// Which of filling's promises doesn't fit what the text came to. Answer: number, cancelled, zones, nodes, tests, bytes. Once the clock ran
/// out the zone in hand may stand behind those that the text kept.
pub fn filling_differs(case: &Case, played: &Played, left: &Outcome) -> Option<&'static str> {
    let (board, filling) = (&case.board, &played.filling);
    let requests: Vec<_> = played.events.iter().copied().filter(|event| event.words().0 < 3).collect();
    let bytes = encode(&requests);
    let (zones, nodes) = (left.answer[2] as usize, left.answer[3] as usize);
    let more = zones.wrapping_sub(played.zones.len());
    let due = [0, filling.over.into(), left.answer[2], left.answer[3], filling.tests, bytes.len() as u32];
    if left.answer != due {
        return Some("cancelled, tests or bytes");
    }
    if more > filling.over.into() || (more == 0 && nodes != played.zones.iter().map(|zone| zone.nodes.len()).sum()) {
        return Some("zones or nodes");
    }
    if left.events != [&bytes[..], &case.events[bytes.len()..]].concat() {
        return Some("requests");
    }
    kept_differ(case, left).or_else(|| marks_differ(board, played, left)).or_else(|| zones_differ(board, played, left))
}

/// The arrays that filling leaves as they were.
fn kept_differ(case: &Case, left: &Outcome) -> Option<&'static str> {
    let (words, floats) = (word_arrays(&case.board, left.words.len()), float_arrays(&case.board, left.floats.len()));
    let writes = [OWNER, QUEUE, PLACES, FOUND, STARTS, NODES];
    let words_kept =
        (0..words.len()).filter(|array| !writes.contains(array)).all(|array| left.words[words[array].clone()] == case.words[words[array].clone()]);
    let (before, after) = (bits(&case.floats), bits(&left.floats));
    let floats_kept = (0..floats.len()).filter(|&array| array != MOLES).all(|array| after[floats[array].clone()] == before[floats[array].clone()]);
    let gas_kept = bits(&left.amounts) == bits(&case.board.amounts);
    (!(words_kept && floats_kept && gas_kept)).then_some("an array that filling leaves, or gas")
}

/// The found marks.
fn marks_differ(board: &Board, played: &Played, left: &Outcome) -> Option<&'static str> {
    let mut due = vec![0; board.ids.len()];
    played.filling.found.iter().for_each(|&row| due[row as usize] = 1);
    (left.words[word_arrays(board, left.words.len())[FOUND].clone()] != due).then_some("found marks")
}

/// The zones: where their nodes start, nodes in order, totals by bits, edges in order, owners.
fn zones_differ(board: &Board, played: &Played, left: &Outcome) -> Option<&'static str> {
    let arrays = word_arrays(board, left.words.len());
    let [owner, starts, nodes] = [OWNER, STARTS, NODES].map(|array| &left.words[arrays[array].clone()]);
    let moles = &left.floats[float_arrays(board, left.floats.len())[MOLES].clone()];
    let mut owned = vec![0; board.neighbours.len()];
    let mut start = 0;
    for (number, zone) in (0..).zip(&played.zones) {
        let end = start + zone.nodes.len();
        if starts[number] as usize != start || starts[number + 1] as usize != end || nodes[start..end] != zone.nodes {
            return Some("nodes or their start");
        }
        if moles[number].to_bits() != zone.moles.to_bits() {
            return Some("a total");
        }
        let mine = |link: &usize| owner[*link] as usize == number + 1;
        let edge = |row: u32| board.links(row as usize).filter(mine).map(move |link| (row, board.neighbours[link], link));
        let edges: Vec<_> = zone.nodes.iter().flat_map(|&row| edge(row)).collect();
        if !edges.iter().map(|edge| (edge.0, edge.1)).eq(zone.edges.iter().map(|edge| (edge.from, edge.to))) {
            return Some("edges");
        }
        edges.iter().for_each(|edge| owned[edge.2] = number as u32 + 1);
        start = end;
    }
    let last = left.answer[2] as usize;
    let end = if last > played.zones.len() { left.answer[3] } else { start as u32 };
    if starts[0] != 0 || starts[last] != end {
        return Some("where the nodes end");
    }
    let unkept = |link: usize| owner[link] == 0 || (last > played.zones.len() && owner[link] as usize == last);
    (0..owner.len()).any(|link| owner[link] != owned[link] && !unkept(link)).then_some("owners")
}

/// The words and the floats that planning leaves as filling left them.
fn unplanned(board: &Board, left: &Outcome) -> (Vec<usize>, Vec<usize>) {
    let (words, floats) = (word_arrays(board, left.words.len()), float_arrays(board, left.floats.len()));
    let word = (0..words.len()).filter(|array| !PLAN_WORDS.contains(array)).flat_map(|array| words[array].clone());
    let float = (PLAN_FLOATS.end..floats.len()).flat_map(|array| floats[array].clone());
    (word.collect(), float.collect())
}

/// The words and the floats that are compared where planning was done: all but its state and what it works with.
pub fn planned_fixed(case: &Case, left: &Outcome) -> (Vec<usize>, Vec<usize>) {
    let (mut words, mut floats) = unplanned(&case.board, left);
    words.extend(word_arrays(&case.board, left.words.len())[REVERSE].clone());
    floats.extend(float_arrays(&case.board, left.floats.len())[WEIGHT].clone());
    (words, floats)
}

/// Which of planning's promises doesn't fit what the text came to, given what filling alone left.
pub fn planning_differs(case: &Case, played: &Played, filled: &Outcome, left: &Outcome) -> Option<&'static str> {
    if left.answer != filled.answer || left.events != filled.events || bits(&left.amounts) != bits(&filled.amounts) {
        return Some("answer, requests or gas");
    }
    let (words, floats) = unplanned(&case.board, left);
    let floats_kept = floats.iter().all(|&at| left.floats[at].to_bits() == filled.floats[at].to_bits());
    if !floats_kept || words.iter().any(|&at| left.words[at] != filled.words[at]) {
        return Some("a cell that planning leaves");
    }
    reverses_differ(&case.board, left).or_else(|| weights_differ(&case.board, played, left))
}

/// By link, one more than the first link that leads back; 0: none does.
fn reverses_differ(board: &Board, left: &Outcome) -> Option<&'static str> {
    let reverses = &left.words[word_arrays(board, left.words.len())[REVERSE].clone()];
    let back = |row: usize, link: usize| board.links(board.neighbours[link] as usize).find(|&back| board.neighbours[back] as usize == row);
    let due = (0..board.ids.len()).flat_map(|row| board.links(row).map(move |link| back(row, link).map_or(0, |back| back as u32 + 1)));
    (!due.eq(reverses.iter().copied())).then_some("reverses")
}

/// By link its weight, by bits; of a link that no zone owns, 0.
fn weights_differ(board: &Board, played: &Played, left: &Outcome) -> Option<&'static str> {
    let owner = &left.words[word_arrays(board, left.words.len())[OWNER].clone()];
    let weights = &left.floats[float_arrays(board, left.floats.len())[WEIGHT].clone()];
    let mut due = vec![0; weights.len()];
    for (number, (zone, planned)) in (1..).zip(played.zones.iter().zip(&played.planned)) {
        let links = zone.nodes.iter().flat_map(|&row| board.links(row as usize)).filter(|&link| owner[link] == number);
        links.zip(planned).for_each(|(link, edge)| due[link] = edge.weight.to_bits());
    }
    (played.planned.len() != played.zones.len() || bits(weights) != due).then_some("weights")
}
