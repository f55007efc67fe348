//! Where each room stands on the grid.

use crate::text::Place;
use katmos::Tables;
use std::collections::{HashSet, VecDeque};

/// A cell of the grid: column, row.
pub type Cell = (i32, i32);

/// A cell for each row: the one that is written, unless an earlier room has it; else a free one near the rooms that it is linked to.
pub fn cells(places: &[Place], t: &Tables) -> Vec<Cell> {
    let mut cells: Vec<Option<Cell>> = vec![None; places.len()];
    let mut taken = HashSet::new();
    for (row, place) in places.iter().enumerate() {
        cells[row] = place.at.filter(|&at| taken.insert(at));
    }
    let mut queue: VecDeque<usize> = (0..cells.len()).filter(|&row| cells[row].is_some()).collect();
    for first in 0..cells.len() {
        spread(&mut cells, &mut taken, &mut queue, t);
        if cells[first].is_none() {
            cells[first] = Some(below(&mut taken));
            queue.push_back(first);
        }
    }
    spread(&mut cells, &mut taken, &mut queue, t);
    cells.into_iter().map(Option::unwrap_or_default).collect()
}

/// Places the rooms that are linked to placed ones, nearest first.
fn spread(cells: &mut [Option<Cell>], taken: &mut HashSet<Cell>, queue: &mut VecDeque<usize>, t: &Tables) {
    while let Some(row) = queue.pop_front() {
        let Some(cell) = cells[row] else { continue };
        for &next in linked(t, row) {
            let next = next as usize;
            if cells[next].is_none() {
                let friends: Vec<Cell> = linked(t, next).iter().filter_map(|&friend| cells[friend as usize]).collect();
                cells[next] = Some(beside(cell, &friends, taken));
                queue.push_back(next);
            }
        }
    }
}

/// The rows that a row is linked to.
fn linked(t: &Tables, row: usize) -> &[u32] {
    &t.neighbours[t.starts[row] as usize..t.starts[row + 1] as usize]
}

/// How far apart two cells are.
fn far(a: Cell, b: Cell) -> i32 {
    (a.0 - b.0).abs() + (a.1 - b.1).abs()
}

/// A free cell near this one, the nearest to all its friends; of equal ones the first to the right, below, to the left, above.
fn beside((x, y): Cell, friends: &[Cell], taken: &mut HashSet<Cell>) -> Cell {
    let ring = |far: i32| (0..far).flat_map(move |side| [(far - side, side), (-side, far - side), (side - far, -side), (side, side - far)]);
    let free = (1..).flat_map(ring).map(|(dx, dy)| (x + dx, y + dy)).filter(|at| !taken.contains(at)).take(12);
    let cell = free.min_by_key(|&at| far(at, (x, y)) + friends.iter().map(|&friend| far(at, friend)).sum::<i32>()).unwrap_or_default();
    taken.insert(cell);
    cell
}

/// The first cell of a line below all rooms.
fn below(taken: &mut HashSet<Cell>) -> Cell {
    let left = taken.iter().map(|at| at.0).min().unwrap_or(0);
    let cell = (left, taken.iter().map(|at| at.1 + 1).max().unwrap_or(0));
    taken.insert(cell);
    cell
}
