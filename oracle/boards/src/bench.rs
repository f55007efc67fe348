//! The boards that speed is measured on.

use crate::case::{Call, Case, Equalize};
use crate::paper::board;
use crate::random::Random;
use crate::shapes::{chain, grid, hub};

fn case(links: &[Vec<u32>], amounts: Vec<f32>, hot: Vec<u32>) -> Case {
    let made = board(&links.iter().map(Vec::as_slice).collect::<Vec<_>>(), &amounts);
    Case::new(made, Call::Equalize(Equalize { hot, turns: vec![], threshold: 0.1, limit: 2_000, allowance: u32::MAX }), 0)
}

fn random_amounts(turfs: usize) -> Vec<f32> {
    let mut random = Random::new(7);
    (0..turfs).map(|_| 10.0 + random.below(1_000) as f32 / 8.0).collect()
}

/// A hub that has all the gas, with so many empty neighbours, hot.
fn full_hub(links: usize) -> Case {
    let mut amounts = vec![0.0; links + 1];
    amounts[0] = 100_000.0;
    case(&hub(links + 1, 0), amounts, vec![10])
}

/// Such hubs, up to the limit.
pub fn full_hubs() -> Vec<Case> {
    [64, 128, 256, 512, 1_024, 2_048, 4_095].map(full_hub).to_vec()
}

/// Rows in pairs.
fn pairs(turfs: u32) -> Vec<Vec<u32>> {
    (0..turfs).map(|row| vec![row ^ 1]).collect()
}

/// A ring in which each row is linked with the three before it and the three behind it.
fn six(turfs: u32) -> Vec<Vec<u32>> {
    (0..turfs).map(|row| [1, 2, 3, turfs - 3, turfs - 2, turfs - 1].map(|step| (row + step) % turfs).to_vec()).collect()
}

/// Each row linked with all others.
fn complete(turfs: u32) -> Vec<Vec<u32>> {
    (0..turfs).map(|row| (0..turfs).filter(|&end| end != row).collect()).collect()
}

fn all(turfs: u32) -> Vec<u32> {
    (1..=turfs).map(|row| row * 10).collect()
}

/// Boards of one kind that double up to the limits, by kind.
pub fn sized() -> Vec<(&'static str, Vec<Case>)> {
    let random = |links: Vec<Vec<u32>>| case(&links, random_amounts(links.len()), vec![10]);
    let powers = |from: u32, to: u32| (from..=to).map(|power| 1_u32 << power);
    let half = |turfs: u32| (0..turfs).map(|row| if row < turfs / 2 { 100.0 } else { 0.0 }).collect();
    let square = |power: u32| grid(1 << power.div_ceil(2), 1 << (power / 2));
    vec![
        ("pairs, all hot", powers(1, 12).map(|turfs| case(&pairs(turfs), [32.0, 16.0].repeat(turfs as usize / 2), all(turfs))).collect()),
        ("chain", powers(1, 12).map(|turfs| random(chain(turfs as usize))).collect()),
        ("grid", (1..=12).map(|power| random(square(power))).collect()),
        ("six links each", powers(3, 12).map(|turfs| random(six(turfs))).collect()),
        ("complete", powers(1, 7).chain([157]).map(|turfs| random(complete(turfs))).collect()),
        ("hub", powers(1, 12).map(|turfs| random(hub(turfs as usize, 0))).collect()),
        ("chain, one half full", powers(1, 12).map(|turfs| case(&chain(turfs as usize), half(turfs), vec![turfs * 5])).collect()),
    ]
}

/// Each board with its name.
pub fn boards() -> Vec<(&'static str, Case)> {
    let links = grid(64, 64);
    let mut middle = vec![0.0; 4_096];
    middle[32 * 64 + 32] = 100_000.0;
    vec![
        ("pair", case(&chain(2), vec![32.0, 16.0], vec![10])),
        ("grid 8x8", case(&grid(8, 8), random_amounts(64), vec![10])),
        ("grid 64x64 random", case(&links, random_amounts(4_096), vec![10])),
        ("grid 64x64, one giver in the middle", case(&links, middle, vec![(32 * 64 + 33) * 10])),
        ("hub of 4096 random", case(&hub(4_096, 0), random_amounts(4_096), vec![10])),
        ("hub of 4096, all gas in the hub", full_hub(4_095)),
        ("chain 1024", case(&chain(1_024), random_amounts(1_024), vec![10])),
        ("2048 pairs, all hot", case(&pairs(4_096), [32.0, 16.0].repeat(2_048), all(4_096))),
    ]
}
