//! What random boards are made of: the shapes of their links, and amounts.

use crate::random::Random;

/// The rows that each row is linked to.
pub type Links = Vec<Vec<u32>>;

fn none(turfs: usize) -> Links {
    vec![Vec::new(); turfs]
}

fn join(links: &mut Links, a: usize, b: usize) {
    one_way(links, a, b);
    one_way(links, b, a);
}

fn one_way(links: &mut Links, a: usize, b: usize) {
    if a != b && !links[a].contains(&(b as u32)) {
        links[a].push(b as u32);
    }
}

/// So many columns and rows, each linked with those beside it.
pub fn grid(width: usize, height: usize) -> Links {
    let mut links = none(width * height);
    for row in 0..width * height {
        if row + width < width * height {
            join(&mut links, row, row + width);
        }
        if row % width + 1 < width {
            join(&mut links, row, row + 1);
        }
    }
    links
}

/// Each row linked with the next.
pub fn chain(turfs: usize) -> Links {
    let mut links = none(turfs);
    (1..turfs).for_each(|row| join(&mut links, row - 1, row));
    links
}

/// One row, the hub, linked with all others.
pub fn hub(turfs: usize, hub: usize) -> Links {
    let mut links = none(turfs);
    (0..turfs).filter(|&row| row != hub).for_each(|row| join(&mut links, hub, row));
    links
}

/// Row 0 linked with all others, and a few random links.
pub fn scattered_hub(random: &mut Random, turfs: usize) -> Links {
    let mut links = hub(turfs, 0);
    scatter(random, &mut links, turfs / 4, false);
    links
}

/// So many random links, both ways or one.
fn scatter(random: &mut Random, links: &mut Links, count: usize, ways: bool) {
    for _ in 0..count {
        let (a, b) = (random.within(0, links.len() - 1), random.within(0, links.len() - 1));
        if ways && random.once_in(2) {
            one_way(links, a, b);
        } else {
            join(links, a, b);
        }
    }
}

/// One of the shapes with at most so many turfs, and random links.
pub fn any_links(random: &mut Random, most: usize, ways: bool) -> Links {
    let turfs = random.within(1, most);
    let mut links = match random.below(4) {
        0 => grid(random.within(1, 4), random.within(1, most.div_ceil(4))),
        1 => chain(turfs),
        2 => scattered_hub(random, turfs),
        _ => none(turfs),
    };
    let (turfs, few) = (links.len(), random.within(0, 2));
    scatter(random, &mut links, turfs * few, ways);
    links
}

/// An amount as a game has it, or a plain one that makes ties.
pub fn amount(random: &mut Random) -> f32 {
    match random.below(8) {
        0 => 0.0,
        1..=3 => random.below(128) as f32,
        4 => random.below(4) as f32 * 16.0,
        5 => random.below(100_000) as f32 / 7.0,
        6 => 103.934_71,
        _ => random.below(1 << 24) as f32 / 65_536.0,
    }
}

/// An amount from the ends of what is accepted.
pub fn extreme(random: &mut Random) -> f32 {
    let most = 0x5380_0000;
    match random.below(8) {
        0 => 0.0,
        1 => f32::from_bits(1 + random.below(3) as u32),
        2 => f32::from_bits(0x007f_fffe + random.below(4) as u32),
        3 => f32::from_bits(most),
        4 => f32::from_bits(most - random.below(9) as u32),
        5 => f32::from_bits(random.below(u64::from(most) + 1) as u32),
        6 => 0.0001,
        _ => amount(random),
    }
}
