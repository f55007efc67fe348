//! Each refusal's message, by every call that tests for it. Each board is board A with one thing changed.

use katmos::{Arrows, Ask, Board, Link, Mixture, Refusal, Tables, Turf};

const ASK: Ask = Ask { hot: &[10], turns: &[], threshold: 0.5, limit: 10, allowance: 100 };

/// Board A, changed.
fn changed(change: impl Fn(&mut Tables)) -> Board {
    let turfs = [Turf::new(10, 0, &[Link::to(20)]), Turf::new(20, 1, &[Link::to(10)])];
    let mut board = Board::new(1, &[Mixture::of(&[32.0]), Mixture::of(&[16.0])], &turfs);
    change(&mut board.tables);
    board
}

/// All three calls refuse the changed board by this number, with this message, and leave it as it was; depressurize in both settings.
fn refused(number: u32, message: &str, change: impl Fn(&mut Tables)) {
    let mut board = changed(change);
    let before = format!("{:?}", board.tables);
    let vented = [Arrows::AsText, Arrows::ToSpace].map(|arrows| board.depressurize(10, 10, arrows).err());
    for refusal in [board.equalize(&ASK).err(), board.planet_walk(10, 10).err()].into_iter().chain(vented) {
        let refusal = refusal.expect(message);
        assert_eq!((refusal.number(), refusal.to_string()), (number, message.to_string()));
    }
    assert_eq!(format!("{:?}", board.tables), before);
}

/// Equalize refuses this ask, of board A.
fn ask_refused(number: u32, message: &str, ask: Ask) {
    let refusal = changed(|_| ()).equalize(&ask).expect_err(message);
    assert_eq!((refusal.number(), refusal.to_string()), (number, message.to_string()));
}

#[test]
fn sizes() {
    refused(1, "ids: 0, which isn't 1 to 4096", |t| t.ids.clear());
    refused(1, "ids: 4097, which isn't 1 to 4096", |t| t.ids = (0..4_097).collect());
    refused(1, "immutable: 0, which isn't 1 to 4096", |t| t.immutable.clear());
    refused(1, "neighbours: 24577, which isn't 0 to 24576", |t| t.neighbours = vec![0; 24_577]);
    refused(1, "gases: 0, which isn't 1 to 64", |t| t.gases = 0);
    refused(1, "gases: 4294967295, which isn't 1 to 64", |t| t.gases = u32::MAX);
    ask_refused(1, "hot: 4097, which isn't 0 to 4096", Ask { hot: &[0; 4_097], ..ASK });
    ask_refused(1, "turns: 65537, which isn't 0 to 65536", Ask { turns: &[0; 65_537], ..ASK });
}

#[test]
fn lengths() {
    refused(2, "flags: 1 elements where 2 are due", |t| t.flags.truncate(1));
    refused(2, "planetary: 3 elements where 2 are due", |t| t.planetary.push(0));
    refused(2, "mixtures: 0 elements where 2 are due", |t| t.mixtures.clear());
    refused(2, "starts: 2 elements where 3 are due", |t| t.starts.truncate(2));
    refused(2, "link_flags: 1 elements where 2 are due", |t| t.link_flags.truncate(1));
    refused(2, "amounts: 2 elements where 4 are due", |t| t.gases = 2);
}

#[test]
fn ids() {
    refused(3, "ids: row 1, id 10, isn't above the row before", |t| t.ids[1] = 10);
    refused(3, "ids: row 1, id 9, isn't above the row before", |t| t.ids[1] = 9);
}

#[test]
fn links() {
    refused(4, "starts: the first is 1, not 0 (row 0)", |t| t.starts[0] = 1);
    refused(4, "starts: 2 follows 3 (row 1)", |t| t.starts[1] = 3);
    refused(4, "starts: the last is 1, and there are 2 links (row 2)", |t| t.starts[2] = 1);
    refused(4, "neighbours: link 0 names row 2, which isn't there (row 0)", |t| t.neighbours[0] = 2);
    refused(4, "neighbours: link 1 runs from its turf to itself (row 1)", |t| t.neighbours[1] = 1);
    refused(4, "neighbours: link 1 names row 1 a second time (row 0)", |t| (t.starts, t.neighbours) = (vec![0, 2, 2], vec![1, 1]));
    refused(4, "mixtures: mixture row 2 isn't there (row 1)", |t| t.mixtures[1] = 2);
}

#[test]
fn amounts() {
    let range = "isn't finite, without a sign and at most 2^40";
    refused(5, &format!("amounts: mixture 1, gas 0: -0.0 {range}"), |t| t.amounts[1] = -0.0);
    refused(5, &format!("amounts: mixture 0, gas 0: NaN {range}"), |t| t.amounts[0] = f32::NAN);
    refused(5, &format!("amounts: mixture 1, gas 1: inf {range}"), |t| (t.gases, t.amounts) = (2, vec![0.0, 1.0, 2.0, f32::INFINITY]));
    ask_refused(5, "threshold: -1.0 isn't finite and without a sign", Ask { threshold: -1.0, ..ASK });
}

#[test]
fn hot_ids() {
    ask_refused(6, "hot: place 1, id 10, isn't above the place before", Ask { hot: &[10, 10], ..ASK });
}

#[test]
fn an_unknown_neighbour() {
    let board = Board::new(1, &[Mixture::of(&[32.0])], &[Turf::new(10, 0, &[Link::to(11)])]).planet_walk(10, 10);
    assert_eq!(board.map_err(|no| no.to_string()), Err("neighbours: link 0 names row 1, which isn't there (row 0)".into()));
}

#[test]
fn the_first_rule_that_fails_is_named() {
    refused(3, "ids: row 1, id 10, isn't above the row before", |t| (t.ids[1], t.amounts[0], t.neighbours[0]) = (10, -1.0, 9));
}

/// The next number of a simple generator.
fn next(seed: &mut u64) -> usize {
    *seed = seed.wrapping_mul(6_364_136_223_846_793_005).wrapping_add(1_442_695_040_888_963_407);
    (*seed >> 40) as usize
}

/// Changes one element of one table.
fn damage(t: &mut Tables, seed: &mut u64) {
    let (at, value) = (next(seed), next(seed) as u32 % 4);
    match next(seed) % 8 {
        0 => t.ids[at % 2] = value * 10,
        1 => t.starts[at % 3] = value,
        2 => t.neighbours[at % 2] = value,
        3 => t.mixtures[at % 2] = value,
        4 => t.amounts[at % 2] = [0.0, -0.0, f32::NAN, 2.0e12][value as usize],
        5 => t.gases = value,
        6 => t.link_flags.resize(value as usize, 0),
        _ => t.immutable.resize(value as usize, 0),
    }
}

#[test]
fn every_refusal_has_its_reason() {
    let (mut seed, mut seen) = (1, [0; 7]);
    for _ in 0..3_000 {
        let mut board = changed(|_| ());
        for _ in 0..1 + next(&mut seed) % 3 {
            let t = &mut board.tables;
            if t.gases > 0 && t.link_flags.len() == 2 && t.immutable.len() == 2 {
                damage(t, &mut seed);
            }
        }
        if let Err(refusal) = board.equalize(&ASK) {
            assert!(!matches!(refusal, Refusal::Other { .. } | Refusal::Threshold { .. } | Refusal::Room { .. }), "{refusal}: {:?}", board.tables);
            seen[refusal.number() as usize] += 1;
        }
    }
    assert!(seen[1..=5].iter().all(|&count| count > 100), "{seen:?}");
}
