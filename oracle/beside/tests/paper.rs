//! Document 01's P1 to P12, two boards with arrows towards space, and the six-node boards, by the text and by the document's own model.

use boards::events::encode;
use boards::paper::{Row, ask_a, board, board_a, rows, six};
use boards::{Board, Call, Case, Equalize, Event, Played, Walk, model};
use filled::play::outcome;

#[test]
fn p1_to_p12() {
    let wrong = |row: &Row| {
        let (got, due) = (filled::play::outcome(&row.case), row.outcome());
        (got != due || row.case.done(&model::play(&row.case)) != due).then(|| format!("{}: {got:?}\nthe paper: {due:?}", row.name))
    };
    let rows = rows();
    let wrong: Vec<String> = rows.iter().filter_map(wrong).collect();
    assert_eq!(rows.len(), 19);
    assert!(wrong.is_empty(), "{}", wrong.join("\n"));
}

#[test]
fn six_nodes() {
    for play in [filled::play::play as fn(&Case) -> Played, model::play] {
        let three = &play(&six([20.0, 0.0, 20.0, 0.0, 20.0, 0.0])).planned[0];
        assert!(three.len() == 12 && three.iter().all(|edge| edge.weight.abs() == 5.0), "{three:?}");
        let two = &play(&six([42.0, 0.0, 0.0, 18.0, 0.0, 0.0])).planned[0];
        assert!(two.iter().any(|edge| (edge.from, edge.to, edge.weight) == (0, 1, 20.0)), "{two:?}");
    }
}

/// Rows of the table in crates/table that stand on no board of the paper: the text answers them as they are written there.
#[test]
fn rows_of_the_table() {
    let equalized = |board: Board, ask: Equalize| outcome(&Case::new(board, Call::Equalize(ask), 3));
    let words = |amounts: &[u32]| amounts.iter().map(|&word| f32::from_bits(word)).collect::<Vec<_>>();
    let pressure = |bits: u32, from, to| Event::Pressure { zone: 0, amount: f32::from_bits(bits), from, to };
    // two turfs with one mixture, sums that round
    let shared = Board { mixtures: vec![0, 1, 1], immutable: vec![0, 0], ..board(&[&[1], &[0, 2], &[1]], &[95.0, 13.0]) };
    let got = equalized(shared, ask_a());
    assert_eq!((got.answer, got.amounts), (vec![0, 0, 3, 5, 1, 1, 40], words(&[0x4221_5556, 0x4287_5555])));
    assert_eq!(got.events[..40], encode(&[pressure(0x425a_aaaa, 10, 20), pressure(0x41da_aaaa, 20, 30)]));
    // an ignored zone's links are owned as before
    let links: [&[u32]; 5] = [&[1, 2], &[], &[0, 3], &[2], &[2, 3]];
    let breached = Board { ids: vec![10, 20, 30, 35, 40], immutable: vec![0, 1, 0, 0, 0], ..board(&links, &[64.0, 0.0, 100.0, 0.0, 12.0]) };
    let got = equalized(breached, Equalize { hot: vec![10, 40], ..ask_a() });
    assert_eq!((got.answer, got.amounts), (vec![0, 0, 3, 7, 1, 1, 8], vec![64.0, 0.0, 100.0, 0.0, 12.0]));
    // a break at the planet limit leaves a turf in two zones
    let got = equalized(Board { planetary: vec![1, 0], ..board_a() }, Equalize { hot: vec![10, 20], limit: 0, ..ask_a() });
    assert_eq!((got.answer, got.amounts), (vec![0, 0, 3, 4, 2, 0, 0], vec![32.0, 16.0]));
    // two gases
    let got = equalized(Board { gases: 2, amounts: vec![24.0, 8.0, 12.0, 4.0], ..board_a() }, ask_a());
    assert_eq!((got.answer, got.amounts), (vec![0, 0, 2, 4, 1, 1, 20], vec![18.0, 6.0, 18.0, 6.0]));
    // unknown ids
    assert_eq!(equalized(board_a(), Equalize { hot: vec![11], ..ask_a() }).answer, [0, 0, 0, 2, 0, 1, 0]);
    let walk = Walk { id: 11, limit: 10 };
    assert_eq!(outcome(&Case::new(board_a(), Call::Depressurize(walk.clone().into()), 0)).answer, [0, 0, 0]);
    assert_eq!(outcome(&Case::new(board_a(), Call::PlanetWalk(walk), 0)).answer, [0, 0]);
}
