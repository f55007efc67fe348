//! The worked boards, threads, and a recursion as deep as a board can be.

use katmos::{Arrows, Ask, Board, Depressurized, Event, Events, Link, Mixture, Outcome, Refusal, Room, Tables, Turf};

/// Board A: 10 and 20, linked both ways.
fn board_a(first: f32, second: f32) -> Board {
    let turfs = [Turf::new(10, 0, &[Link::to(20)]), Turf::new(20, 1, &[Link::to(10)])];
    Board::new(1, &[Mixture::of(&[first]), Mixture::of(&[second])], &turfs)
}

/// P7's board: 20 is space.
fn breach() -> Board {
    let mut board = board_a(32.0, 0.0);
    board.tables.immutable[1] = 1;
    board
}

/// What document 01 asks of board A.
const ASK: Ask = Ask { hot: &[10], turns: &[], threshold: 0.5, limit: 10, allowance: 100 };

/// The events of a call, all sound.
fn all(events: &Events) -> Vec<Event> {
    events.iter().collect::<Result<_, _>>().expect("sound records")
}

/// What an accepted call of depressurize comes to, with the text's arrows.
fn vent(board: &mut Board, id: u32, limit: u32) -> Depressurized {
    board.depressurize(id, limit, Arrows::AsText).expect("accepted")
}

/// A chain in which each turf waits for the next one's gas.
fn chain(turfs: u32) -> Board {
    let mut amounts = vec![0.0; turfs as usize];
    (amounts[0], amounts[turfs as usize - 1]) = (10.0, 1_000_000.0);
    let mixtures: Vec<Mixture> = amounts.into_iter().map(|amount| Mixture::of(&[amount])).collect();
    let beside = |row: u32| [row.checked_sub(1), Some(row + 1)].into_iter().flatten().filter(|&to| to < turfs);
    let turf = |row| Turf::new(row, row, &beside(row).map(Link::to).collect::<Vec<_>>());
    Board::new(1, &mixtures, &(0..turfs).map(turf).collect::<Vec<_>>())
}

#[test]
fn p1_evens_out() {
    let mut board = board_a(32.0, 16.0);
    let answer = board.equalize(&ASK).expect("accepted");
    assert_eq!(board.tables.amounts, [24.0, 24.0]);
    assert_eq!((answer.cancelled, answer.processed, answer.tests, answer.zones, answer.apart), (false, 2, 4, 1, true));
    assert_eq!(answer.events.to_string(), "3 0 41000000 10 20\n");
    assert_eq!(answer.events.as_bytes(), [20, 0, 3, 0, 0, 0, 0, 0, 0, 0, 0, 65, 10, 0, 0, 0, 20, 0, 0, 0]);
    assert_eq!(all(&answer.events), [Event::Pressure { zone: 0, amount: 8.0, from: 10, to: 20 }]);
}

#[test]
fn p3_is_cancelled() {
    let mut board = board_a(32.0, 16.0);
    let answer = board.equalize(&Ask { allowance: 3, ..ASK }).expect("accepted");
    assert_eq!((answer.cancelled, answer.processed, answer.tests, answer.zones), (true, 2, 4, 0));
    assert_eq!(board.tables.amounts, [32.0, 16.0]);
}

#[test]
fn p7_asks_and_p12_answers() {
    let mut board = breach();
    let asked = board.equalize(&ASK).expect("accepted");
    assert_eq!((asked.events.as_bytes(), asked.zones, asked.tests), (&[8, 0, 1, 0, 10, 0, 0, 0][..], 0, 4));
    let [Event::DepressurizeWanted { id }] = all(&asked.events)[..] else { panic!("{}", asked.events) };
    let answer = vent(&mut board, id, 10);
    assert_eq!(answer.outcome, Outcome::Vented);
    let kinds: Vec<u32> = all(&answer.events).iter().map(Event::kind).collect();
    assert_eq!((kinds, answer.events.as_bytes().len()), (vec![5, 5, 6, 7, 7, 8], 84));
    assert_eq!(board.tables.amounts, [0.0, 0.0]);
}

#[test]
fn other_outcomes() {
    assert_eq!(vent(&mut breach(), 10, 0).outcome, Outcome::NoSpace);
    assert_eq!(vent(&mut breach(), 11, 10).outcome, Outcome::NoSpace);
    let mut planet = breach();
    planet.tables.planetary[1] = 1;
    assert_eq!(vent(&mut planet, 10, 10).outcome, Outcome::Planet);
}

/// The arrows of a board that is emptied from turf 10, as the lister prints them; all else must be the same in both settings.
fn arrows_of(board: &Board, limit: u32, arrows: Arrows) -> String {
    let vented = |arrows| {
        let mut board = board.clone();
        let answer = board.depressurize(10, limit, arrows).expect("accepted");
        let (differences, others): (Vec<Event>, Vec<Event>) = all(&answer.events).into_iter().partition(|event| event.kind() == 7);
        (differences, (others, answer.outcome, answer.events.as_bytes().len(), board.tables))
    };
    let (differences, rest) = vented(arrows);
    assert_eq!(rest, vented(Arrows::default()).1);
    differences.iter().map(|event| format!("{event}\n")).collect()
}

#[test]
fn p12_draws_both_arrows_to_space() {
    assert_eq!(arrows_of(&breach(), 10, Arrows::AsText), "7 10 00000000 10 10\n7 10 00000000 10 10\n");
    assert_eq!(arrows_of(&breach(), 10, Arrows::ToSpace), "7 10 00000000 10 20\n7 20 00000000 10 20\n");
}

#[test]
fn arrows_lead_along_a_chain() {
    let turfs = [Turf::new(10, 0, &[Link::to(20)]), Turf::new(20, 1, &[Link::to(10), Link::to(30)]), Turf::new(30, 2, &[Link::to(20)])];
    let space = Mixture { immutable: true, amounts: vec![4.0] };
    let board = Board::new(1, &[Mixture::of(&[32.0]), Mixture::of(&[16.0]), space], &turfs);
    assert_eq!(arrows_of(&board, 2, Arrows::AsText), "7 10 41800000 10 10\n7 20 41a00000 20 20\n7 20 41a00000 20 20\n");
    assert_eq!(arrows_of(&board, 2, Arrows::ToSpace), "7 10 41800000 10 20\n7 20 41a00000 20 30\n7 30 41a00000 20 30\n");
}

#[test]
fn a_planet_walk_finds_firelocks() {
    let turfs = [Turf { planetary: true, ..Turf::new(10, 0, &[Link::locked(20)]) }, Turf::new(20, 1, &[Link::to(10)])];
    let mut board = Board::new(1, &[Mixture::of(&[32.0]), Mixture::of(&[16.0])], &turfs);
    assert_eq!(board.planet_walk(10, 10).expect("accepted").to_string(), "4 10 20\n");
    assert_eq!(board.planet_walk(11, 10), Ok(Events::default()));
    assert_eq!(board.tables.amounts, [32.0, 16.0]);
}

#[test]
fn p11_turns_order_the_records() {
    let turf = |id, to, mixture| Turf::new(id, mixture, &[Link::to(to)]);
    let mixtures = [32.0, 16.0, 32.0, 16.0].map(|amount| Mixture::of(&[amount]));
    let board = Board::new(1, &mixtures, &[turf(10, 20, 0), turf(20, 10, 1), turf(30, 40, 2), turf(40, 30, 3)]);
    let (mut plain, mut turned) = (board.clone(), board);
    let ask = Ask { hot: &[10, 30], ..ASK };
    assert_eq!(plain.equalize(&ask).expect("accepted").events.to_string(), "3 0 41000000 10 20\n3 1 41000000 30 40\n");
    let answer = turned.equalize(&Ask { turns: &[1], ..ask }).expect("accepted");
    assert_eq!(answer.events.to_string(), "3 1 41000000 30 40\n3 0 41000000 10 20\n");
    assert_eq!(plain.tables, turned.tables);
}

#[test]
fn a_board_knows_its_room() {
    let board = board_a(32.0, 16.0);
    assert_eq!(board.equalize_room(), Room { events: 72, words: 60, floats: 12 });
    assert_eq!((board.depressurize_room().events, board.planet_walk_room().events), (168, 24));
    let large = Board::from(Tables { ids: vec![0; 1_000_000], ..Tables::default() });
    assert_eq!(large.depressurize_room().events, 84 * 4_096);
}

#[test]
fn turfs_are_put_in_order_and_looked_up() {
    let turfs = [Turf::new(20, 1, &[Link::to(10)]), Turf::new(10, 0, &[Link::to(20)])];
    let board = Board::new(2, &[Mixture::of(&[3.0, 4.0]), Mixture::of(&[16.0, 0.0])], &turfs);
    assert_eq!((&board.tables.ids[..], &board.tables.neighbours[..]), (&[10, 20][..], &[1, 0][..]));
    assert_eq!((board.total_of(10), board.amounts_of(20), board.total_of(30)), (Some(7.0), Some(&[16.0, 0.0][..]), None));
}

#[test]
fn threads_play_at_once() {
    let due = chain(100).equalize(&Ask { hot: &[0], ..ASK }).expect("accepted");
    std::thread::scope(|scope| {
        for _ in 0..4 {
            scope.spawn(|| {
                for _ in 0..20 {
                    assert_eq!(chain(100).equalize(&Ask { hot: &[0], ..ASK }).as_ref(), Ok(&due));
                    assert_eq!(vent(&mut breach(), 10, 10).events.as_bytes().len(), 84);
                }
            });
        }
    });
}

#[test]
fn the_deepest_board_fits_any_caller() {
    let deep = || chain(4_096).equalize(&Ask { hot: &[0], allowance: u32::MAX, ..ASK }).map(|answer| (answer.processed, answer.zones));
    let run = std::thread::Builder::new().stack_size(128 * 1024).spawn(deep).expect("a thread");
    assert_eq!(run.join().expect("an end"), Ok((4_096, 1)));
}

#[test]
fn a_refused_board_is_as_it_was_and_can_be_mended() {
    let mut board = board_a(32.0, -1.0);
    let before = board.tables.clone();
    assert!(matches!(board.equalize(&ASK), Err(Refusal::Amounts { mixture: 1, .. })));
    assert_eq!(board.tables, before);
    board.tables.amounts[1] = 16.0;
    assert_eq!(board.equalize(&ASK).expect("accepted").zones, 1);
}
