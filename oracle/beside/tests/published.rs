//! The FILLED mixture against the published mixture.rs. One test after the other: the second part changes the FILLED one.

use beside::{Published, accepted, drop_small};
use boards::paper::{ask_a, board, board_a};
use boards::{Board, Call, Case, Event, Walk};
use filled::play::{outcome, play};

/// The published mixture drops amounts at or below 0.0001 where it multiplies.
fn published_drops_small_amounts() {
    let case = Case::new(Board { gases: 2, amounts: vec![32.0, 1.0e-4, 16.0, 0.0], ..board_a() }, Call::Equalize(ask_a()), 0);
    let (filled, published) = (outcome(&case), published::play::outcome(&case));
    assert_eq!((&filled.answer, &filled.events), (&published.answer, &published.events));
    assert!(filled.amounts[1] > 0.0 && published.amounts[1] == 0.0, "{:?} {:?}", filled.amounts, published.amounts);
}

/// The published mixture's empty sum is -0.0: a cleared mixture that the next turf shares is summed to the other zero.
fn published_sums_nothing_to_minus_zero() {
    let chain = board(&[&[1], &[0, 2], &[1]], &[32.0, 0.0]);
    let walk = Walk { id: 10, limit: 10 };
    let case = Case::new(Board { immutable: vec![0, 1], mixtures: vec![0, 0, 1], ..chain }, Call::Depressurize(walk.into()), 0);
    let rip = |events: Vec<Event>| {
        events.iter().find_map(|event| if let Event::FloorRip { id: 10, amount } = event { Some(amount.to_bits()) } else { None })
    };
    assert_eq!((rip(play(&case).events), rip(published::play::play(&case).events)), (Some(0), Some(0x8000_0000)));
}

/// On random boards equalize's counts and event bytes are the same; with the rule on small amounts put back, the gas too, and of
/// depressurize all but the sign of a zero.
#[test]
fn published() {
    published_drops_small_amounts();
    published_sums_nothing_to_minus_zero();
    let compared = |drops| {
        let mut by_call = [Published::default(), Published::default(), Published::default()];
        drop_small(drops);
        accepted(150, 3, |case| by_call[case.call.number() as usize - 1].test(case));
        assert!(by_call.iter().all(|seen| seen.boards > 1_000 && seen.counts == 0 && seen.event_values == 0), "{by_call:?}");
        assert!(by_call[0].event_bytes == 0 && by_call[2].event_bytes == 0, "{by_call:?}");
        by_call.map(|seen| seen.gas)
    };
    assert!(compared(false)[0] > 0);
    assert_eq!(compared(true), [0, 0, 0]);
}
