//! A board played by the text: what the game would see of it, as event records, and what is left of the gas.

use crate::turfs::processing;
use crate::{gas::types, watch};
use auxcallback::run_all;
use boards::clock::{cost, own};
use boards::outcome::{Filling, turn_order};
use boards::refusal::refusal;
use boards::{Board, Breach, Call, Case, Equalize, Event, Outcome, Played, Walk};
use byondapi::{ByondValue, Seen, take_seen};
use parking_lot::Mutex;
use std::collections::HashMap;
use std::time::Duration;

fn load(board: &Board) {
    types::load(board.gases as usize, &board.immutable, &board.amounts);
    processing::load(board);
    take_seen();
}

/// `equalize` by the text. With turns, its zones are filled and planned by its `equalize`, and finished by its `finalize_eq`, node by node.
fn equalize(board: &Board, ask: &Equalize) -> Played {
    load(board);
    watch::begin(ask.threshold, true, !ask.turns.is_empty());
    let (processed, cancelled) = processing::equalize(ask.limit, &ask.hot.iter().copied().collect(), ask.allowance);
    let tests = coarsetime::readings() as u32;
    let (zones, planned, mut filling) = (watch::take_zones(), watch::take_planned(), watch::take_filling());
    filling.found.iter_mut().for_each(|id| *id = board.ids.binary_search(id).expect("a turf") as u32);
    filling.found.sort_unstable();
    run_all().expect("what was sent can be called");
    let mut events: Vec<Event> = watch::take_requests().into_iter().map(|(kind, id)| Event::wanted(kind, id)).collect();
    let mut records = watch::take_records().into_iter().enumerate().flat_map(|(zone, count)| vec![zone as u32; count]);
    for seen in take_seen() {
        let Seen::Called(from, "consider_pressure_difference", [ByondValue::Turf(to), ByondValue::Number(amount)]) = seen else { panic!("{seen:?}") };
        events.push(Event::Pressure { zone: records.next().expect("a record of a zone"), amount, from, to });
    }
    assert!(records.next().is_none());
    let deferred = watch::take_deferred();
    let nodes: Vec<Vec<_>> = deferred.iter().map(|graph| graph.nodes().collect()).collect();
    for (zone, place) in turn_order(&nodes.iter().map(Vec::len).collect::<Vec<_>>(), &ask.turns) {
        let pressures = processing::finish_turf(nodes[zone][place], &deferred[zone]);
        events.extend(pressures.into_iter().map(|(amount, from, to)| Event::Pressure { zone: zone as u32, amount, from, to }));
    }
    Played { amounts: types::amounts(), events, cancelled, processed: processed as u32, tests, filling, zones, planned, vented: false }
}

/// The least of so many runs of the text's `equalize` by a clock, as `taken` tells it of the whole run's time: the board loaded, and what is sent to
/// the game not run.
fn least(board: &Board, ask: &Equalize, runs: u32, clock: fn() -> Duration, taken: impl Fn(Duration) -> Duration) -> Duration {
    let hot = ask.hot.iter().copied().collect();
    let one = |_| {
        load(board);
        watch::begin_quiet(ask.threshold);
        let begun = clock();
        processing::equalize(ask.limit, &hot, ask.allowance);
        let taken = taken(clock() - begun);
        run_all().expect("what was sent can be called");
        taken
    };
    (0..runs).map(one).min().unwrap_or_default()
}

/// How long the text's `equalize` takes.
pub fn time_equalize(board: &Board, ask: &Equalize, runs: u32, clock: fn() -> Duration) -> Duration {
    least(board, ask, runs, clock, |whole| whole)
}

/// How long its planning takes, of all zones, by the thread's own clock.
pub fn time_planning(board: &Board, ask: &Equalize, runs: u32) -> Duration {
    least(board, ask, runs, own, |_| watch::planned_in()).saturating_sub(cost())
}

/// What a walk shows the game, in order.
fn walked() -> Played {
    let mut vented = false;
    let mut differences = HashMap::new();
    let mut event = |seen| match seen {
        Seen::Wrote(id, "pressure_specific_target", ByondValue::Turf(target)) => Some(Event::Target { id, target }),
        Seen::Called(id, "consider_firelocks", [ByondValue::Turf(neighbour), _]) => Some(Event::Firelock { id, neighbour }),
        Seen::World => {
            vented = true;
            None
        }
        Seen::Listed(id) => Some(Event::HighPressure { id }),
        Seen::Wrote(id, "pressure_difference", ByondValue::Number(amount)) => {
            differences.insert(id, amount);
            None
        }
        Seen::Wrote(id, "pressure_direction", ByondValue::Arrow(from, to)) => Some(Event::Difference { id, amount: differences[&id], from, to }),
        Seen::Called(id, "handle_decompression_floor_rip", [ByondValue::Number(amount), _]) => Some(Event::FloorRip { id, amount }),
        _ => panic!("{seen:?}"),
    };
    let events = take_seen().into_iter().filter_map(&mut event).collect();
    let (filling, zones, planned) = (Filling::default(), Vec::new(), Vec::new());
    Played { amounts: types::amounts(), events, cancelled: false, processed: 0, tests: 0, filling, zones, planned, vented }
}

/// `explosively_depressurize` by the text, or by the text with one word mended.
fn depressurize(board: &Board, breach: &Breach) -> Played {
    load(board);
    watch::begin(0.0, false, false);
    processing::depressurize(breach.id, breach.limit, breach.is_to_space()).expect("the game answers");
    walked()
}

/// `planet_equalize` by the text.
fn planet_walk(board: &Board, walk: &Walk) -> Played {
    load(board);
    watch::begin(0.0, false, false);
    processing::planet_walk(walk.id, walk.limit).expect("the game answers");
    walked()
}

/// Everything that a call answers and leaves: the refusal, or what the text does.
pub fn outcome(case: &Case) -> Outcome {
    match refusal(case) {
        0 => case.done(&play(case)),
        number => case.refused(number),
    }
}

/// A case that isn't refused, played by the text. The text's arenas are global, so one board is played at a time.
pub fn play(case: &Case) -> Played {
    static ARENAS: Mutex<()> = Mutex::new(());
    let _held = ARENAS.lock();
    match &case.call {
        Call::Equalize(ask) => equalize(&case.board, ask),
        Call::Depressurize(breach) => depressurize(&case.board, breach),
        Call::PlanetWalk(walk) => planet_walk(&case.board, walk),
    }
}
