//! How long the proved parts take, on the boards that speed is measured on.

use crate::parts::{asked, fill, stages_fill, stages_plan};
use boards::clock::own;
use boards::guarded::Lent;
use boards::{Call, Case, call};
use std::time::{Duration, Instant};

/// The least time of a few runs in ns, and the zones kept.
fn least(case: &Case) -> (u128, u32) {
    let run = |_| {
        let begun = Instant::now();
        let left = fill(case).expect("the boundary's promises");
        (begun.elapsed().as_nanos(), left.answer[2])
    };
    (0..9).map(run).min().expect("a run")
}

/// Filling with the board's hot ids, and with none: the refusals and the clearing.
pub fn filling() {
    for (name, mut case) in boards::bench::boards() {
        let (with, zones) = least(&case);
        if let Call::Equalize(ask) = &mut case.call {
            ask.hot.clear();
        }
        let (without, _) = least(&case);
        let size = case.board.ids.len() + case.board.neighbours.len();
        let each = with.saturating_sub(without) / size as u128;
        println!("{name}: {zones} zones, {with} ns, with no hot ids {without} ns: {each} ns for each turf and link");
    }
}

/// How long filling takes, and filling and planning, a call, over so many calls of each. The scratch is what the run before left.
fn run_planning(case: &Case, lent: &mut Lent, calls: u32) -> (Duration, Duration) {
    let (board, ask) = (&case.board, asked(case));
    let begun = own();
    for _ in 0..calls {
        let number = call!(stages_fill, board, lent, *const f32, ask.hot.as_ptr(), ask.hot.len(), ask.threshold, ask.limit, ask.allowance);
        assert_eq!(number, 0);
    }
    let filled = own();
    for _ in 0..calls {
        let number = call!(stages_plan, board, lent, *const f32, ask.hot.as_ptr(), ask.hot.len(), ask.threshold, ask.limit, ask.allowance);
        assert_eq!(number, 0);
    }
    let planned = own();
    ((filled - begun) / calls, (planned - filled) / calls)
}

/// Planning of all zones: the text's, from the first zone's start to the last one's end, and the proved one's, which is filling and planning
/// less filling alone; `lost` where that difference is within the clock's noise. Of each the least time of the processor, over runs in turns for some seconds a board; on small
/// boards the proved side's is that of many calls, since one is no longer than a reading of the clock. The boards are those whose name
/// has this in it.
pub fn planning(part: &str) {
    println!("{:36} {:>13} {:>13} {:>7}", "board", "text ns", "proved ns", "times");
    for (name, case) in boards::bench::boards().into_iter().filter(|(name, _)| name.contains(part)) {
        let mut lent = Lent::new(&case, 6);
        let (mut text, mut fill, mut both) = (Duration::MAX, Duration::MAX, Duration::MAX);
        let calls = 1 + 8_192 / (case.board.ids.len() + case.board.neighbours.len()) as u32;
        let (begun, mut rounds) = (Instant::now(), 0);
        while rounds < 12 || begun.elapsed() < Duration::from_secs(5) {
            text = text.min(filled::play::time_planning(&case.board, asked(&case), 1));
            let ours = run_planning(&case, &mut lent, calls);
            (fill, both) = (fill.min(ours.0), both.min(ours.1));
            rounds += 1;
        }
        let text = text.as_nanos();
        match both.saturating_sub(fill).as_nanos() {
            0 => println!("{name:36} {text:13} {:>13} {:>7}", "lost", "-"),
            ours => println!("{name:36} {text:13} {ours:13} {:7.1}", text as f64 / ours as f64),
        }
    }
}
