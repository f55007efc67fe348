//! How long `equalize` takes: the text's and the library's side by side, what of the library's is for refusals and clearing, and what it
//! grows with.

use crate::picture::{Family, Point};
use crate::{Host, PAGE, outcome};
use boards::bench::sized;
use boards::clock::{own, wall};
use boards::{Board, Call, Case};
use std::hint::black_box;
use std::time::Duration;

/// The least time of what is run again and again for so long, eight times at least.
fn least(seconds: Duration, mut run: impl FnMut() -> Duration) -> Duration {
    let (begun, mut least, mut runs) = (wall(), Duration::MAX, 0);
    while runs < 8 || wall() - begun < seconds {
        least = least.min(run());
        runs += 1;
    }
    least
}

/// A call's clock: the thread's own where it is so long that others would come in between, else the one that is sooner read.
fn clock(once: Duration) -> fn() -> Duration {
    if once < Duration::from_millis(1) { wall } else { own }
}

/// Where this runs.
pub fn machine() -> String {
    let (own, kernel) = (std::env::consts::ARCH, std::fs::read_to_string("/proc/sys/kernel/arch").unwrap_or_default());
    if kernel.trim() == own { format!("{own}, native") } else { format!("{own} under an emulator on {}", kernel.trim()) }
}

/// Where this runs, and what reading the clocks takes, which is part of every figure.
fn heading() -> String {
    let [wall, own] = [wall, own].map(|clock| (0..10_000).map(|_| clock()).map(|begun| clock() - begun).min().unwrap_or_default().as_nanos());
    format!("{}; reading the clock takes {wall} ns, the thread's own {own} ns", machine())
}

fn host(case: &Case) -> Host<'_> {
    Host::new(case).expect("a case of equalize")
}

/// The least time of the library's call.
fn ours(case: &Case, seconds: Duration) -> Duration {
    let mut host = host(case);
    let clock = clock(host.time(own));
    least(seconds, || host.time(clock))
}

/// The least time of the text's call and of the library's, by turns for so long: short ones many in a row, so that each side finds its code
/// and data near.
fn both(case: &Case, seconds: Duration) -> (Duration, Duration) {
    let (Call::Equalize(ask), mut host) = (&case.call, host(case)) else { panic!("a case of equalize") };
    let text = |row, clock| filled::play::time_equalize(&case.board, ask, row, clock);
    let (theirs, mine) = (clock(text(1, own)), clock(host.time(own)));
    let row = if text(1, own) < Duration::from_millis(5) { 50 } else { 1 };
    let mut ours = Duration::MAX;
    let text = least(seconds, || {
        ours = (0..row).map(|_| host.time(mine)).fold(ours, Duration::min);
        text(row, theirs)
    });
    (text, ours)
}

/// The boards that speed is measured on whose name has this part in it, so long each. Both sides must answer alike.
pub fn table(seconds: Duration, part: &str) {
    println!("{}\n\n| board | text, ns | library, ns | times as fast |\n|---|--:|--:|--:|", heading());
    for (name, case) in boards::bench::boards().into_iter().filter(|(name, _)| name.contains(part)) {
        assert_eq!(outcome(&case), Ok(filled::play::outcome(&case)), "{name}");
        let (text, ours) = both(&case, seconds);
        println!("| {name} | {} | {} | {:.1} |", text.as_nanos(), ours.as_nanos(), text.as_secs_f64() / ours.as_secs_f64());
    }
}

/// Where the scratch may start within a page, by steps of 16 bytes, as an allocator gives it: first the words, then the floats.
fn placements() -> Vec<[usize; 2]> {
    let steps = || (0..PAGE).step_by(4);
    steps().map(|later| [later, 0]).chain(steps().map(|later| [0, later])).collect()
}

/// The boards whose name has this part in it, so long each and five rounds at least: how long a call takes at each placement, by how long it takes
/// at the first, timed just before it, so that a busy host slows both. Of each placement the middle of all rounds; printed are the best and the worst.
pub fn places(seconds: Duration, part: &str) {
    println!("{}\n\n| board | rounds | best placement | worst | words, floats later |\n|---|--:|--:|--:|---|", heading());
    for (name, case) in boards::bench::boards().into_iter().filter(|(name, _)| name.contains(part)) {
        let mut host = host(&case);
        let once = host.time(own);
        let (clock, row) = (clock(once), (200_000 / (once.as_nanos() + 1)).clamp(1, 50));
        let mut least_at = |place| {
            host.place(place);
            (0..row).map(|_| host.time(clock)).min().unwrap_or_default().as_secs_f64()
        };
        let mut at = placements().into_iter().map(|place| (place, Vec::new())).collect::<Vec<_>>();
        let (begun, mut rounds) = (wall(), 0);
        while rounds < 5 || wall() - begun < seconds {
            at.iter_mut().for_each(|(place, times)| times.push(1.0 / (least_at([0, 0]) / least_at(*place))));
            rounds += 1;
        }
        let mut middles = at.into_iter().map(|(place, times)| (middle(times), place)).collect::<Vec<_>>();
        middles.sort_by(|a, b| a.0.total_cmp(&b.0));
        let ((best, _), (worst, place)) = (middles[0], middles[middles.len() - 1]);
        println!("| {name} | {rounds} | {best:.2} | {worst:.2} | {place:?} |");
    }
}

/// The middle one.
fn middle(mut times: Vec<f64>) -> f64 {
    times.sort_by(f64::total_cmp);
    times[times.len() / 2]
}

/// The case with an area a byte short, which is refused after all tests, and the case with no hot ids, where nothing is filled.
fn less(case: &Case) -> [Case; 2] {
    let (mut short, mut cold) = (case.clone(), case.clone());
    short.events.truncate(case.room().events - 1);
    if let Call::Equalize(ask) = &mut cold.call {
        ask.hot.clear();
    }
    [short, cold]
}

/// What of the library's time is for the refusals, for the clearing, and for the rest.
pub fn parts(seconds: Duration) {
    println!("{}\n\n| board | refusals, ns | clearing, ns | the rest, ns |\n|---|--:|--:|--:|", heading());
    for (name, case) in boards::bench::boards() {
        let ([short, cold], whole) = (less(&case).map(|case| ours(&case, seconds)), ours(&case, seconds));
        let parts = [short, cold.saturating_sub(short), whole.saturating_sub(cold)].map(|part| part.as_nanos());
        println!("| {name} | {} | {} | {} |", parts[0], parts[1], parts[2]);
    }
}

/// What of the library's time is for the refusals on hubs of more and more links, so long each.
pub fn hubs(seconds: Duration) {
    println!("{}\n\n| the hub's links | refusals, ns | by link, ns | the whole call, ns | share |\n|--:|--:|--:|--:|--:|", heading());
    for case in boards::bench::full_hubs() {
        let (links, [short, _]) = (case.board.ids.len() - 1, less(&case));
        let [refusals, whole] = [&short, &case].map(|case| ours(case, seconds));
        let (by_link, share) = (refusals.as_nanos() as f64 / links as f64, 100.0 * refusals.as_secs_f64() / whole.as_secs_f64());
        println!("| {links} | {} | {by_link:.2} | {} | {share:.1} % |", refusals.as_nanos(), whole.as_nanos());
    }
}

/// All that is read of a board, added up once.
fn sum(board: &Board, hot: &[u32]) -> u32 {
    let words = [&board.ids, &board.mixtures, &board.starts, &board.neighbours, hot]
        .map(|table: &[u32]| table.iter().fold(0, |s: u32, &x| s.wrapping_add(x)));
    let bytes = [&board.flags, &board.planetary, &board.link_flags, &board.immutable]
        .map(|table| table.iter().fold(0, |s: u32, &x| s.wrapping_add(x.into())));
    let gas = board.amounts.iter().sum::<f32>();
    words.into_iter().chain(bytes).fold(gas.to_bits(), u32::wrapping_add)
}

/// The least time of reading each table once.
fn reading(case: &Case, seconds: Duration) -> Duration {
    let Call::Equalize(ask) = &case.call else { panic!("a case of equalize") };
    let again = 1 + 10_000 / (case.board.ids.len() + case.board.neighbours.len()) as u32;
    let pass = || {
        let begun = wall();
        let sums = (0..again).fold(0, |sums: u32, _| sums.wrapping_add(sum(black_box(&case.board), &ask.hot)));
        black_box(sums);
        wall() - begun
    };
    least(seconds, pass) / again
}

/// What the library's call costs on growing boards, so long each; prints a table, and answers what a picture needs.
pub fn cost(seconds: Duration) -> Vec<Family> {
    println!(
        "{}\n\n| boards | turfs | links | library, ns | a turf or link, ns | reading each table once, ns |\n|---|--:|--:|--:|--:|--:|",
        heading()
    );
    let mut families = Vec::new();
    for (name, cases) in sized() {
        let mut points = Vec::new();
        for case in cases {
            let (turfs, links) = (case.board.ids.len(), case.board.neighbours.len());
            let (ours, read) = (ours(&case, seconds), reading(&case, seconds / 4));
            println!("| {name} | {turfs} | {links} | {} | {} | {} |", ours.as_nanos(), ours.as_nanos() as usize / (turfs + links), read.as_nanos());
            points.push(Point { turfs, links, cost: ours, read });
        }
        families.push(Family { name, points });
    }
    families
}
