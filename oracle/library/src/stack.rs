//! How much stack the deepest board takes: a chain of 4,096 turfs, on which finishing calls itself once for every turf.

use crate::outcome;
use beside::deepest;
use boards::{Case, Outcome};
use std::hint::black_box;
use std::thread::Builder;

const KIB: usize = 1_024;
/// What a host's thread has by default in Rust.
const THREAD: usize = 2_048 * KIB;
/// The thread that is painted, how far down, and how far below the painter's frame it starts.
const PAINTED: usize = 16_384 * KIB;
const DOWN: usize = 12_288 * KIB;
const CLEAR: usize = 8 * KIB;
const STEP: usize = 16 * KIB;
const MARK: u64 = 0x5eed_5eed_5eed_5eed;

unsafe extern "C" {
    fn fork() -> i32;
    fn waitpid(child: i32, status: *mut i32, options: i32) -> i32;
    fn close(file: i32) -> i32;
    fn _exit(status: i32) -> !;
}

/// Runs what it is given in a thread whose stack was painted before: how many bytes down it wrote.
fn used<T: Send + 'static>(run: impl FnOnce() -> T + Send + 'static) -> usize {
    let painted = move || {
        let here = black_box(0_u64);
        let top = (&raw const here).addr() & !7;
        let cells = |down: usize| std::ptr::with_exposed_provenance_mut::<u64>(top - down);
        // SAFETY: the cells are the thread's own stack, below every frame that is live.
        (CLEAR..DOWN).step_by(8).for_each(|down| unsafe { cells(down).write_volatile(MARK) });
        drop(black_box(run()));
        // SAFETY: as above.
        (CLEAR..DOWN).step_by(8).rev().find(|&down| unsafe { cells(down).read_volatile() } != MARK).unwrap_or(CLEAR)
    };
    Builder::new().stack_size(PAINTED).spawn(painted).expect("a thread").join().expect("an end")
}

/// What a call in a thread came to.
#[derive(Clone, Copy, Debug, PartialEq)]
enum End {
    AsTheText,
    Otherwise,
    Overflow,
}

/// The library's call in a thread of so many bytes: a child process tries, which says nothing when it dies.
fn end(case: &Case, due: &Outcome, bytes: usize) -> End {
    // SAFETY: no other thread runs, so the child may go on as a process of its own.
    let child = unsafe { fork() };
    if child == 0 {
        let (case, due) = (case.clone(), due.clone());
        let run = Builder::new().stack_size(bytes).spawn(move || outcome(&case).as_ref() == Ok(&due));
        // SAFETY: what the child would say is not wanted.
        unsafe { close(2) };
        let right = run.is_ok_and(|run| run.join().unwrap_or(false));
        // SAFETY: ends the child without what the parent still has to do.
        unsafe { _exit(if right { 0 } else { 1 }) };
    }
    let mut status = -1;
    // SAFETY: the status has a place.
    let ended = unsafe { waitpid(child, &mut status, 0) };
    match status {
        0 if ended == child => End::AsTheText,
        _ if ended == child && status & 0x7f != 0 => End::Overflow,
        _ => End::Otherwise,
    }
}

/// The least thread in which the call ends, in steps of 16 KiB: one of `enough` does, one of `few` doesn't.
fn least(case: &Case, due: &Outcome, few: usize, enough: usize) -> usize {
    let (mut few, mut enough) = (few / STEP, enough / STEP);
    while few + 1 < enough {
        let middle = few.midpoint(enough);
        if end(case, due, middle * STEP) == End::AsTheText {
            enough = middle;
        } else {
            few = middle;
        }
    }
    enough * STEP
}

/// Prints the figures. False: 2 MiB aren't enough, or half of what the call wrote is, so that trying shows nothing.
pub fn stack() -> bool {
    let case = deepest(4_096);
    let due = filled::play::outcome(&case);
    let (ours, text) = (case.clone(), case.clone());
    let (ours, text) = (used(move || outcome(&ours)), used(move || filled::play::play(&text)));
    println!("a chain of 4096: the library writes {ours} bytes of stack down, the text {text}");
    let ends = [THREAD, ours / 2].map(|bytes| end(&case, &due, bytes));
    println!("in a thread of {} KiB: {:?}; of {} KiB: {:?}", THREAD / KIB, ends[0], ours / 2 / KIB, ends[1]);
    let holds = ends == [End::AsTheText, End::Overflow];
    if holds {
        println!("2 MiB are enough; the least thread is {} KiB", least(&case, &due, ours / 2, THREAD) / KIB);
    }
    holds
}
