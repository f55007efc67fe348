//! The proved library, called as a host calls it, with canaries around every area that it is lent.

use boards::guarded::{Guarded, Lent};
use boards::outcome::bits;
use boards::{Board, Breach, Call, Case, Equalize, Outcome, Walk, call};
use std::time::Duration;

pub mod bench;
pub mod judge;
pub mod payloads;
pub mod picture;
pub mod stack;

boards::calls! {
    fn katmos_equalize(amounts: *mut f32, amounts_len: usize, hot: *const u32, hot_len: usize, turns: *const u32, turns_len: usize, threshold: f32, limit: u32, allowance: u32);
    fn katmos_depressurize(amounts: *mut f32, amounts_len: usize, id: u32, limit: u32, arrows: u32);
    fn katmos_planet_walk(amounts: *const f32, amounts_len: usize, id: u32, limit: u32);
}

unsafe extern "C" {
    fn katmos_read_event(events: *const u8, events_len: usize, offset: u32, answer: *mut u32) -> u32;
    fn katmos_write_event(kind: u32, f0: u32, f1: u32, f2: u32, f3: u32, events: *mut u8, events_len: usize, offset: u32, answer: *mut u32) -> u32;
}

fn equalize(board: &Board, ask: &Equalize, lent: &mut Lent) -> u32 {
    let (hot, turns) = (&ask.hot, &ask.turns);
    call!(katmos_equalize, board, lent, *mut f32, hot.as_ptr(), hot.len(), turns.as_ptr(), turns.len(), ask.threshold, ask.limit, ask.allowance)
}

fn depressurize(board: &Board, breach: &Breach, lent: &mut Lent) -> u32 {
    call!(katmos_depressurize, board, lent, *mut f32, breach.id, breach.limit, breach.arrows)
}

fn planet_walk(board: &Board, walk: &Walk, lent: &mut Lent) -> u32 {
    call!(katmos_planet_walk, board, lent, *const f32, walk.id, walk.limit)
}

/// What the library answers and leaves; `Err` says which promise of the boundary broke.
pub fn outcome(case: &Case) -> Result<Outcome, &'static str> {
    let (board, mut lent) = (case.board.clone(), Lent::new(case, case.refused(0).answer.len()));
    let number = match &case.call {
        Call::Equalize(ask) => equalize(&board, ask, &mut lent),
        Call::Depressurize(breach) => depressurize(&board, breach, &mut lent),
        Call::PlanetWalk(walk) => planet_walk(&board, walk, &mut lent),
    };
    lent.outcome(number, &board, case)
}

/// How many cells of scratch a page of memory has.
pub const PAGE: usize = 1_024;

/// A host that calls `katmos_equalize` again and again, with the same gas each time.
pub struct Host<'a> {
    board: &'a Board,
    ask: &'a Equalize,
    gas: Vec<u32>,
    lent: Lent,
}

impl<'a> Host<'a> {
    /// For a case of equalize.
    pub fn new(case: &'a Case) -> Option<Self> {
        let Call::Equalize(ask) = &case.call else { return None };
        Some(Self { board: &case.board, ask, gas: bits(&case.board.amounts), lent: Lent::roomy(case, 7, PAGE) })
    }
    /// Lends the scratch from other addresses on, so many cells later than at first: words and floats.
    pub fn place(&mut self, [words, floats]: [usize; 2]) {
        self.lent.words.move_to(words);
        self.lent.floats.move_to(floats);
    }
    /// How long one call takes by a clock, the gas put back before it. Whatever stands in the scratch stays: the call clears it itself.
    pub fn time(&mut self, clock: fn() -> Duration) -> Duration {
        self.lent.amounts.area().copy_from_slice(&self.gas);
        let begun = clock();
        equalize(self.board, self.ask, &mut self.lent);
        clock() - begun
    }
}

/// `katmos_read_event`: the seven numbers.
pub fn read_event(area: &[u8], offset: u32) -> Option<Vec<u32>> {
    let mut answer = Guarded::new(&[0x5eed; 7], 0xdead_0004);
    // SAFETY: the area and its length; the answer has seven places.
    let number = unsafe { katmos_read_event(area.as_ptr(), area.len(), offset, answer.start()) };
    answer.take().filter(|answer| answer[0] == number)
}

/// `katmos_write_event`: the two numbers, and the area afterwards.
pub fn write_event(kind: u32, fields: [u32; 4], area: &[u8], offset: u32) -> Option<(Vec<u32>, Vec<u8>)> {
    let (mut answer, mut area) = (Guarded::new(&[0x5eed; 2], 0xdead_0004), Guarded::new(area, 0xa5));
    let [f0, f1, f2, f3] = fields;
    // SAFETY: the area and its length; the answer has two places.
    let number = unsafe { katmos_write_event(kind, f0, f1, f2, f3, area.start(), area.len(), offset, answer.start()) };
    let answer = answer.take().filter(|answer| answer[0] == number)?;
    Some((answer, area.take()?))
}
