//! The areas that a call of the proved library is lent, with canaries around each.

use crate::case::{Board, Case};
use crate::outcome::{Outcome, bits};

/// An area with canaries before and behind it.
pub struct Guarded<T> {
    cells: Vec<T>,
    canary: T,
    from: usize,
    len: usize,
}

const GUARD: usize = 16;

impl<T: Copy + PartialEq> Guarded<T> {
    pub fn new(area: &[T], canary: T) -> Self {
        Self::roomy(area, canary, 0)
    }
    /// One that can be moved by so many cells.
    pub fn roomy(area: &[T], canary: T, spare: usize) -> Self {
        let cells = [&vec![canary; GUARD], area, &vec![canary; GUARD + spare]].concat();
        Self { cells, canary, from: GUARD, len: area.len() }
    }
    /// Starts so many cells later than at first; what it holds is whatever stands there.
    pub fn move_to(&mut self, later: usize) {
        self.from = GUARD + later;
        assert!(self.from + self.len + GUARD <= self.cells.len());
    }
    pub fn len(&self) -> usize {
        self.len
    }
    pub fn start(&mut self) -> *mut T {
        self.cells[self.from..].as_mut_ptr()
    }
    /// The area, to be lent again with other cells.
    pub fn area(&mut self) -> &mut [T] {
        &mut self.cells[self.from..self.from + self.len]
    }
    /// The area; `None` where a canary died.
    pub fn take(self) -> Option<Vec<T>> {
        let end = self.from + self.len;
        let alive = self.cells[..self.from].iter().chain(&self.cells[end..]).all(|&cell| cell == self.canary);
        alive.then(|| self.cells[self.from..end].to_vec())
    }
}

/// The areas that a call is lent, guarded; amounts and floats as bits, so that a NaN is compared too.
pub struct Lent {
    pub amounts: Guarded<u32>,
    pub events: Guarded<u8>,
    pub words: Guarded<u32>,
    pub floats: Guarded<u32>,
    pub answer: Guarded<u32>,
}

fn from_bits(bits: Vec<u32>) -> Vec<f32> {
    bits.into_iter().map(f32::from_bits).collect()
}

impl Lent {
    /// What a case lends, and an answer of so many numbers.
    pub fn new(case: &Case, numbers: usize) -> Self {
        Self::roomy(case, numbers, 0)
    }
    /// The same with scratch that can be moved by so many cells.
    pub fn roomy(case: &Case, numbers: usize, spare: usize) -> Self {
        Self {
            amounts: Guarded::new(&bits(&case.board.amounts), 0xdead_0001),
            events: Guarded::new(&case.events, 0xa5),
            words: Guarded::roomy(&case.words, 0xdead_0002, spare),
            floats: Guarded::roomy(&bits(&case.floats), 0xdead_0003, spare),
            answer: Guarded::new(&vec![0x5eed; numbers], 0xdead_0004),
        }
    }
    /// What was left by a call that returned a number and was lent this copy of the case's board; `Err` says which promise of the boundary broke.
    pub fn outcome(self, number: u32, board: &Board, case: &Case) -> Result<Outcome, &'static str> {
        let outcome = self.left().ok_or("a canary died")?;
        let tables = |board: &Board| Board { amounts: Vec::new(), ..board.clone() };
        if tables(board) != tables(&case.board) {
            return Err("a table that is only read was changed");
        }
        if outcome.answer[0] != number {
            return Err("the number returned isn't the answer's");
        }
        Ok(outcome)
    }
    fn left(self) -> Option<Outcome> {
        Some(Outcome {
            answer: self.answer.take()?,
            amounts: from_bits(self.amounts.take()?),
            events: self.events.take()?,
            words: self.words.take()?,
            floats: from_bits(self.floats.take()?),
        })
    }
}

/// Declares calls of the library: what is named here stands between the tables and the areas.
#[macro_export]
macro_rules! calls {
    ($($(#[$feature:meta])* fn $name:ident($($word:ident: $kind:ty),*);)*) => {
        unsafe extern "C" {
            $($(#[$feature])* pub(crate) fn $name(
                ids: *const u32, ids_len: usize, flags: *const u8, flags_len: usize, planetary: *const u8, planetary_len: usize,
                mixtures: *const u32, mixtures_len: usize, starts: *const u32, starts_len: usize, neighbours: *const u32, neighbours_len: usize,
                link_flags: *const u8, link_flags_len: usize, immutable: *const u8, immutable_len: usize, gases: u32,
                $($word: $kind,)*
                events: *mut u8, events_len: usize, words: *mut u32, words_len: usize, floats: *mut f32, floats_len: usize, answer: *mut u32,
            ) -> u32;)*
        }
    };
}

/// Calls one of them.
#[macro_export]
macro_rules! call {
    ($function:ident, $board:expr, $lent:expr, $amounts:ty $(, $word:expr)*) => {{
        let (b, l): (&$crate::Board, &mut $crate::guarded::Lent) = ($board, $lent);
        // SAFETY: every pointer goes with the length of the vector that it was taken from, and the answer has as many places as the call fills.
        unsafe {
            $function(
                b.ids.as_ptr(), b.ids.len(), b.flags.as_ptr(), b.flags.len(), b.planetary.as_ptr(), b.planetary.len(),
                b.mixtures.as_ptr(), b.mixtures.len(), b.starts.as_ptr(), b.starts.len(), b.neighbours.as_ptr(), b.neighbours.len(),
                b.link_flags.as_ptr(), b.link_flags.len(), b.immutable.as_ptr(), b.immutable.len(), b.gases,
                l.amounts.start() as $amounts, l.amounts.len() $(, $word)*,
                l.events.start(), l.events.len(), l.words.start(), l.words.len(), l.floats.start().cast(), l.floats.len(), l.answer.start(),
            )
        }
    }};
}
