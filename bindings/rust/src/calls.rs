//! The three calls.

use crate::ask::{Arrows, Ask};
use crate::board::{Board, Room};
use crate::events::Events;
use crate::raw::{self, Areas};
use crate::refusal::{explain, Refusal};

/// What equalize came to.
#[derive(Clone, Debug, PartialEq)]
pub struct Equalized {
    pub cancelled: bool,
    pub processed: u32,
    pub tests: u32,
    pub zones: u32,
    pub apart: bool,
    pub events: Events,
}

/// How depressurize ended.
#[derive(Clone, Copy, Debug, PartialEq, Eq)]
pub enum Outcome {
    /// No turf has this id, or there is no space within the limit.
    NoSpace = 0,
    /// A planetary turf was met.
    Planet = 1,
    /// The rooms are empty.
    Vented = 2,
}

/// What depressurize came to.
#[derive(Clone, Debug, PartialEq)]
pub struct Depressurized {
    pub outcome: Outcome,
    pub events: Events,
}

/// More turfs than this, and equalize gets a thread of its own: its recursion may be as deep as the board.
const IN_PLACE: usize = 64;
/// The stack of that thread. The library asks for half of it.
const STACK: usize = 4 << 20;

impl Board {
    /// Evens out the gas of the rooms around the hot ones. A board of more than 64 turfs is played on a thread of its own with a stack that is
    /// large enough, whatever stack the caller has; like `std::thread::spawn` this panics where no thread can be had.
    pub fn equalize(&mut self, ask: &Ask) -> Result<Equalized, Refusal> {
        if self.tables.ids.len() <= IN_PLACE {
            return self.equalize_here(ask);
        }
        std::thread::scope(|scope| {
            let run = std::thread::Builder::new().stack_size(STACK).spawn_scoped(scope, || self.equalize_here(ask));
            run.expect("a thread for equalize").join().expect("equalize ends")
        })
    }

    /// Equalize on the caller's stack.
    fn equalize_here(&mut self, ask: &Ask) -> Result<Equalized, Refusal> {
        let mut events = self.lend(self.equalize_room());
        let areas = Areas { events: &mut events, words: &mut self.words, floats: &mut self.floats };
        let settings = (ask.threshold, ask.limit, ask.allowance);
        let [number, cancelled, processed, tests, zones, apart, bytes] = raw::equalize(&mut self.tables, ask.hot, ask.turns, settings, areas);
        self.accepted(number, Some(ask))?;
        Ok(Equalized { cancelled: cancelled != 0, processed, tests, zones, apart: apart != 0, events: Events::written(events, bytes) })
    }

    /// Empties the rooms around this turf towards space.
    pub fn depressurize(&mut self, id: u32, limit: u32, arrows: Arrows) -> Result<Depressurized, Refusal> {
        let mut events = self.lend(self.depressurize_room());
        let areas = Areas { events: &mut events, words: &mut self.words, floats: &mut self.floats };
        let [number, outcome, bytes] = raw::depressurize(&mut self.tables, id, limit, arrows as u32, areas);
        self.accepted(number, None)?;
        let outcome = match outcome {
            0 => Outcome::NoSpace,
            1 => Outcome::Planet,
            _ => Outcome::Vented,
        };
        Ok(Depressurized { outcome, events: Events::written(events, bytes) })
    }

    /// Looks for firelocks from this turf towards a planet; moves nothing.
    pub fn planet_walk(&mut self, id: u32, limit: u32) -> Result<Events, Refusal> {
        let mut events = self.lend(self.planet_walk_room());
        let areas = Areas { events: &mut events, words: &mut self.words, floats: &mut self.floats };
        let [number, bytes] = raw::planet_walk(&self.tables, id, limit, areas);
        self.accepted(number, None)?;
        Ok(Events::written(events, bytes))
    }

    /// Makes the scratch long enough, and an event area.
    fn lend(&mut self, room: Room) -> Vec<u8> {
        self.words.resize(room.words, 0);
        self.floats.resize(room.floats, 0.0);
        vec![0; room.events]
    }

    /// The refusal behind a number that isn't 0.
    fn accepted(&self, number: u32, ask: Option<&Ask>) -> Result<(), Refusal> {
        match number {
            0 => Ok(()),
            number => Err(explain(number, &self.tables, ask)),
        }
    }
}
