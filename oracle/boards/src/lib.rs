//! Boards as document 01 lends them to a call, and what a call leaves in them. Written from the document alone: nothing here calls the
//! Rust text or the port.

pub mod bench;
pub mod case;
pub mod clock;
pub mod events;
pub mod families;
pub mod faults;
pub mod guarded;
pub mod limits;
pub mod model;
pub mod outcome;
pub mod paper;
pub mod random;
pub mod refusal;
pub mod scratch;
pub mod shapes;
pub mod vectors;

pub use case::{Board, Breach, Call, Case, Equalize, Room, Walk};
pub use events::Event;
pub use outcome::{Outcome, Played, Zone};
