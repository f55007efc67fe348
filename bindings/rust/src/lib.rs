//! The air of a space station game, over the proved static library: [`Board::equalize`], [`Board::depressurize`] and [`Board::planet_walk`].
//!
//! A [`Board`] owns its tables and lends each call the room that it needs, so no caller writes `unsafe`. Every call is checked by the library
//! itself: an ill-formed table gets a [`Refusal`], and the board is then as it was. Boards are apart from each other: threads may play as many
//! at once as they like.
//!
//! ```
//! use katmos::{Ask, Board, Link, Mixture, Turf};
//!
//! let mixtures = vec![Mixture::of(&[32.0]), Mixture::of(&[16.0])];
//! let turfs = vec![Turf::new(10, 0, &[Link::to(20)]), Turf::new(20, 1, &[Link::to(10)])];
//! let mut board = Board::new(1, &mixtures, &turfs);
//! let answer = board.equalize(&Ask { hot: &[10], ..Ask::default() })?;
//! assert_eq!(answer.events.to_string(), "3 0 41000000 10 20\n");
//! assert_eq!(board.tables.amounts, [24.0, 24.0]);
//! # Ok::<(), katmos::Refusal>(())
//! ```
#![deny(unsafe_code)]

mod ask;
mod board;
mod calls;
mod events;
pub mod most;
#[allow(unsafe_code)]
mod raw;
mod refusal;

pub use ask::{Arrows, Ask};
pub use board::{Board, Link, Mixture, Room, Tables, Turf, ENABLED, FIRELOCK};
pub use calls::{Depressurized, Equalized, Outcome};
pub use events::{Event, Events, Reader};
pub use refusal::{LinkFault, Refusal, Span};
