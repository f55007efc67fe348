//! The text of auxmos, unchanged, with what it leans on put around it: `turfs`, `turfs::katmos`, `gas` and `gas::constants` are the files of
//! text/, `gas::mixture` is the FILLED one in one build and the published one in the other, the rest loads boards and looks on.

pub mod gas;
pub mod play;
pub mod reaction;
pub mod turfs;
pub mod watch;

pub use gas::*;

/// The published constants, with the threshold that a call is lent in the place of the fixed one.
pub mod constants {
    pub use crate::gas::constants::*;

    pub const MINIMUM_MOLES_DELTA_TO_MOVE: crate::watch::Threshold = crate::watch::Threshold;
}
