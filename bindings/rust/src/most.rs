//! At most so many turfs, mixtures, links, gases, hot ids and turns.

pub const TURFS: usize = 4_096;
pub const MIXTURES: usize = 4_096;
pub const LINKS: usize = 24_576;
pub const GASES: usize = 64;
pub const HOT: usize = 4_096;
pub const TURNS: usize = 65_536;
/// The largest amount of a gas.
pub const AMOUNT: f32 = 1_099_511_627_776.0;
