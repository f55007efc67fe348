//! What equalize is asked, and how depressurize draws its arrows.

/// What equalize is asked.
#[derive(Clone, Copy, Debug, PartialEq)]
pub struct Ask<'a> {
    /// The ids to begin at, strictly ascending; one that no turf has is passed over.
    pub hot: &'a [u32],
    /// Which of the unfinished zones finishes its next turf; none: zone after zone.
    pub turns: &'a [u32],
    /// A hot turf whose neighbours are all nearer than this is passed over.
    pub threshold: f32,
    /// A zone with a planetary turf ends after so many turfs.
    pub limit: u32,
    /// How many clock tests may be made.
    pub allowance: u32,
}

impl Default for Ask<'_> {
    /// No hot turf, no turns, and limits that end nothing early.
    fn default() -> Self {
        Ask { hot: &[], turns: &[], threshold: 0.5, limit: u32::MAX, allowance: u32::MAX }
    }
}

/// Where the arrows of depressurize's pressure differences ([`Event::Difference`](crate::Event::Difference)) run.
#[derive(Clone, Copy, Debug, Default, PartialEq, Eq)]
pub enum Arrows {
    /// From a turf to itself, as the original Rust has it.
    #[default]
    AsText = 0,
    /// From a turf to the next one on its way to space. Where that is space itself, a second record with the same arrow is the space's.
    ToSpace = 1,
}
