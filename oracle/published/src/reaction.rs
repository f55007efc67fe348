//! Reactions, which no run here has.

pub type ReactionPriority = u32;

#[derive(Debug)]
pub struct Reaction;

impl Reaction {
    pub fn check_conditions(&self, _mixture: &crate::gas::Mixture) -> bool {
        false
    }
    pub fn get_id(&self) -> u64 {
        0
    }
}
