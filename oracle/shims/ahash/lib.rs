//! The hasher of the published mixture.rs's visuals, which no run here calls.

pub type AHasher = std::collections::hash_map::DefaultHasher;
