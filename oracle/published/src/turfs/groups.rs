//! Excited groups, which no run here has.
