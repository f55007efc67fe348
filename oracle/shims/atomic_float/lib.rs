//! The part of atomic_float that the published mixture.rs uses.

use std::sync::atomic::{AtomicU32, Ordering};

#[derive(Debug)]
pub struct AtomicF32(AtomicU32);

impl AtomicF32 {
    pub fn new(value: f32) -> Self {
        Self(AtomicU32::new(value.to_bits()))
    }
    pub fn load(&self, order: Ordering) -> f32 {
        f32::from_bits(self.0.load(order))
    }
    pub fn store(&self, value: f32, order: Ordering) {
        self.0.store(value.to_bits(), order);
    }
    pub fn fetch_update(&self, set: Ordering, fetch: Ordering, mut f: impl FnMut(f32) -> Option<f32>) -> Result<f32, f32> {
        self.0.fetch_update(set, fetch, |bits| f(f32::from_bits(bits)).map(f32::to_bits)).map(f32::from_bits).map_err(f32::from_bits)
    }
}
