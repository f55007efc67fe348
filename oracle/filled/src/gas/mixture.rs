//! The mixture of document 01: what it marks FILLED put in the place of the published mixture.rs. G amounts that never become fewer, sums
//! from the left that start at 0, no small amount dropped, no temperature.

use super::GasIDX;
use std::sync::atomic::{AtomicBool, Ordering::Relaxed};

/// Puts the published rule back that drops amounts at or below 0.0001 where a mixture is multiplied: a run can ask whether it is all that
/// the two mixtures differ in.
pub static DROPS_SMALL: AtomicBool = AtomicBool::new(false);

#[derive(Clone, Debug, Default)]
pub struct Mixture {
    pub volume: f32,
    moles: Vec<f32>,
    immutable: bool,
}

/// Visuals are left out.
pub fn visibility_step(_amount: f32) -> u32 {
    0
}

impl Mixture {
    pub fn new() -> Self {
        Self::default()
    }
    pub fn from_vol(volume: f32) -> Self {
        Self { volume, ..Self::default() }
    }
    pub fn clear_with_vol(&mut self, volume: f32) {
        *self = Self::from_vol(volume);
    }
    pub fn mark_immutable(&mut self) {
        self.immutable = true;
    }
    pub fn is_immutable(&self) -> bool {
        self.immutable
    }
    pub fn get_temperature(&self) -> f32 {
        0.0
    }
    pub fn return_pressure(&self) -> f32 {
        0.0
    }
    pub fn enumerate(&self) -> impl Iterator<Item = (GasIDX, f32)> + '_ {
        self.moles.iter().copied().enumerate()
    }
    pub fn get_moles(&self, gas: GasIDX) -> f32 {
        self.moles[gas]
    }
    pub fn set_moles(&mut self, gas: GasIDX, amount: f32) {
        self.moles.resize(self.moles.len().max(gas + 1), 0.0);
        self.moles[gas] = amount;
    }
    pub fn copy_from_mutable(&mut self, sample: &Self) {
        if !self.immutable {
            self.moles.clone_from(&sample.moles);
        }
    }

    /// The sum of the amounts from the left.
    pub fn total_moles(&self) -> f32 {
        self.moles.iter().fold(0.0, |sum, amount| sum + amount)
    }
    /// Every amount times `by`, if the mixture can change.
    pub fn multiply(&mut self, by: f32) {
        if !self.immutable {
            self.moles.iter_mut().for_each(|amount| *amount *= by);
            if DROPS_SMALL.load(Relaxed) {
                self.moles.iter_mut().filter(|amount| **amount <= 0.0001).for_each(|amount| *amount = 0.0);
            }
        }
    }
    /// The ratio is amount / total, at 1 or more 1: copy times ratio goes, the rest times (1 - ratio) stays.
    pub fn remove(&mut self, amount: f32) -> Self {
        let ratio = amount / self.total_moles();
        let ratio = if ratio >= 1.0 { 1.0 } else { ratio };
        let mut removed = Self { immutable: false, ..self.clone() };
        removed.multiply(ratio);
        self.multiply(1.0 - ratio);
        removed
    }
    /// Amount by amount, if the mixture can change.
    pub fn merge(&mut self, giver: &Self) {
        if !self.immutable {
            self.moles.iter_mut().zip(&giver.moles).for_each(|(ours, theirs)| *ours += theirs);
        }
    }
    /// Every amount 0, if the mixture can change.
    pub fn clear(&mut self) {
        if !self.immutable {
            self.moles.fill(0.0);
        }
    }
}
