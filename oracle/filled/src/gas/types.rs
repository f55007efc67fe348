//! The gases: as many as a board says, with no visuals, no heat and no fire. A child of `gas`, so that it can load the arena.

use super::{GAS_MIXTURES, GasIDX, Mixture};
use crate::reaction::{Reaction, ReactionPriority};
use parking_lot::RwLock;
use std::collections::BTreeMap;
use std::sync::atomic::{AtomicUsize, Ordering};

static GASES: AtomicUsize = AtomicUsize::new(0);

pub struct GasType {
    pub fire_info: FireInfo,
}

#[derive(Clone, Copy)]
pub enum FireInfo {
    Oxidation(Burning),
    Fuel(Burning),
    None,
}

#[derive(Clone, Copy)]
pub struct Burning;

impl Burning {
    pub fn temperature(&self) -> f32 {
        0.0
    }
    pub fn power(&self) -> f32 {
        0.0
    }
    pub fn burn_rate(&self) -> f32 {
        0.0
    }
}

pub fn total_num_gases() -> usize {
    GASES.load(Ordering::Relaxed)
}

pub fn gas_visibility(_gas: GasIDX) -> Option<f32> {
    None
}

pub fn gas_idx_to_id(_gas: GasIDX) -> byondapi::ByondValue {
    byondapi::ByondValue::Null
}

pub fn with_specific_heats<T>(f: impl FnOnce(&[f32]) -> T) -> T {
    f(&[0.0; 64][..total_num_gases()])
}

pub fn with_reactions<T>(f: impl FnOnce(&BTreeMap<ReactionPriority, Reaction>) -> T) -> T {
    f(&BTreeMap::new())
}

pub fn with_gas_info<T>(f: impl FnOnce(&[GasType]) -> T) -> T {
    f(&[])
}

/// Puts a board's mixtures into the arena, in order.
pub fn load(gases: usize, immutable: &[u8], amounts: &[f32]) {
    GASES.store(gases, Ordering::Relaxed);
    let mixture = |(amounts, &immutable): (&[f32], &u8)| {
        let mut mixture = Mixture::new();
        amounts.iter().enumerate().for_each(|(gas, &amount)| mixture.set_moles(gas, amount));
        if immutable != 0 {
            mixture.mark_immutable();
        }
        RwLock::new(mixture)
    };
    *GAS_MIXTURES.write() = Some(amounts.chunks(gases).zip(immutable).map(mixture).collect());
}

/// The amounts of every mixture, G each.
pub fn amounts() -> Vec<f32> {
    let gases = total_num_gases();
    let lock = GAS_MIXTURES.read();
    let mixtures = lock.as_ref().unwrap().iter();
    mixtures.flat_map(|mixture| (0..gases).map(|gas| mixture.read().get_moles(gas)).collect::<Vec<_>>()).collect()
}
