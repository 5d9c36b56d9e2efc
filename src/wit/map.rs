//! Definitions by definitions.

use super::note::Stop;
use crate::scope::Definition;
use crate::shim::alloc::Global;
use crate::shim::vec::VecUsing;
use alloc::vec::Vec;
use core::hash::{Hash, Hasher};

/// No entry.
const NONE: u32 = u32::MAX;

/// A map from definitions, whose allocations can fail.
pub struct Map<'s, 'a, V> {
    all: Vec<(Definition<'s, 'a>, V)>,
    /// The numbers of the entries, by their hashes; at least half of the slots are free.
    slots: Vec<u32>,
}

/// Returns a list of this many times the same number.
pub fn filled(len: usize, value: u32) -> Result<Vec<u32>, Stop> {
    let mut all = Vec::with_capacity_using(Global, len)?;
    (0..len).try_for_each(|_| all.push_using(value))?;
    Ok(all)
}

impl<V> Default for Map<'_, '_, V> {
    fn default() -> Self {
        Self { all: Vec::new(), slots: Vec::new() }
    }
}

/// The hash of Fowler, Noll and Vo.
struct Fold(u64);

impl Hasher for Fold {
    fn write(&mut self, bytes: &[u8]) {
        for byte in bytes {
            self.0 = (self.0 ^ u64::from(*byte)).wrapping_mul(0x100_0000_01b3);
        }
    }

    fn finish(&self) -> u64 {
        self.0
    }
}

impl<'s, 'a, V: Copy> Map<'s, 'a, V> {
    /// Returns the slot of a definition, or the one for it.
    fn slot(&self, of: Definition<'s, 'a>) -> usize {
        let mut hash = Fold(0xcbf2_9ce4_8422_2325);
        of.hash(&mut hash);
        let last = self.slots.len() - 1;
        let mut slot = (hash.finish() >> 32) as u32 as usize & last;
        while self.slots[slot] != NONE && self.all[self.slots[slot] as usize].0 != of {
            slot = (slot + 1) & last;
        }
        slot
    }

    pub fn get(&self, of: Definition<'s, 'a>) -> Option<V> {
        if self.slots.is_empty() {
            return None;
        }
        match self.slots[self.slot(of)] {
            NONE => None,
            number => Some(self.all[number as usize].1),
        }
    }

    pub fn values(&self) -> impl Iterator<Item = V> {
        self.all.iter().map(|(_, value)| *value)
    }

    /// Inserts a value, unless there is one.
    pub fn insert(&mut self, of: Definition<'s, 'a>, value: V) -> Result<(), Stop> {
        if self.slots.len() <= 2 * self.all.len() {
            self.grow()?;
        }
        let slot = self.slot(of);
        if self.slots[slot] == NONE {
            let number = u32::try_from(self.all.len()).or(Err(Stop::NoMemory))?;
            self.all.push_using((of, value)).or(Err(Stop::NoMemory))?;
            self.slots[slot] = number;
        }
        Ok(())
    }

    fn grow(&mut self) -> Result<(), Stop> {
        let len = (4 * self.all.len()).max(8).next_power_of_two();
        self.slots = filled(len, NONE)?;
        for number in 0..self.all.len() {
            let slot = self.slot(self.all[number].0);
            self.slots[slot] = number as u32;
        }
        Ok(())
    }
}
