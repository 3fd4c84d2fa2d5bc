//! The recalls and withdrawals that a repository knows of.

use crate::values::{BatchKey, Gtin};
use rustc_hash::FxHashMap;
use std::hash::Hash;

/// The smallest stamp of a recall of each batch, and of a withdrawal of each product.
#[derive(Default)]
pub struct Stops {
    recalls: FxHashMap<BatchKey, u32>,
    withdrawals: FxHashMap<Gtin, u32>,
}

impl Stops {
    /// Notes a recall: whether it is the first of its batch.
    pub fn add_recall(&mut self, batch: BatchKey, stamp: u32) -> bool {
        add(&mut self.recalls, batch, stamp)
    }

    /// Notes a withdrawal: whether it is the first of its product.
    pub fn add_withdrawal(&mut self, gtin: Gtin, stamp: u32) -> bool {
        add(&mut self.withdrawals, gtin, stamp)
    }

    /// How many batches are recalled.
    #[cfg(feature = "threads")]
    pub fn recalled(&self) -> usize {
        self.recalls.len()
    }

    /// Whether a batch is recalled.
    pub fn is_recalled(&self, batch: &BatchKey) -> bool {
        self.recalls.contains_key(batch)
    }

    /// Whether a product is withdrawn.
    pub fn is_withdrawn(&self, gtin: Gtin) -> bool {
        self.withdrawals.contains_key(&gtin)
    }

    /// Whether a recall of a batch has a smaller stamp.
    pub fn is_recalled_before(&self, batch: &BatchKey, stamp: u32) -> bool {
        self.recalls.get(batch).is_some_and(|first| *first < stamp)
    }

    /// Whether a withdrawal of a product has a smaller stamp.
    pub fn is_withdrawn_before(&self, gtin: Gtin, stamp: u32) -> bool {
        self.withdrawals.get(&gtin).is_some_and(|first| *first < stamp)
    }
}

/// Keeps a stamp where it is the smallest of its key: whether it is.
fn add<K: Eq + Hash>(stamps: &mut FxHashMap<K, u32>, key: K, stamp: u32) -> bool {
    let first = stamps.entry(key).or_insert(u32::MAX);
    let is_first = stamp < *first;
    *first = stamp.min(*first);
    is_first
}
