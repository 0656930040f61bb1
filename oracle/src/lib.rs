//! The original, built from its own five files, with document 01's stand-in for the standard hashers.

#![allow(dead_code)]

include!(concat!(env!("OUT_DIR"), "/original.rs"));

mod choosers;
mod hashes;
mod ledgers;
mod line_faults;
mod line_runs;
mod lines;
mod orders;
mod replays;
mod reservoirs;
mod rising;
mod rounds;
mod slots;
mod stand_in;

pub use choose_k::ConsistentChooseKHasher;
pub use choosers::{Chooser, UNTOUCHED_WIDE};
pub use consistent_hash::{
    ConsistentHashIterator, ConsistentHashRevIterator, ConsistentHasher, HashSeqBuilder,
    HashSequence, ManySeqBuilder,
};
pub use consistent_permutation::{splitmix64, ConsistentPermutation};
pub use consistent_reservoir::ConsistentReservoir;
pub use hashes::{falling_digest, into_prev, next, prev, rising_digest, seq_builder};
pub use ledgers::Ledger;
pub use line_faults::{filled, long_lines, malformed_lines};
pub use line_runs::{any_lines, open_line};
pub use lines::{answer_lines, LINE_PLACES, LINE_SLOTS, LONGEST_LINE};
pub use orders::{order_digest, Order};
pub use replays::{short_open, spelt, RoundCall};
pub use reservoirs::{Reservoir, Told, UNTOUCHED};
pub use rising::{hashes_from, skips};
pub use rounds::Round;
pub use slots::{location_state, Slots, UNTOUCHED_BYTE};
pub use stand_in::{digest, Draws, StandIn};

/// The original's `layer_apply`, which is not public there, by layer instead of bits.
#[inline]
pub fn layer_apply(layer: u32, key: u64, x: u32) -> u32 {
    consistent_permutation::layer_apply(2 * layer + 2, key, x)
}
