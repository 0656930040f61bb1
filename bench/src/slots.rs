//! Slots: lookups with slots deleted, and whole ones, with the tests that the original does not make.

use oracle::{Draws, Slots};

use crate::{measure, measure_alone, report, report_alone};

/// How many slots, what part of them is deleted, how many are active then, and how many lookups to time.
const CASES: [(u32, &str, u32, u64); 12] = [
    (16, "none deleted", 16, 1 << 16),
    (16, "50% deleted", 8, 1 << 16),
    (16, "90% deleted", 2, 1 << 14),
    (16, "one active", 1, 1 << 14),
    (256, "none deleted", 256, 1 << 16),
    (256, "50% deleted", 128, 1 << 16),
    (256, "90% deleted", 26, 1 << 14),
    (256, "one active", 1, 1 << 7),
    (4096, "none deleted", 4096, 1 << 16),
    (4096, "50% deleted", 2048, 1 << 16),
    (4096, "90% deleted", 410, 1 << 14),
    (4096, "one active", 1, 4),
];

/// A call of its own, as the proved one is.
#[inline(never)]
pub fn get(slots: &Slots, state: u64) -> Option<u32> {
    slots.slot_of(state)
}

/// So many slots, any of them active.
pub fn any_slots(total: u32, active: u32, draws: &mut Draws) -> Slots {
    let mut table = vec![0; total as usize];
    while table.iter().filter(|&&byte| byte == 1).count() < active as usize {
        table[draws.below(total.into()) as usize] = 1;
    }
    Slots::with(total, table)
}

/// Slots as one number.
pub fn mixed(slots: impl Iterator<Item = u32>) -> u64 {
    slots.fold(0u64, |sum, slot| sum.rotate_left(1) ^ u64::from(slot))
}

/// The slots of all states, as one number.
pub fn found(states: &[u64], mut lookup: impl FnMut(u64) -> u32) -> u64 {
    mixed(states.iter().map(|&state| lookup(state)))
}

fn looking_up(what: &str, slots: &Slots, states: &[u64]) {
    let (total, table, count) = (slots.total(), &slots.table[..], states.len() as u64);
    let ours = || {
        let mut scratch = vec![0; table.len()];
        found(states, |state| {
            proved::first_active(state, total, table, &mut scratch).unwrap()
        })
    };
    let theirs = || found(states, |state| get(slots, state).unwrap());
    report(
        &format!("first_active, {total} slots, {what}"),
        measure(count, ours, theirs),
    );
    let whole = || {
        let mut scratch = vec![0; table.len()];
        found(states, |state| {
            proved::slots_get(state, total, table, &mut scratch).unwrap()
        })
    };
    report_alone(
        &format!("get with its tests, {total} slots, {what}"),
        measure_alone(count, whole),
    );
}

pub fn all() {
    let mut draws = Draws(1);
    for (total, what, active, count) in CASES {
        let slots = any_slots(total, active, &mut draws);
        let states: Vec<_> = (0..count).map(|_| draws.next()).collect();
        looking_up(what, &slots, &states);
    }
}
