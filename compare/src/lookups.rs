//! Trials of lookups: which slot a state gets, and which state a location has.

use oracle::{Draws, Told, UNTOUCHED_WIDE};

use crate::document_slots::{Slots, LIMIT};
use crate::slots::{any_byte, any_slots, spoil};
use crate::{differ, told, word};

/// A scratch's length for a table: what is asked for, one less, more, or any.
pub fn any_places(bytes: usize, draws: &mut Draws) -> usize {
    let asked = bytes.min(LIMIT);
    match draws.below(8) {
        0 => asked.saturating_sub(1),
        1 => asked + draws.below(4) as usize,
        2..4 => draws.below(asked as u64 + 1) as usize,
        _ => asked,
    }
}

/// What `get` and `first_active` say, and whether a refused `get` left the scratch as it was, and both what lies behind it.
fn looked_up(slots: &Slots, state: u64, places: usize) -> (Told<u32>, Option<u32>, bool) {
    let Slots { total, table } = slots;
    let mut memory = vec![UNTOUCHED_WIDE; places + 2];
    let got = proved::slots_get(state, *total, table, &mut memory[..places]);
    let free = if got.is_ok() { places } else { 0 };
    let kept = memory[free..].iter().all(|&x| x == UNTOUCHED_WIDE);
    let first = proved::first_active(state, *total, table, &mut memory[..places]);
    let kept = kept && memory[places..] == [UNTOUCHED_WIDE; 2];
    (told(got), first, kept)
}

/// How many slots a lookup is among: few, some hundreds, now and then thousands or the most; and how many of 100 are deleted.
fn any_part(draws: &mut Draws) -> (u64, u64) {
    let total = match draws.below(4096) {
        0 => return (LIMIT as u64 - draws.below(2), draws.below(95)),
        1..16 => draws.below(4097),
        16..256 => draws.below(300),
        _ => draws.below(71),
    };
    let percent = match draws.below(4) {
        0 => 100,
        1 => 90,
        _ => draws.below(101),
    };
    (total, percent)
}

/// Slots with a part of them deleted, often all but one.
fn partly_deleted(draws: &mut Draws) -> Slots {
    let (total, percent) = any_part(draws);
    let mut table: Vec<u8> = (0..total)
        .map(|_| (draws.below(100) >= percent).into())
        .collect();
    if draws.below(8) != 0 && total != 0 {
        table[draws.below(total) as usize] = 1;
    }
    let bytes = match draws.below(1024) {
        0 => LIMIT as u64 + draws.below(3),
        _ => total + draws.below(3) * draws.below(4),
    };
    table.resize_with(bytes as usize, || any_byte(draws));
    let total = total as u32;
    Slots { total, table }
}

/// Looks up any state in a scratch of any length. `expected` says what `get` and `first_active` are held to.
fn compared(
    slots: &Slots,
    draws: &mut Draws,
    expected: impl Fn(u64, usize) -> (Told<u32>, Option<u32>),
) -> Option<String> {
    let (state, places) = (word(draws), any_places(slots.table.len(), draws));
    let (got, first) = expected(state, places);
    differ(
        format_args!("{slots:?}, state {state:#x}, {places} places"),
        looked_up(slots, state, places),
        (got, first, true),
    )
}

/// Lookups beside the original's.
pub fn deleted(draws: &mut Draws) -> Option<String> {
    let slots = partly_deleted(draws);
    let theirs = oracle::Slots::with(slots.total, slots.table.clone());
    compared(&slots, draws, |state, places| {
        (
            theirs.get(state, places),
            theirs.first_active(state, places),
        )
    })
}

/// Slots made by hand, few enough for document 01's choice order.
pub fn few_slots(draws: &mut Draws) -> Slots {
    let mut slots = any_slots(draws);
    slots.table.truncate(12);
    slots.total = slots.total.min(slots.table.len() as u32);
    slots
}

/// Lookups by document 01's choice order, in slots made by hand, half of them spoilt.
pub fn handmade(draws: &mut Draws) -> Option<String> {
    let mut slots = few_slots(draws);
    if draws.below(2) == 0 {
        spoil(&mut slots, draws);
    }
    compared(&slots, draws, |state, places| {
        (slots.get(state, places), slots.first_active(state, places))
    })
}

pub fn location_state(draws: &mut Draws) -> Option<String> {
    let (key, location) = (word(draws), word(draws) as u32);
    differ(
        format_args!("key {key:#x} location {location}"),
        proved::location_state(key, location),
        oracle::location_state(key, location),
    )
}
