//! Trials of orders.

use oracle::{Draws, Order, UNTOUCHED};
use proved::Refused;

use crate::document::{order_next, size};
use crate::sides::with_rest;
use crate::{differ, told, word};

/// The largest n.
pub const LIMIT: u32 = 1 << 30;

/// An n up to the limit: small, at a power of four or one off, or of any length.
pub fn any_n(draws: &mut Draws) -> u32 {
    let n = match draws.below(4) {
        0 => draws.below(71),
        1 => (1 << (2 * draws.below(16))) + draws.below(3) - 1,
        _ => draws.below(1 << 30) >> draws.below(30),
    };
    (n as u32).min(LIMIT)
}

/// An n above the limit.
pub fn above_limit(draws: &mut Draws) -> u32 {
    (word(draws) as u32).max(LIMIT + 1 + draws.below(2) as u32)
}

/// Follows an order by its record: to its end and two calls more where it is short, else its first numbers.
pub fn steps(draws: &mut Draws) -> Option<String> {
    let (n, key) = (any_n(draws), word(draws));
    let calls = if n <= 70 {
        n + 2
    } else {
        draws.below(40) as u32
    };
    let mut theirs = Order::new(n, key);
    let mut ours = [UNTOUCHED; 20];
    let said = proved::order_new(key, n, &mut ours);
    differ(
        format_args!("n {n} key {key:#x}, new"),
        (said, ours),
        (Ok(()), with_rest(theirs.words(), UNTOUCHED)),
    )
    .or_else(|| {
        (0..calls).find_map(|call| {
            let said = proved::order_next(&mut ours);
            let found = theirs.next();
            differ(
                format_args!("n {n} key {key:#x}, call {call}"),
                (said, ours),
                (Ok(found), with_rest(theirs.words(), UNTOUCHED)),
            )
        })
    })
}

pub fn digest(draws: &mut Draws) -> Option<String> {
    let (n, key) = (any_n(draws), word(draws));
    let count = draws.below(100) as u32;
    differ(
        format_args!("n {n} key {key:#x}, {count} calls"),
        proved::order_digest(key, n, count),
        Ok(oracle::order_digest(n, key, count)),
    )
}

/// A place against the position in the original's order: of a location, of an n up to 100,000.
pub fn place(draws: &mut Draws) -> Option<String> {
    let n = match draws.below(4) {
        0 => 1 + draws.below(70),
        1 => (1 << (2 * draws.below(9))) + draws.below(2),
        _ => 1 + (draws.below(100_000) >> draws.below(17)),
    } as u32;
    let key = word(draws);
    let location = draws.below(n.into()) as u32;
    let theirs = Order::new(n, key).position(|x| x == location);
    differ(
        format_args!("n {n} key {key:#x} location {location}"),
        proved::place(key, n, location).map(|place| Some(place as usize)),
        Ok(theirs),
    )
}

/// By document 02: 1 comes first, then 13.
pub fn place_refusals(draws: &mut Draws) -> Option<String> {
    let (n, high, key) = (any_n(draws), above_limit(draws), word(draws));
    let (any, no_location) = (word(draws) as u32, (word(draws) as u32).max(n));
    differ(
        format_args!("n {n} or {high} key {key:#x} location {no_location} or {any}"),
        [
            proved::place(key, high, any),
            proved::place(key, n, no_location),
            proved::place(key, n, n),
            proved::place(key, 0, any),
        ],
        [1, 13, 13, 13].map(|c| Err(Refused(c))),
    )
}

/// A counter of a layer: at its ends, now and then above its size, or any.
fn counter(draws: &mut Draws, j: u32) -> u32 {
    let size = u64::from(size(j));
    let x = match draws.below(64) {
        0 => size + 1 + draws.below(2),
        1..8 => size,
        8..16 => size - 1 - draws.below(4),
        16..32 => draws.below(4),
        _ => draws.below(size),
    };
    x as u32
}

/// The next of an order made by hand: any counters.
pub fn handmade(draws: &mut Draws) -> Option<String> {
    let n = match draws.below(16) {
        0 => above_limit(draws),
        _ => any_n(draws),
    };
    let key = word(draws);
    let mut before = [key as u32, (key >> 32) as u32, n].to_vec();
    before.extend((0..15).map(|j| counter(draws, j)));
    let mut theirs: [u32; 18] = before[..].try_into().unwrap();
    // Two words more than the record has.
    let mut ours: [u32; 20] = with_rest(theirs, UNTOUCHED);
    let said = told(proved::order_next(&mut ours));
    let expected = order_next(&mut theirs);
    differ(
        format_args!("{before:?}"),
        (said, ours),
        (expected, with_rest(theirs, UNTOUCHED)),
    )
}

/// By document 01: an n above the limit, and a record shorter than its words.
pub fn refusals(draws: &mut Draws) -> Option<String> {
    let (n, high, key) = (any_n(draws), above_limit(draws), word(draws));
    let mut ours = [UNTOUCHED; 20];
    let words = draws.below(18) as usize;
    let said = [
        proved::order_new(key, high, &mut ours).err(),
        proved::order_digest(key, high, draws.below(4) as u32).err(),
        proved::order_new(key, high, &mut ours[..words]).err(),
        proved::order_new(key, n, &mut ours[..words]).err(),
        proved::order_next(&mut ours[..words]).err(),
    ];
    differ(
        format_args!("n {n} or {high} key {key:#x}, {words} words"),
        (said, ours),
        ([1, 1, 1, 4, 4].map(|c| Some(Refused(c))), [UNTOUCHED; 20]),
    )
}
