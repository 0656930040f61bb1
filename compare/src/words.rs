//! Trials of words.

use oracle::Draws;

use crate::{differ, word};

pub fn wrapping_mul(draws: &mut Draws) -> Option<String> {
    let (a, b) = (word(draws), word(draws));
    differ(
        format!("{a:#x} * {b:#x}"),
        proved::wrapping_mul(a, b),
        a.wrapping_mul(b),
    )
}

pub fn rotate_right(draws: &mut Draws) -> Option<String> {
    let (x, places) = (word(draws), word(draws) as u32);
    differ(
        format!("{x:#x} by {places}"),
        proved::rotate_right(x, places),
        x.rotate_right(places),
    )
}

pub fn splitmix64(draws: &mut Draws) -> Option<String> {
    let v = word(draws);
    differ(
        format!("{v:#x}"),
        proved::splitmix64(v),
        oracle::splitmix64(v),
    )
}
