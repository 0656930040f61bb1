//! Trials of layers.

use oracle::Draws;
use proved::Refused;

use crate::{differ, word};

/// An input of a layer: one in four stands at a boundary.
fn below(draws: &mut Draws, size: u64) -> u32 {
    let x = match draws.below(16) {
        0 => 0,
        1 => size - 1,
        2 => size / 4,
        3 => size / 4 - 1,
        _ => draws.below(size),
    };
    x as u32
}

pub fn layer_apply(draws: &mut Draws) -> Option<String> {
    let layer = draws.below(15) as u32;
    let key = word(draws);
    let x = below(draws, 1 << (2 * layer + 2));
    let theirs = oracle::layer_apply(layer, key, x);
    differ(
        format!("layer {layer} key {key:#x} x {x}"),
        proved::layer_apply(key, layer, x),
        Ok(theirs),
    )
}

/// A layer made once and applied to the first inputs, their outputs xored.
pub fn layer_xors(draws: &mut Draws) -> Option<String> {
    let layer = draws.below(15) as u32;
    let key = word(draws);
    let n = draws.below(1 << (2 * layer + 2).min(6)) as u32 + 1;
    let theirs = (0..n).fold(0, |sum, x| sum ^ oracle::layer_apply(layer, key, x));
    differ(
        format!("layer {layer} key {key:#x} over 0..{n}"),
        proved::layer_xors(key, layer, n),
        Ok(theirs),
    )
}

/// The inverse by the original's layer: it takes an output back to the input.
pub fn layer_invert(draws: &mut Draws) -> Option<String> {
    let layer = draws.below(15) as u32;
    let key = word(draws);
    let x = below(draws, 1 << (2 * layer + 2));
    let y = oracle::layer_apply(layer, key, x);
    differ(
        format!("layer {layer} key {key:#x} y {y}"),
        proved::layer_invert(key, layer, y),
        Ok(x),
    )
}

/// The same over all outputs of a layer, 0 to 6, one by one and, by a record made once, the first of them xored.
pub fn all_inputs(draws: &mut Draws) -> Option<String> {
    let layer = draws.below(7) as u32;
    let key = word(draws);
    let size = 1 << (2 * layer + 2);
    let n = draws.below(u64::from(size) + 1) as u32;
    let ys: Vec<u32> = (0..size)
        .map(|x| oracle::layer_apply(layer, key, x))
        .collect();
    let first = (0..size).filter(|&x| ys[x as usize] < n);
    let theirs = (
        (0..size).map(Ok).collect::<Vec<_>>(),
        Ok(first.fold(0, |sum, x| sum ^ x)),
    );
    let ours = (
        ys.iter()
            .map(|&y| proved::layer_invert(key, layer, y))
            .collect(),
        proved::input_xors(key, layer, n),
    );
    differ(
        format!("layer {layer} key {key:#x}, and over 0..{n}"),
        ours,
        theirs,
    )
}

/// By the documents, since the original tests neither the layer nor the input, and has no inverse.
pub fn refusals(draws: &mut Draws) -> Option<String> {
    let key = word(draws);
    let (layer, x) = if draws.below(2) == 0 {
        ((word(draws) as u32).max(15), word(draws) as u32)
    } else {
        let layer = draws.below(15) as u32;
        (layer, (word(draws) as u32).max(1 << (2 * layer + 2)))
    };
    let n = x.saturating_add(1);
    differ(
        format!("layer {layer} key {key:#x} number {x}, and over 0..{n}"),
        [
            proved::layer_apply(key, layer, x),
            proved::layer_invert(key, layer, x),
            proved::layer_xors(key, layer, n),
            proved::input_xors(key, layer, n),
        ],
        [Err(Refused(12)); 4],
    )
}
