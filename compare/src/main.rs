//! The proved library against the original on random and boundary inputs, and against the documents on memory made by hand and from
//! where the original's rising walk skips its start; the proved line program against one over the original's types. compare [N]: N
//! million inputs (default 1). Prints the first difference with its input, and ends with status 1.

mod choosers;
mod document;
mod document_choosers;
mod document_rounds;
mod document_slots;
mod hashes;
mod layers;
mod lines;
mod lookups;
mod orders;
mod reservoirs;
mod round_ledgers;
mod round_replays;
mod rounds;
mod sides;
mod slots;
mod words;

use std::fmt::{Debug, Display};

use oracle::{Draws, Told};
use proved::Refused;

/// Tries one input: nothing where both agree, else the input and both answers.
type Trial = fn(&mut Draws) -> Option<String>;

/// A call, how many of 100 inputs go to it, and the trial.
const CALLS: [(&str, u64, Trial); 42] = [
    ("wrapping_mul", 1, words::wrapping_mul),
    ("rotate_right", 1, words::rotate_right),
    ("splitmix64", 1, words::splitmix64),
    ("layer_apply", 4, layers::layer_apply),
    ("KeyedLayer, over 0..n", 2, layers::layer_xors),
    ("layer_invert", 2, layers::layer_invert),
    ("layers, refusals", 2, layers::refusals),
    ("seq_builder", 1, hashes::seq_builder),
    ("prev", 6, hashes::prev),
    ("into_prev", 2, hashes::into_prev),
    ("next", 6, hashes::next),
    ("falling walk, step by step", 2, hashes::falling_steps),
    ("rising walk, step by step", 2, hashes::rising_steps),
    ("falling walk, digested", 1, hashes::falling_digest),
    ("rising walk, digested", 1, hashes::rising_digest),
    ("hashes, refusals", 2, hashes::refusals),
    ("orders, step by step", 6, orders::steps),
    ("orders, digested", 2, orders::digest),
    ("orders made by hand", 4, orders::handmade),
    ("orders, refusals", 1, orders::refusals),
    ("place", 1, orders::place),
    ("place, refusals", 1, orders::place_refusals),
    ("reservoirs, opened and followed", 6, reservoirs::histories),
    ("reservoirs made by hand", 4, reservoirs::handmade),
    ("reservoirs, refusals", 1, reservoirs::refusals),
    ("choosers, made and followed", 7, choosers::histories),
    ("new_with_k, by S(k, n)", 2, choosers::samples),
    ("choosers made by hand", 4, choosers::handmade),
    ("choosers, refusals", 1, choosers::refusals),
    ("slots, one deleted at most", 3, slots::single),
    ("slots made by hand", 4, slots::handmade),
    ("get and first_active", 5, lookups::deleted),
    ("the same in slots made by hand", 2, lookups::handmade),
    ("location_state", 1, lookups::location_state),
    ("rounds, opened and followed", 2, rounds::histories),
    ("rounds made by hand", 1, rounds::handmade),
    ("rounds, refusals", 1, rounds::refusals),
    ("rounds, by the ledger", 1, round_ledgers::ledger),
    ("rounds, what a change moves", 1, round_ledgers::moves),
    ("rounds, replayed", 1, round_replays::replays),
    (
        "the original's, by the ledger",
        1,
        round_ledgers::original_ledger,
    ),
    (
        "the original's, what moves",
        1,
        round_ledgers::original_moves,
    ),
];

/// What is compared besides, and how many inputs of it to a million of those. The program has a process of its own for each input, so few
/// of them.
const BESIDES: [(&str, u64, Trial); 4] = [
    ("the line program, whole inputs", 200, lines::inputs),
    ("layer_invert, all of a layer", 1_000, layers::all_inputs),
    (
        "rising, where the original skips its start",
        10_000,
        hashes::skipped_starts,
    ),
    ("rising walks made by hand", 10_000, hashes::rising_handmade),
];

fn main() {
    let millions: u64 = match std::env::args().nth(1) {
        None => 1,
        Some(word) => word.parse().unwrap_or_else(|_| {
            eprintln!("usage: compare [MILLIONS]");
            std::process::exit(2);
        }),
    };
    let calls = CALLS.map(|(name, share, trial)| (name, 10_000 * share, trial));
    for (place, (name, inputs, trial)) in calls.into_iter().chain(BESIDES).enumerate() {
        let count = millions * inputs;
        // Other numbers for each call and for each length of run.
        let mut draws = Draws(((place as u64) << 48) + count);
        for turn in 0..count {
            if let Some(difference) = trial(&mut draws) {
                println!("{name}: input {turn} differs: {difference}");
                std::process::exit(1);
            }
        }
        println!("{name}: {count} inputs compared, none differs");
    }
}

/// A word: one in four stands at a boundary.
fn word(draws: &mut Draws) -> u64 {
    match draws.below(16) {
        0 => 0,
        1 => u64::MAX,
        2 => 1 << draws.below(64),
        3 => u64::MAX >> draws.below(64),
        _ => draws.next(),
    }
}

/// A refusal as the oracle has it.
fn told<T>(said: Result<T, Refused>) -> Told<T> {
    said.map_err(|Refused(c)| c)
}

fn differ<T: PartialEq + Debug>(input: impl Display, ours: T, theirs: T) -> Option<String> {
    (ours != theirs).then(|| format!("{input}: proved {ours:?}, expected {theirs:?}"))
}
