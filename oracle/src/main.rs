//! Prints answers of the original for stated inputs, as calls on memory that is lent.
//!
//! oracle SET: the answers of that set. oracle wrong: wrong ones. oracle expected: what the replay of all sets prints. oracle counts: how
//! many calls and answers each set has. oracle lines FOLDER: writes the stored inputs of the line program to a folder, and what it must
//! print for each. oracle differences: holds the original to what
//! docs/DIFFERENCES.md says of it, status 1 where that is wrong.

mod cases;
mod chooser_sets;
mod difference_claims;
mod differences;
mod handmade;
mod handmade_choosers;
mod handmade_orders;
mod handmade_sets;
mod handmade_slots;
mod hash_sets;
mod line_bounds;
mod line_sets;
mod order_sets;
mod reservoir_sets;
mod round_sets;
mod slot_sets;
mod wrong_answers;

use std::io::Write;
use std::path::Path;

use cases::Case;
use oracle::{layer_apply, splitmix64, Draws, Told};

/// Keys that show a slip in the key schedule: nothing set, the lowest bit, the lowest bit of the high half, all.
const KEYS: [u64; 4] = [0, 1, 1 << 32, u64::MAX];

/// None, as the library's C functions give it where an answer is below 2^63.
const NONE: u64 = 1 << 63;

/// An answer as they give it: itself, none, or 2^63 + c for refusal c.
fn coded(said: Told<Option<u64>>) -> u64 {
    match said {
        Ok(number) => number.unwrap_or(NONE),
        Err(c) => NONE + u64::from(c),
    }
}

/// What a call with no number to say says, as they give it.
fn done(said: Told<()>) -> u64 {
    coded(said.map(|()| Some(0)))
}

/// Those keys and some more.
fn keys(more: usize, draws: &mut Draws) -> Vec<u64> {
    let mut keys = KEYS.to_vec();
    keys.extend((0..more).map(|_| draws.next()));
    keys
}

/// `splitmix64 v`.
fn mix() -> Vec<Case> {
    let mut inputs = vec![0, u64::MAX, 54387634019, 0x9E37_79B9_7F4A_7C15];
    inputs.extend((0..64).map(|bit| 1u64 << bit));
    inputs.extend((0..64).map(|bit| u64::MAX << bit));
    let mut draws = Draws(1);
    inputs.extend((0..368).map(|_| draws.next()));
    inputs
        .iter()
        .map(|&v| Case::of("splitmix64", &[v], splitmix64(v)))
        .collect()
}

/// The inputs of a layer to try: all where there are few, else the first, the last and others.
fn inputs(size: u64, draws: &mut Draws) -> Vec<u64> {
    if size <= 16 {
        return (0..size).collect();
    }
    let mut chosen = vec![0, 1, size / 4 - 1, size / 4, size - 2, size - 1];
    chosen.extend((0..6).map(|_| draws.below(size)));
    chosen
}

fn layer_case(name: &'static str, layer: u32, key: u64, x: u64, said: u64) -> Case {
    Case::of(name, &[key, layer.into(), x], said)
}

fn layers() -> Vec<Case> {
    let mut draws = Draws(2);
    let mut cases = Vec::new();
    for layer in 0..15u32 {
        for key in keys(4, &mut draws) {
            for x in inputs(1 << (2 * layer + 2), &mut draws) {
                let y = layer_apply(layer, key, x as u32);
                cases.push(layer_case("layer_apply", layer, key, x, y.into()));
                cases.push(layer_case("layer_invert", layer, key, y.into(), x));
            }
        }
    }
    cases
}

/// Refusal 12 of a layer and of its inverse, by the documents, since the original tests neither the layer nor the input and has no inverse.
fn layer_refusals() -> Vec<Case> {
    let refused = coded(Err(12));
    let mut cases = Vec::new();
    let mut refuses = |layer: u32, key, x: u64| {
        for name in ["layer_apply", "layer_invert"] {
            cases.push(layer_case(name, layer, key, x, refused));
        }
    };
    for key in KEYS {
        for layer in [15, 16, 31, 1 << 31, u32::MAX] {
            for x in [0, 1, u32::MAX.into()] {
                refuses(layer, key, x);
            }
        }
        for layer in 0..15u32 {
            let size = 1u64 << (2 * layer + 2);
            for x in [size, size + 1, u32::MAX.into()] {
                refuses(layer, key, x);
            }
        }
    }
    cases
}

fn refusals() -> Vec<Case> {
    [
        layer_refusals(),
        hash_sets::refusals(),
        order_sets::refusals(),
    ]
    .concat()
}

/// A set's name, where its answers are from, and its cases.
type Set = (&'static str, &'static str, fn() -> Vec<Case>);

const ORIGINAL: &str = "consistent-choose-k of github/rust-gems 9804c5bc17, built in release";

const ORIGINAL_UNDONE: &str =
    "consistent-choose-k of github/rust-gems 9804c5bc17, built in release; \
    a layer's inverse takes its output back to the input";

const ORIGINAL_AND_PLACES: &str =
    "consistent-choose-k of github/rust-gems 9804c5bc17, built in release; \
    a place is a location's position in its iterator";

const ORIGINAL_IN_LISTS: &str =
    "consistent-choose-k of github/rust-gems 9804c5bc17, built in release; \
    refusal 4 is document 01's, for a list shorter than what the original ends with";

const ORIGINAL_IN_TABLES: &str =
    "consistent-choose-k of github/rust-gems 9804c5bc17, built in release; \
    refusals and the table's bytes are document 01's";

const ORIGINAL_IN_ROUNDS: &str =
    "consistent-choose-k of github/rust-gems 9804c5bc17, built in release: sample, exchange and slot; \
    refusals, a location's state, which deleted slot joins and the table's bytes are document 01's";

const SETS: [Set; 13] = [
    ("mix", ORIGINAL, mix),
    ("layers", ORIGINAL_UNDONE, layers),
    ("hashes", ORIGINAL, hash_sets::hashes),
    (
        "rising_starts",
        "document 02, §4, by the hashes that the original's falling walk from 2^63 gives, since the original's rising walk skips these starts",
        hash_sets::rising_starts,
    ),
    ("orders", ORIGINAL_AND_PLACES, order_sets::orders),
    ("reservoirs", ORIGINAL_IN_LISTS, reservoir_sets::reservoirs),
    (
        "refusals",
        "documents 01 and 02, since the original does not refuse",
        refusals,
    ),
    (
        "handmade",
        "document 01, since the original keeps its memory to itself",
        handmade_sets::handmade,
    ),
    ("choosers", ORIGINAL_IN_LISTS, chooser_sets::choosers),
    ("slots", ORIGINAL_IN_TABLES, slot_sets::slots),
    (
        "handmade_choosers",
        "document 01, since the original keeps its memory to itself",
        handmade_choosers::handmade,
    ),
    (
        "handmade_slots",
        "document 01, since the original has no table and takes any deleted slot",
        handmade_slots::handmade,
    ),
    ("rounds", ORIGINAL_IN_ROUNDS, round_sets::rounds),
];

/// The wrong answers' file has this name.
const WRONG: &str = "wrong";

/// The lines of a file: how it was made, how it reads, and its cases or their wrong answers.
fn file(name: &str) -> Option<Vec<String>> {
    let (from, lines) = if name == WRONG {
        let all: Vec<_> = SETS.iter().flat_map(|(_, _, cases)| cases()).collect();
        let from = "Answers of the other files, each with a bit changed: the library must agree with none.";
        (from.to_string(), wrong_answers::lines(&all))
    } else {
        let (_, from, cases) = SETS.iter().find(|(set, _, _)| *set == name)?;
        (format!("Answers of {from}."), cases::lines(&cases()))
    };
    let mut file = vec![format!("# {name}: made by oracle/make. {from}")];
    file.extend(cases::HOW.lines().map(|line| format!("# {line}")));
    file.extend(lines);
    Some(file)
}

/// The numbers of the lines with an answer.
fn answers(file: &[String]) -> Vec<usize> {
    let lines = (1..).zip(file).filter(|(_, line)| !line.starts_with('#'));
    lines
        .filter(|(_, line)| line.contains(" = "))
        .map(|(number, _)| number)
        .collect()
}

/// What the replay of all files prints.
fn expected() {
    for (name, _, _) in SETS {
        let compared = answers(&file(name).expect("a set")).len();
        println!("{name}: {compared} answers compared, all agree");
    }
    let answers = answers(&file(WRONG).expect("the wrong ones"));
    let wrong = answers.len() + wrong_answers::UNANSWERED.len();
    let first = answers[0];
    println!("{WRONG}: {wrong} answers compared, {wrong} differ, the first in line {first}");
}

fn counts() {
    for (name, _, cases) in SETS {
        let counts = cases()
            .iter()
            .map(Case::counts)
            .fold((0, 0), |(a, b), (c, d)| (a + c, b + d));
        println!("{name}: {} calls, {} answers", counts.0, counts.1);
    }
}

fn main() {
    let wanted = std::env::args().nth(1).unwrap_or_default();
    match wanted.as_str() {
        "expected" => expected(),
        "counts" => counts(),
        "differences" => std::process::exit(if differences::hold() { 0 } else { 1 }),
        "lines" => {
            let folder = std::env::args().nth(2).unwrap_or_default();
            line_sets::write(Path::new(&folder)).unwrap_or_else(|e| panic!("{folder}: {e}"));
        }
        name => {
            let Some(file) = file(name) else {
                let names: Vec<_> = SETS.iter().map(|(name, _, _)| *name).collect();
                let names = names.join(" | ");
                eprintln!("usage: oracle {names} | {WRONG} | expected | counts | lines FOLDER | differences");
                std::process::exit(2);
            };
            file.iter().for_each(|line| println!("{line}"));
            if name == WRONG {
                let mut out = std::io::stdout();
                out.write_all(wrong_answers::PASSED_OVER).expect("written");
            }
        }
    }
}
