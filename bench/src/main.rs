//! Times the proved library beside the original: the same inputs, one run, the lowest of several measurements of each.
//! bench PART: one part only (layers, words, hashes, orders, reservoirs, choosers, slots, rounds, lines); bench lengths: how many places of a
//! list are used, and nothing timed.

mod choosers;
mod hashes;
mod lengths;
mod lines;
mod orders;
mod reservoirs;
mod rounds;
mod slots;

use std::hint::black_box;
use std::time::Instant;

const REPEATS: usize = 15;

const KEY: u64 = 0xDEAD_BEEF_CAFE_F00D;

/// Nanoseconds for each of `count` items in one run.
fn timed(count: u64, side: &dyn Fn() -> u64) -> f64 {
    let start = Instant::now();
    black_box(side());
    start.elapsed().as_nanos() as f64 / count as f64
}

/// The same for both sides, the lowest of the repeats. They take turns.
fn measure(count: u64, ours: impl Fn() -> u64, theirs: impl Fn() -> u64) -> (f64, f64) {
    assert_eq!(ours(), theirs(), "the two sides work out different things");
    let mut best = [f64::MAX; 2];
    for _ in 0..REPEATS {
        for (side, time) in [&ours as &dyn Fn() -> u64, &theirs]
            .into_iter()
            .zip(&mut best)
        {
            *time = time.min(timed(count, side));
        }
    }
    (best[0], best[1])
}

/// For what the original does not do.
fn measure_alone(count: u64, ours: impl Fn() -> u64) -> f64 {
    (0..REPEATS).fold(f64::MAX, |best, _| best.min(timed(count, &ours)))
}

fn report(what: &str, (ours, theirs): (f64, f64)) {
    println!(
        "{what:<44} {ours:>8.2} {theirs:>8.2} {:>7.2}",
        ours / theirs
    );
}

fn report_alone(what: &str, ours: f64) {
    println!("{what:<44} {ours:>8.2}");
}

/// How two of our own compare.
fn report_ratio(what: &str, ratio: f64) {
    println!("{what:<44} {:>8} {:>8} {ratio:>7.2}", "", "");
}

#[inline(never)]
fn layer_xors(layer: u32, key: u64, n: u32) -> u64 {
    (0..n).fold(0, |sum, x| {
        sum ^ u64::from(oracle::layer_apply(layer, key, x))
    })
}

/// A call of its own, as the proved one is.
#[inline(never)]
fn layer_apply(layer: u32, key: u64, x: u32) -> u32 {
    oracle::layer_apply(layer, key, x)
}

#[inline(never)]
fn splitmix64(v: u64) -> u64 {
    oracle::splitmix64(v)
}

fn layers() {
    for layer in [0, 1, 2, 3, 5, 8, 11] {
        let n = 1u32 << (2 * layer + 2);
        let turns = ((1u64 << 22) / u64::from(n)).max(1);
        let ours = || {
            (0..turns).fold(0, |s, t| {
                s ^ u64::from(proved::layer_xors(KEY ^ t, layer, n).unwrap()) << (t % 8)
            })
        };
        let theirs = || (0..turns).fold(0, |s, t| s ^ layer_xors(layer, KEY ^ t, n) << (t % 8));
        report(
            &format!("layer {layer} over its {n} inputs"),
            measure(turns * u64::from(n), ours, theirs),
        );
        let undone = || {
            (0..turns).fold(0, |s, t| {
                s ^ u64::from(proved::input_xors(KEY ^ t, layer, n).unwrap())
            })
        };
        report_alone(
            &format!("layer {layer} undone over its {n} outputs"),
            measure_alone(turns * u64::from(n), undone),
        );
    }
    for layer in [0, 3, 14] {
        let n = 1u32 << (2 * layer + 2).min(20);
        let turns = (1u64 << 20) / u64::from(n);
        let runs = |f: &dyn Fn(u32) -> u32| {
            (0..turns).fold(0, |s, _| s + (0..n).fold(0, |s, x| s ^ u64::from(f(x))))
        };
        let ours = || runs(&|x| proved::layer_apply(KEY, layer, x).unwrap());
        let theirs = || runs(&|x| layer_apply(layer, KEY, x));
        report(
            &format!("layer_apply of layer {layer}, one call each"),
            measure(turns * u64::from(n), ours, theirs),
        );
        let undone = || runs(&|y| proved::layer_invert(KEY, layer, y).unwrap());
        report_alone(
            &format!("layer_invert of layer {layer}, one call each"),
            measure_alone(turns * u64::from(n), undone),
        );
    }
}

fn words() {
    let calls = 1u64 << 22;
    let chain = |f: &dyn Fn(u64) -> u64| (0..calls).fold(0, |s, _| f(s));
    report(
        "splitmix64, each of the one before",
        measure(calls, || chain(&proved::splitmix64), || chain(&splitmix64)),
    );
}

/// What is timed, in the order of the whole run.
const PARTS: [(&str, fn()); 9] = [
    ("layers", layers),
    ("words", words),
    ("hashes", hashes::all),
    ("orders", orders::all),
    ("reservoirs", reservoirs::all),
    ("choosers", choosers::all),
    ("slots", slots::all),
    ("rounds", rounds::all),
    ("lines", lines::all),
];

fn main() {
    let asked = std::env::args().nth(1);
    if asked.as_deref() == Some("lengths") {
        return lengths::all();
    }
    let names = PARTS.map(|(name, _)| name);
    if let Some(asked) = asked.as_deref().filter(|asked| !names.contains(asked)) {
        eprintln!("bench: no part {asked}: {}, lengths", names.join(", "));
        std::process::exit(2);
    }
    println!(
        "{:<44} {:>8} {:>8} {:>7}",
        "nanoseconds each", "proved", "Rust", "ratio"
    );
    for (name, part) in PARTS {
        if asked.as_deref().is_none_or(|asked| asked == name) {
            part();
        }
    }
}
