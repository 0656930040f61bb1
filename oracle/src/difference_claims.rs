//! Every input that docs/DIFFERENCES.md names, with what it says the original gives there.

use std::collections::BTreeSet;
use std::fmt::Debug;

use oracle::node_map::ConsistentNodeMap;
use oracle::{
    into_prev, layer_apply, next, prev, ConsistentChooseKHasher, ConsistentHashIterator,
    ConsistentHashRevIterator, ConsistentPermutation, ConsistentReservoir, Draws, StandIn,
};

use crate::differences::{claim, Claim, PANICS};

/// The page's sections that have some.
pub const SECTIONS: [(&str, &[Claim]); 6] = [
    ("Layers", LAYERS),
    ("Hashes", HASHES),
    ("Orders", ORDERS),
    ("Reservoirs", RESERVOIRS),
    ("Choosers", CHOOSERS),
    ("Slots", SLOTS),
];

fn shown(answer: impl Debug) -> String {
    format!("{answer:?}")
}

/// A hash, as the page writes those that are large.
fn hexadecimal(hash: Option<u64>) -> String {
    hash.map_or("none".into(), |x| format!("{x:#x}"))
}

const BIT_63: u64 = 1 << 63;

/// Above the limit of hashes and choosers.
const HIGH: u64 = (1 << 62) + 1;

/// Above the limit of orders and reservoirs.
const PAST: u32 = (1 << 30) + 1;

/// Keys and inputs tried at a layer.
fn outputs(layer: u32) -> impl Iterator<Item = u32> {
    let mut draws = Draws(u64::from(layer));
    (0..1000).map(move |_| layer_apply(layer, draws.next(), draws.next() as u32))
}

/// Whether an input's bits above a layer's change nothing.
fn ignores_upper_bits(layer: u32) -> bool {
    let mut draws = Draws(u64::from(layer));
    (0..1000).all(|_| {
        let (key, x) = (draws.next(), draws.next() as u32);
        let lower = x % (1 << (2 * layer + 2));
        layer_apply(layer, key, x) == layer_apply(layer, key, lower)
    })
}

const LAYERS: &[Claim] = &[
    claim(
        "a layer above 14",
        "layer 15, input 0: the original answers 0",
        || shown(layer_apply(15, 0, 0)),
        "0",
    )
    .panics_in_debug(),
    claim(
        "a layer above 14",
        "layer 16, key 0, input 1: 3",
        || shown(layer_apply(16, 0, 1)),
        "3",
    )
    .panics_in_debug(),
    claim(
        "a layer above 14",
        "0 at layer 15",
        || shown(outputs(15).max()),
        "Some(0)",
    )
    .panics_in_debug(),
    claim(
        "a layer above 14",
        "numbers below 4^(j−15) at layer j from 16 to 30",
        || shown((16..=30).all(|layer| outputs(layer).all(|y| y < 1 << (2 * (layer - 15))))),
        "true",
    )
    .panics_in_debug(),
    claim(
        "an input not below the layer's size",
        "layer 0, input 4: the original answers as for input 0 (key 1: 2)",
        || shown([4, 0].map(|x| layer_apply(0, 1, x))),
        "[2, 2]",
    )
    .panics_in_debug(),
    claim(
        "an input not below the layer's size",
        "in release the upper bits are ignored",
        || shown((0..15).all(ignores_upper_bits)),
        "true",
    )
    .panics_in_debug(),
];

fn falling(state: u64, n: u64) -> ConsistentHashRevIterator<StandIn> {
    ConsistentHashRevIterator::new(n as usize, StandIn(state))
}

fn rising(state: u64, n: u64) -> ConsistentHashIterator<StandIn> {
    ConsistentHashIterator::new(n as usize, StandIn(state))
}

/// Whether the original's rising walk from n leaves n out, of the first state of which n is a hash.
fn leaves_out(n: u64) -> bool {
    let state = (0..).find(|&state| prev(state, n + 1) == Some(n));
    next(state.unwrap(), n) != Some(n)
}

const SKIPPED: &str = "`next` and the rising walk from 1, 3, 7, .., 2^62 − 1";

const ABOVE_2_62: &str = "`prev`, `into_prev`, `next` and both walks with n above 2^62";

const HASHES: &[Claim] = &[
    claim(
        ABOVE_2_62,
        "n = 2^62 + 1: the original's `prev` is 0 for state 0",
        || shown([prev(0, HIGH), into_prev(0, HIGH)]),
        "[Some(0), Some(0)]",
    ),
    claim(
        ABOVE_2_62,
        "n = 2^62 + 1: the original's `prev` is 0 for state 0",
        || shown(falling(0, HIGH).collect::<Vec<_>>()),
        "[0]",
    ),
    claim(
        ABOVE_2_62,
        "its `next` is 0x41caa622e35a39a4 for state 2^62",
        || hexadecimal(next(1 << 62, HIGH)),
        "0x41caa622e35a39a4",
    ),
    claim(
        ABOVE_2_62,
        "its `next` is 0x41caa622e35a39a4 for state 2^62",
        || hexadecimal(rising(1 << 62, HIGH).next().map(|x| x as u64)),
        "0x41caa622e35a39a4",
    ),
    claim(
        "bit 2^63 of the state",
        "state 2^63, n = 0xc1caa622e35a39a5: 0xc1caa622e35a39a4",
        || hexadecimal(prev(BIT_63, 0xc1ca_a622_e35a_39a5)),
        "0xc1caa622e35a39a4",
    )
    .panics_in_debug(),
    claim(
        "bit 2^63 of the state",
        "one n lower: 0",
        || hexadecimal(prev(BIT_63, 0xc1ca_a622_e35a_39a4)),
        "0x0",
    )
    .panics_in_debug(),
    claim(
        "bit 2^63 of the state",
        "panics in a debug build, whatever the state",
        || hexadecimal(prev(0, BIT_63 + 1)),
        "0x0",
    )
    .panics_in_debug(),
    claim(
        "bit 2^63 of the state",
        "state 2^63, n = 2: `next` is none in both, a panic in a debug build of the original",
        || hexadecimal(next(BIT_63, 2)),
        "none",
    )
    .panics_in_debug(),
    claim(
        "bit 2^63 of the state",
        "the rising walk ignores it in release and panics in a debug build",
        || shown(rising(BIT_63, 0).collect::<Vec<_>>()),
        "[0]",
    )
    .panics_in_debug(),
    claim(
        SKIPPED,
        "state 1, n = 1, where hash 1 is there: the original says none",
        || shown([prev(1, 2), next(1, 1)]),
        "[Some(1), None]",
    ),
    claim(
        SKIPPED,
        "state 1, n = 1, where hash 1 is there: the original says none",
        || shown(rising(1, 1).collect::<Vec<_>>()),
        "[]",
    ),
    claim(
        SKIPPED,
        "skips n itself where n+1 is a power of two from 2 up",
        || shown((0..1024).filter(|&n| leaves_out(n)).collect::<Vec<_>>()),
        "[1, 3, 7, 15, 31, 63, 127, 255, 511, 1023]",
    ),
];

/// The counters of an order of key 0 after so many calls, and what the last said.
fn counters_after(calls: usize, n: u32) -> (Vec<u32>, Option<u32>) {
    let mut order = ConsistentPermutation::new(n, 0);
    let said = (0..calls).map(|_| order.next()).last().flatten();
    (order.counters().to_vec(), said)
}

const ORDERS: &[Claim] = &[
    claim(
        "n above 2^30",
        "n = 2^30 + 1",
        || shown(ConsistentPermutation::new(PAST, 0).n()),
        PANICS,
    ),
    claim(
        "n above 2^30",
        "n above 2^30",
        || shown(ConsistentPermutation::new(PAST - 1, 0).n()),
        "1073741824",
    ),
    claim(
        "counters",
        "a vector, one for each layer up to that of n",
        || shown([4, 5, 16, 17, 1 << 30].map(|n| counters_after(0, n).0.len())),
        "[1, 2, 2, 3, 15]",
    ),
    claim(
        "",
        "after none the top layer's counter stands at its size",
        || shown(counters_after(2, 1)),
        "([4], None)",
    ),
    claim(
        "",
        "a next for n = 0 changes no counter",
        || shown(counters_after(1, 0)),
        "([0], None)",
    ),
];

fn sample(reservoir: &ConsistentReservoir) -> Vec<u32> {
    reservoir.reservoir().collect()
}

/// The sample after `grow_layer`.
fn grown(mut reservoir: ConsistentReservoir) -> Vec<u32> {
    reservoir.grow_layer();
    sample(&reservoir)
}

/// The least n that is opened at layer 14, with k = 1.
fn high(key: u64) -> ConsistentReservoir {
    ConsistentReservoir::new(1, (1 << 28) + 1, key)
}

fn layer_and_length(reservoir: &ConsistentReservoir) -> (u32, usize) {
    (reservoir.j_max(), reservoir.values().len())
}

/// How many numbers key 0, k = 2, n = 4 lists when its layer has grown, and after an admit.
fn lengths_of_admit() -> [usize; 2] {
    let mut wide = ConsistentReservoir::new(2, 4, 0);
    let mut admitted = wide.clone();
    wide.grow_layer();
    admitted.next();
    [wide, admitted].map(|reservoir| reservoir.values().len())
}

/// Key 0, k = 1, n = 1 when no admit is left, the layer before that was said, and how many admits there were.
fn exhausted() -> (ConsistentReservoir, u32, usize) {
    let mut reservoir = ConsistentReservoir::new(1, 1, 0);
    let mut admits = 0;
    loop {
        let layer = reservoir.j_max();
        if reservoir.next().is_none() {
            return (reservoir, layer, admits);
        }
        admits += 1;
    }
}

const AT_14: &str = "`grow_layer` at layer 14";

const RESERVOIRS: &[Claim] = &[
    claim(
        "k = 0, k above n, n above 2^30",
        "k = 0, n = 0",
        || shown(ConsistentReservoir::new(0, 0, 0).values()),
        PANICS,
    ),
    claim(
        "k = 0, k above n, n above 2^30",
        "k = 1, n = 0",
        || shown(ConsistentReservoir::new(1, 0, 0).values()),
        PANICS,
    ),
    claim(
        "k = 0, k above n, n above 2^30",
        "k = 1, n = 2^30 + 1",
        || shown(ConsistentReservoir::new(1, PAST, 0).values()),
        PANICS,
    ),
    claim(
        "`grow_layer` with waiting numbers",
        "key 1, k = 1, n = 1: the original's sample is 0 before it and empty after it",
        || {
            let reservoir = ConsistentReservoir::new(1, 1, 1);
            shown([sample(&reservoir), grown(reservoir)])
        },
        "[[0], []]",
    ),
    claim(
        AT_14,
        "key 0, k = 1, n = 2^28 + 1: opened at layer 14 with nothing waiting",
        || shown(layer_and_length(&high(0))),
        "(14, 1)",
    ),
    claim(
        AT_14,
        "key 0, k = 1, n = 2^28 + 1",
        || shown(grown(high(0))),
        PANICS,
    ),
    claim(
        AT_14,
        "key 1, k = 1, n = 2^28 + 1: opened with one waiting",
        || shown(layer_and_length(&high(1))),
        "(14, 2)",
    ),
    claim(
        AT_14,
        "key 1, k = 1, n = 2^28 + 1",
        || shown(grown(high(1))),
        PANICS,
    ),
    claim(
        AT_14,
        "key 0, k = 1, n = 1 after its 23 admits and none",
        || shown(grown(exhausted().0)),
        PANICS,
    ),
    claim(
        "memory",
        "key 0, k = 2, n = 4: an admit needs 5 places, though layer 1 is looked through to its 8th output",
        || shown(lengths_of_admit()),
        "[8, 5]",
    ),
    claim(
        "`reservoir`",
        "key 0, k = 1, n = 1, a list of 0 places; the original gives 0",
        || shown(sample(&ConsistentReservoir::new(1, 1, 0))),
        "[0]",
    ),
    claim(
        "",
        "an admit that says none leaves layer 14 (key 0, k = 1, n = 1: from layer 13, after 23 admits)",
        || {
            let (last, before, admits) = exhausted();
            shown((before, last.j_max(), admits))
        },
        "(13, 14, 23)",
    ),
];

fn chooser(state: u64, n: u64) -> ConsistentChooseKHasher<StandIn> {
    ConsistentChooseKHasher::new(StandIn(state), n as usize)
}

fn chooser_with(state: u64, n: usize, k: usize) -> ConsistentChooseKHasher<StandIn> {
    ConsistentChooseKHasher::new_with_k(StandIn(state), n, k)
}

const SHRINK: &str = "`shrink_n` with k = 0, with n at most k, or with samples 0..k−1";

const CHOOSERS: &[Claim] = &[
    claim(
        "n above 2^62",
        "n = 2^62 + 1: for state 0 the original's first number is 0x2ec318bb6ec298c0",
        || hexadecimal(chooser(0, HIGH).next().map(|x| x as u64)),
        "0x2ec318bb6ec298c0",
    ),
    claim(
        "`new_with_k` with k above n",
        "n = 0, k = 1",
        || shown(chooser_with(0, 0, 1).samples()),
        PANICS,
    ),
    claim(
        "`grow_k` at k = n",
        "n = 0, k = 0",
        || shown(chooser(0, 0).grow_k()),
        PANICS,
    ),
    claim(
        SHRINK,
        "n = 0, k = 0",
        || shown(chooser(0, 0).shrink_n()),
        PANICS,
    ),
    claim(
        SHRINK,
        "n = 1, k = 1",
        || shown(chooser_with(0, 1, 1).shrink_n()),
        PANICS,
    ),
    claim(
        SHRINK,
        "sample 0 with n = 2, k = 1 (state 2)",
        || shown(chooser_with(2, 2, 1).samples()),
        "[0]",
    ),
    claim(
        SHRINK,
        "sample 0 with n = 2, k = 1 (state 2)",
        || shown(chooser_with(2, 2, 1).shrink_n()),
        PANICS,
    ),
    claim(
        "memory",
        "`grow_k` is 4, and 0 in the original",
        || shown(chooser(0, 1).grow_k()),
        "0",
    ),
];

/// So many slots, of which some were removed again, in that order.
fn map(adds: usize, removed: &[usize]) -> ConsistentNodeMap {
    let mut map = ConsistentNodeMap::new();
    (0..adds).for_each(|slot| assert_eq!(map.add(), slot));
    removed.iter().for_each(|&slot| assert!(map.remove(slot)));
    map
}

/// What an add takes after three adds, then remove 0 and 1, in many maps: each has a set with its own random order.
fn taken() -> BTreeSet<usize> {
    (0..1000).map(|_| map(3, &[0, 1]).add()).collect()
}

const SLOTS: &[Claim] = &[
    claim(
        "`add` with several slots deleted",
        "three adds, then remove 0 and 1: 0, in the original 0 or 1",
        || shown(taken()),
        "{0, 1}",
    ),
    claim(
        "how many slots",
        "a table of 0 bytes: the original's first slot is 0",
        || shown(map(0, &[]).add()),
        "0",
    ),
    claim(
        "how many slots",
        "after 65,536 adds its next is 65,536",
        || shown(map(65_536, &[]).add()),
        "65536",
    ),
    claim(
        "`remove` of a slot not active",
        "false | refusal 10 | no slot, remove 0",
        || shown(ConsistentNodeMap::new().remove(0)),
        "false",
    ),
    claim(
        "`get` with none active",
        "none | refusal 11 | no slot",
        || shown(map(0, &[]).get(StandIn(0))),
        "None",
    ),
    claim(
        "memory",
        "a table of 1 byte, a scratch of 0 places; with one slot added the original gets 0",
        || shown(map(1, &[]).get(StandIn(0))),
        "Some(0)",
    ),
    claim(
        "`Default`",
        "there: no slot",
        || shown(ConsistentNodeMap::default().slot_count()),
        "0",
    ),
    claim(
        "",
        "two adds, then remove 0 and 1: the count is 1, with none active",
        || {
            let map = map(2, &[0, 1]);
            shown((map.slot_count(), map.len()))
        },
        "(1, 0)",
    ),
];
