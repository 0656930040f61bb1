//! Calls on orders and reservoirs made by hand. Answers and memory are document 01's.

use oracle::UNTOUCHED;

use crate::cases::{numbers, untouched, Case};
use crate::handmade::{self, changed, kept, refused, Lent};
use crate::{coded, handmade_orders, NONE};

/// The largest n.
const LIMIT: u32 = 1 << 30;

/// A place or word that no call has written to.
const NO: u32 = UNTOUCHED;

type Memory = handmade::Memory<u32>;

/// A reservoir's record under a key below 2^32, and its list.
fn under(key: u32, [k, n, j_max, used]: [u32; 4], list: &[u32]) -> Memory {
    Memory {
        words: vec![key, 0, k, n, j_max, used],
        list: list.to_vec(),
    }
}

fn reservoir(record: [u32; 4], list: &[u32]) -> Memory {
    under(0, record, list)
}

/// A new reservoir under key 0.
fn new_reservoir(record: [u32; 4], list: &[u32]) -> Case {
    let [k, n, ..] = record;
    let before = Memory::untouched(6, list.len());
    let taken = [0, k.into(), n.into()];
    changed(
        "reservoir_new",
        &before,
        &taken,
        0,
        &reservoir(record, list),
    )
}

/// One that is refused with so many words and places lent.
fn new_refused(k: u32, n: u32, words: usize, places: usize, c: u32) -> Case {
    let lent = Memory::untouched(words, places);
    refused("reservoir_new", &lent, &[0, k.into(), n.into()], c)
}

fn new_reservoirs() -> Vec<Case> {
    let mut cases = vec![
        new_reservoir([1, 1, 0, 1], &[0, NO]),
        new_reservoir([4, 4, 0, 4], &[0, 3, 2, 1, NO]),
        new_reservoir([3, 16, 1, 3], &[13, 12, 11, NO, NO]),
        // 4 goes by the used length, not by k.
        new_reservoir([2, 5, 1, 5], &[13, 12, 11, 0, 4, NO, NO]),
        new_reservoir([2, 5, 1, 5], &[13, 12, 11, 0, 4]),
        new_refused(2, 5, 6, 4, 4),
        new_refused(2, 5, 6, 0, 4),
        // In the order 1, 2, 3, 4.
        new_refused(1, LIMIT + 1, 6, 0, 1),
        new_refused(0, LIMIT + 1, 6, 0, 1),
        new_refused(u32::MAX, u32::MAX, 6, 8, 1),
        new_refused(0, 0, 6, 0, 2),
        new_refused(0, LIMIT, 6, 8, 2),
        new_refused(1, 0, 6, 0, 3),
        new_refused(6, 5, 6, 8, 3),
        new_refused(LIMIT + 1, LIMIT, 6, 8, 3),
        new_refused(u32::MAX, LIMIT, 6, 8, 3),
    ];
    // A record too short: 4, after 1, 2 and 3 by document 01's order.
    for (k, n, c) in [(2, 5, 4), (0, 5, 2), (6, 5, 3), (1, LIMIT + 1, 1)] {
        cases.push(new_refused(k, n, 5, 8, c));
        cases.push(new_refused(k, n, 0, 0, c));
    }
    cases
}

/// An admit that brings in `came` and puts out `went`.
fn admitted(before: Memory, came: u32, went: u32, after: Memory) -> Case {
    let answer = (u64::from(came) << 32) + u64::from(went);
    changed("reservoir_next", &before, &[], answer, &after)
}

fn admits() -> Vec<Case> {
    vec![
        // Document 01's own.
        admitted(
            reservoir([2, 3, 1, 4], &[7, 1, 5, 2]),
            5,
            2,
            reservoir([2, 6, 1, 3], &[7, 1, 5, 2]),
        ),
        // A number listed twice; then 12.
        admitted(
            reservoir([1, 2, 1, 3], &[5, 5, 1]),
            5,
            1,
            reservoir([1, 6, 1, 2], &[5, 5, 1]),
        ),
        refused(
            "reservoir_next",
            &reservoir([1, 6, 1, 2], &[5, 5, 1]),
            &[],
            12,
        ),
        admitted(
            reservoir([3, 3, 1, 6], &[15, 0, 4, 1, 4, 2]),
            4,
            2,
            reservoir([3, 5, 1, 5], &[15, 0, 4, 1, 4, 2]),
        ),
        // Numbers dropped at the end, as many as stand there.
        admitted(
            reservoir([2, 3, 1, 4], &[5, 1, 7, 2]),
            5,
            2,
            reservoir([2, 6, 1, 2], &[5, 1, 7, 2]),
        ),
        admitted(
            reservoir([1, 2, 1, 4], &[9, 8, 12, 1]),
            8,
            1,
            reservoir([1, 9, 1, 2], &[9, 8, 12, 1]),
        ),
        // A growth, in a list that holds what it ends with, but not the layer's eight outputs.
        admitted(
            reservoir([2, 4, 0, 2], &[2, 1, NO, NO, NO, NO]),
            4,
            1,
            reservoir([2, 5, 1, 5], &[13, 12, 11, 2, 4, NO]),
        ),
        admitted(
            reservoir([2, 2, 0, 2], &[1, 1, NO, NO, NO]),
            4,
            1,
            reservoir([2, 5, 1, 5], &[13, 12, 11, 1, 4]),
        ),
        refused(
            "reservoir_next",
            &reservoir([2, 4, 0, 2], &[2, 1, NO, NO]),
            &[],
            4,
        ),
        // A layer above that of n.
        admitted(
            reservoir([1, 2, 3, 1], &[0, NO, NO, NO, NO]),
            273,
            0,
            reservoir([1, 274, 4, 5], &[772, 281, 410, 544, 273]),
        ),
        // A layer is skipped.
        admitted(
            under(3, [1, 1, 0, 1], &[0, NO]),
            19,
            0,
            under(3, [1, 20, 2, 2], &[47, 19]),
        ),
        refused("reservoir_next", &under(3, [1, 1, 0, 1], &[0]), &[], 4),
        // The last number below the limit, then none; none below it.
        admitted(
            reservoir([1, 1 << 28, 14, 2], &[LIMIT - 1, 5]),
            LIMIT - 1,
            5,
            reservoir([1, LIMIT, 14, 1], &[LIMIT - 1, 5]),
        ),
        kept(
            "reservoir_next",
            &reservoir([1, LIMIT, 14, 1], &[LIMIT - 1]),
            &[],
            NONE,
        ),
        changed(
            "reservoir_next",
            &under(10, [1, 1 << 28, 13, 1], &[7]),
            &[],
            NONE,
            &under(10, [1, 1 << 28, 14, 1], &[7]),
        ),
    ]
}

/// A `grow_layer`.
fn grown(before: Memory, after: Memory) -> Case {
    changed("reservoir_grow_layer", &before, &[], 0, &after)
}

fn growths() -> Vec<Case> {
    let before = |places: usize| {
        let mut memory = reservoir([2, 4, 0, 2], &[2, 1]);
        memory.list.resize(places, NO);
        memory
    };
    vec![
        grown(
            before(9),
            reservoir([2, 4, 1, 8], &[13, 12, 11, 2, 4, 5, 8, 1, NO]),
        ),
        grown(
            before(8),
            reservoir([2, 4, 1, 8], &[13, 12, 11, 2, 4, 5, 8, 1]),
        ),
        refused("reservoir_grow_layer", &before(7), &[], 4),
        // A layer that has k outputs for k.
        grown(under(3, [1, 1, 0, 1], &[0]), under(3, [1, 1, 1, 1], &[0])),
        refused(
            "reservoir_grow_layer",
            &reservoir([2, 3, 1, 4], &[7, 1, 5, 2]),
            &[],
            7,
        ),
        refused(
            "reservoir_grow_layer",
            &reservoir([2, 3, 14, 4], &[7, 1, 5, 2]),
            &[],
            7,
        ),
        refused(
            "reservoir_grow_layer",
            &reservoir([2, 3, 14, 2], &[1, 2]),
            &[],
            8,
        ),
    ]
}

/// Records that refusal 12 is for, each for one reason.
fn unfit() -> Vec<Memory> {
    vec![
        // k is 0.
        reservoir([0, 3, 1, 0], &[7, 1, 5, 2]),
        reservoir([0, 3, 1, 4], &[7, 1, 5, 2]),
        // k above n.
        reservoir([4, 3, 1, 4], &[1, 1, 2, 1]),
        // n above 4^(j+1).
        reservoir([2, 17, 1, 2], &[1, 2]),
        reservoir([2, 5, 0, 2], &[1, 2]),
        reservoir([2, LIMIT + 1, 14, 2], &[1, 2]),
        // j above 14.
        reservoir([1, 6, 15, 1], &[5]),
        reservoir([1, 6, u32::MAX, 1], &[5]),
        // The used length past the list.
        reservoir([2, 3, 1, 3], &[1, 2]),
        reservoir([2, 3, 1, u32::MAX], &[1, 2]),
        reservoir([1, 1, 0, 1], &[]),
        // Not exactly k listed below n.
        reservoir([1, 3, 1, 4], &[7, 1, 5, 2]),
        reservoir([3, 3, 1, 4], &[7, 1, 5, 2]),
        reservoir([3, 3, 1, 0], &[7, 1, 5, 2]),
        // A listed number of 4^(j+1) or more.
        reservoir([2, 3, 1, 3], &[16, 1, 2]),
        reservoir([2, 3, 1, 3], &[1, u32::MAX, 2]),
        reservoir([1, 3, 14, 2], &[LIMIT, 2]),
        // The last not below n.
        reservoir([2, 3, 1, 3], &[1, 2, 5]),
        reservoir([2, 3, 1, 3], &[1, 2, 3]),
    ]
}

/// Records that stand at those bounds.
fn fit() -> Vec<Memory> {
    vec![
        reservoir([2, 3, 1, 4], &[7, 1, 5, 2]),
        reservoir([3, 3, 1, 4], &[1, 15, 2, 1]),
        reservoir([2, 16, 1, 2], &[1, 15]),
        reservoir([1, LIMIT, 14, 1], &[LIMIT - 1]),
        reservoir([1, 6, 14, 2], &[LIMIT - 1, 5]),
        reservoir([2, 3, 1, 2], &[1, 2, NO]),
    ]
}

/// The sample, in another list of so many places, untouched before.
fn sampled(memory: &Memory, answer: u64, out: &[u32]) -> Case {
    let mut case = Case::lent(memory.parts());
    case.lend(untouched("locations", out.len()));
    case.call(
        "reservoir_sample",
        &[],
        answer,
        [("locations", numbers(out))],
    );
    case.compare();
    case
}

fn samples() -> Vec<Case> {
    let (few, all) = (
        reservoir([2, 3, 1, 4], &[7, 1, 5, 2]),
        reservoir([2, 16, 1, 2], &[1, 15, 9]),
    );
    let too_short = coded(Err(4));
    let mut cases = vec![
        sampled(&few, 0, &[1, 2]),
        sampled(&few, 0, &[1, 2, NO, NO, NO]),
        sampled(&few, too_short, &[NO]),
        sampled(&few, too_short, &[]),
        sampled(&all, 0, &[1, 15, NO]),
        sampled(&all, too_short, &[NO]),
    ];
    for memory in unfit() {
        for out in [&[NO; 3][..], &[]] {
            cases.push(sampled(&memory, coded(Err(12)), out));
        }
    }
    cases
}

/// Calls on a record that lacks a word.
fn short_records() -> Vec<Case> {
    let mut short = reservoir([2, 3, 1, 4], &[7, 1, 5, 2]);
    short.words.truncate(5);
    vec![
        refused("reservoir_next", &short, &[], 4),
        refused("reservoir_grow_layer", &short, &[], 4),
        refused("reservoir_fits", &short, &[], 4),
        sampled(&short, coded(Err(4)), &[NO; 3]),
    ]
}

pub fn handmade() -> Vec<Case> {
    let mut cases = [
        handmade_orders::handmade(),
        new_reservoirs(),
        admits(),
        growths(),
    ]
    .concat();
    for memory in unfit() {
        cases.push(refused("reservoir_next", &memory, &[], 12));
        cases.push(refused("reservoir_grow_layer", &memory, &[], 12));
        cases.push(kept("reservoir_fits", &memory, &[], 0));
    }
    let fits = fit();
    cases.extend(
        fits.iter()
            .map(|memory| kept("reservoir_fits", memory, &[], 1)),
    );
    cases.extend(samples());
    cases.extend(short_records());
    cases
}
