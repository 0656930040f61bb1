//! Calls on choosers made by hand. Answers and memory are document 01's.

use oracle::UNTOUCHED_WIDE;

use crate::cases::Case;
use crate::handmade::{self, changed, kept, refused};
use crate::{coded, NONE};

/// The largest n.
const LIMIT: u64 = 1 << 62;

/// A place or word that no call has written to.
const NO: u64 = UNTOUCHED_WIDE;

/// A record has the words state, n, k.
type Memory = handmade::Memory<u64>;

/// A record under state 0, and its list.
fn chooser(n: u64, k: u64, list: &[u64]) -> Memory {
    Memory {
        words: vec![0, n, k],
        list: list.to_vec(),
    }
}

/// A new chooser of a state and an n.
fn new_choosers() -> Vec<Case> {
    let state = 0x0123_4567_89ab_cdef;
    let mut cases = Vec::new();
    for n in [0, 1, 5, LIMIT - 1, LIMIT] {
        for words in [3, 5] {
            let mut made = Memory::untouched(words, 0);
            made.words[..3].copy_from_slice(&[state, n, 0]);
            let before = Memory::untouched(words, 0);
            cases.push(changed("chooser_new", &before, &[state, n], 0, &made));
        }
    }
    for n in [LIMIT + 1, 1 << 63, u64::MAX] {
        cases.push(refused(
            "chooser_new",
            &Memory::untouched(3, 0),
            &[state, n],
            1,
        ));
    }
    // A record too short: 4, after 1 by document 01's order.
    for (n, c) in [(0, 4), (5, 4), (LIMIT + 1, 1)] {
        for words in [0, 2] {
            cases.push(refused(
                "chooser_new",
                &Memory::untouched(words, 0),
                &[state, n],
                c,
            ));
        }
    }
    cases
}

/// A new chooser with k samples under state 0, in a list untouched before.
fn with_k(n: u64, k: u64, list: &[u64]) -> Case {
    let before = Memory::untouched(3, list.len());
    changed(
        "chooser_new_with_k",
        &before,
        &[0, k, n],
        0,
        &chooser(n, k, list),
    )
}

/// One that is refused with so many words and places lent.
fn with_k_refused(n: u64, k: u64, words: usize, places: usize, c: u32) -> Case {
    refused(
        "chooser_new_with_k",
        &Memory::untouched(words, places),
        &[0, k, n],
        c,
    )
}

/// Under state 0 the choice order of 9 is 7, 3, 1, 4, 2, 8, 0, 5, 6.
fn with_ks() -> Vec<Case> {
    let mut cases = vec![
        with_k(0, 0, &[]),
        with_k(0, 0, &[NO, NO]),
        with_k(9, 0, &[NO]),
        with_k(LIMIT, 0, &[]),
        with_k(1, 1, &[0]),
        with_k(9, 1, &[7]),
        with_k(9, 3, &[1, 3, 7]),
        with_k(9, 3, &[1, 3, 7, NO, NO]),
        with_k(9, 5, &[1, 2, 3, 4, 7]),
        with_k(9, 6, &[1, 2, 3, 4, 7, 8, NO]),
        with_k(8, 8, &[0, 1, 2, 3, 4, 5, 6, 7]),
        with_k_refused(9, 3, 3, 2, 4),
        with_k_refused(9, 1, 3, 0, 4),
        with_k_refused(LIMIT, LIMIT, 3, 8, 4),
        // In the order 1, 3, 4.
        with_k_refused(LIMIT + 1, 0, 3, 8, 1),
        with_k_refused(LIMIT + 1, LIMIT + 2, 3, 0, 1),
        with_k_refused(u64::MAX, u64::MAX, 3, 8, 1),
        with_k_refused(0, 1, 3, 0, 3),
        with_k_refused(5, 6, 3, 8, 3),
        with_k_refused(5, u64::MAX, 3, 2, 3),
        with_k_refused(LIMIT, LIMIT + 1, 3, 8, 3),
    ];
    // A record too short: 4, after 1 and 3 by document 01's order.
    for (n, k, c) in [(9, 3, 4), (5, 6, 3), (LIMIT + 1, 0, 1)] {
        cases.push(with_k_refused(n, k, 2, 8, c));
        cases.push(with_k_refused(n, k, 0, 0, c));
    }
    cases
}

/// A grow and a next in a chooser of n, whose list lacks the sample that comes in at an index.
fn grown(n: u64, before: &[u64], index: usize, after: &[u64]) -> [Case; 2] {
    let mut lent = before.to_vec();
    lent.resize(after.len() + 1, NO);
    let mut left = after.to_vec();
    left.push(NO);
    let before = chooser(n, before.len() as u64, &lent);
    let left = chooser(n, after.len() as u64, &left);
    [
        ("chooser_grow_k", index as u64),
        ("chooser_next", after[index]),
    ]
    .map(|(name, answer)| changed(name, &before, &[], answer, &left))
}

/// Under state 0 g(0, n) is 0, 1, 1, 3, 3, 3, 3, 7, 7 from n = 1 on; g(1, n) is 1 for n = 2, then 2; g(2, n) is 2, 2, then 4,
/// from n = 3 to 9.
fn growths() -> Vec<Case> {
    let large = 3_369_564_139_499_460_800;
    [
        // A whole choice order.
        grown(9, &[], 0, &[7]),
        grown(9, &[7], 0, &[3, 7]),
        grown(9, &[3, 7], 0, &[1, 3, 7]),
        grown(9, &[1, 3, 7], 2, &[1, 3, 4, 7]),
        grown(9, &[1, 3, 4, 7], 1, &[1, 2, 3, 4, 7]),
        grown(9, &[1, 2, 3, 4, 7], 5, &[1, 2, 3, 4, 7, 8]),
        grown(9, &[1, 2, 3, 4, 7, 8], 0, &[0, 1, 2, 3, 4, 7, 8]),
        // Samples that are no S(k, n): g(2, 9) = 4 is above the last.
        grown(9, &[0, 1], 2, &[0, 1, 4]),
        // It is the last, or below it: lowered to g(1, m), to the sample before, to both alike.
        grown(9, &[0, 4], 1, &[0, 2, 4]),
        grown(9, &[0, 8], 1, &[0, 2, 8]),
        grown(9, &[5, 8], 0, &[3, 5, 8]),
        grown(9, &[2, 8], 0, &[1, 2, 8]),
        // At the limit.
        grown(LIMIT, &[], 0, &[large]),
        grown(LIMIT, &[LIMIT - 1], 0, &[large, LIMIT - 1]),
    ]
    .concat()
}

/// Those that are refused, each with the grow's refusal and what a next says.
fn growths_refused() -> Vec<Case> {
    let cases = [
        // k = n, before a list too short: the next says none.
        (chooser(0, 0, &[]), 6, NONE),
        (chooser(1, 1, &[0]), 6, NONE),
        (chooser(3, 3, &[0, 1, 2]), 6, NONE),
        (chooser(3, 3, &[0, 1, 2, NO]), 6, NONE),
        (chooser(9, 0, &[]), 4, coded(Err(4))),
        (chooser(9, 3, &[1, 3, 7]), 4, coded(Err(4))),
        (chooser(LIMIT + 1, 0, &[NO]), 1, coded(Err(1))),
        (chooser(LIMIT + 1, 1, &[LIMIT]), 1, coded(Err(1))),
        (chooser(u64::MAX, 1, &[u64::MAX - 1]), 1, coded(Err(1))),
    ];
    cases
        .iter()
        .flat_map(|(memory, c, next)| {
            [
                refused("chooser_grow_k", memory, &[], *c),
                kept("chooser_next", memory, &[], *next),
            ]
        })
        .collect()
}

/// A shrink of a chooser of n, in a list with a place more.
fn shrunk(n: u64, before: &[u64], index: u64, after: &[u64]) -> Case {
    let lent = |n, samples: &[u64]| chooser(n, samples.len() as u64, &[samples, &[NO]].concat());
    let last = before[before.len() - 1];
    changed(
        "chooser_shrink_n",
        &lent(n, before),
        &[],
        index,
        &lent(last, after),
    )
}

fn shrinks() -> Vec<Case> {
    let mut cases = vec![
        // From S(3, 9) down to 5.
        shrunk(9, &[1, 3, 7], 2, &[1, 3, 4]),
        shrunk(7, &[1, 3, 4], 1, &[1, 2, 3]),
        shrunk(4, &[1, 2, 3], 0, &[0, 1, 2]),
        // Samples that are no S(k, n).
        shrunk(20, &[0, 8], 1, &[0, 2]),
        shrunk(20, &[5, 8], 0, &[3, 5]),
        shrunk(20, &[2, 8], 0, &[1, 2]),
        shrunk(4, &[0, 1, 3], 2, &[0, 1, 2]),
        shrunk(2, &[1], 0, &[0]),
        shrunk(LIMIT, &[9], 0, &[7]),
    ];
    // k is 0, n at most k, samples 0..k−1.
    for memory in [
        chooser(0, 0, &[]),
        chooser(9, 0, &[7]),
        chooser(LIMIT, 0, &[]),
        chooser(3, 3, &[0, 1, 2]),
        chooser(9, 3, &[0, 1, 2, 7]),
        chooser(1, 1, &[0]),
        chooser(LIMIT, 1, &[0]),
    ] {
        cases.push(refused("chooser_shrink_n", &memory, &[], 5));
    }
    for memory in [
        chooser(LIMIT + 1, 0, &[]),
        chooser(LIMIT + 1, 1, &[0]),
        chooser(u64::MAX, 1, &[9]),
    ] {
        cases.push(refused("chooser_shrink_n", &memory, &[], 1));
    }
    cases
}

/// Records that refusal 12 is for, each for one reason.
fn unfit() -> Vec<Memory> {
    vec![
        // k past the list.
        chooser(9, 4, &[1, 3, 7]),
        chooser(9, 1, &[]),
        chooser(9, u64::MAX, &[1, 3, 7]),
        // Samples that do not ascend.
        chooser(9, 3, &[1, 1, 7]),
        chooser(9, 3, &[1, 7, 7]),
        chooser(9, 3, &[3, 1, 7]),
        chooser(9, 3, &[1, 7, 3]),
        chooser(9, 2, &[7, 0, 8]),
        // A sample not below n.
        chooser(9, 3, &[1, 3, 9]),
        chooser(9, 3, &[1, 3, u64::MAX]),
        chooser(9, 2, &[9, 10]),
        chooser(0, 1, &[0]),
        chooser(1, 2, &[0, 1]),
        // With an n above the limit besides.
        chooser(LIMIT + 1, 2, &[3, 1]),
        chooser(LIMIT + 1, 1, &[LIMIT + 1]),
        chooser(u64::MAX, 1, &[]),
    ]
}

/// Records that stand at those bounds.
fn fit() -> Vec<Memory> {
    vec![
        chooser(0, 0, &[]),
        chooser(0, 0, &[7, 3]),
        chooser(u64::MAX, 0, &[]),
        chooser(9, 3, &[1, 3, 7]),
        chooser(8, 3, &[1, 3, 7, 2]),
        chooser(3, 3, &[0, 1, 2, NO]),
        chooser(LIMIT, 1, &[LIMIT - 1]),
        chooser(LIMIT + 1, 2, &[0, LIMIT]),
        chooser(u64::MAX, 1, &[u64::MAX - 1]),
    ]
}

/// Calls on records that lack words.
fn short_records() -> Vec<Case> {
    let mut cases = Vec::new();
    for words in [0, 2] {
        let mut short = chooser(9, 3, &[1, 3, 7, NO]);
        short.words.truncate(words);
        cases.extend(
            [
                "chooser_grow_k",
                "chooser_next",
                "chooser_shrink_n",
                "chooser_fits",
            ]
            .map(|name| refused(name, &short, &[], 4)),
        );
    }
    cases
}

pub fn handmade() -> Vec<Case> {
    let mut cases = [
        new_choosers(),
        with_ks(),
        growths(),
        growths_refused(),
        shrinks(),
    ]
    .concat();
    for memory in unfit() {
        cases.extend(
            ["chooser_grow_k", "chooser_next", "chooser_shrink_n"]
                .map(|name| refused(name, &memory, &[], 12)),
        );
        cases.push(kept("chooser_fits", &memory, &[], 0));
    }
    cases.extend(
        fit()
            .iter()
            .map(|memory| kept("chooser_fits", memory, &[], 1)),
    );
    cases.extend(short_records());
    cases
}
