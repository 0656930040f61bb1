//! Calls on orders made by hand. Answers and memory are document 01's.

use oracle::UNTOUCHED;

use crate::cases::Case;
use crate::handmade::{self, changed, kept, refused};
use crate::NONE;

/// The largest n.
const LIMIT: u32 = 1 << 30;

/// A word that no call has written to.
const NO: u32 = UNTOUCHED;

type Memory = handmade::Memory<u32>;

/// An order's record under key 0 with these counters, the others 0.
fn order(n: u32, counters: &[u32]) -> Memory {
    let mut words = vec![0; 18];
    words[2] = n;
    words[3..][..counters.len()].copy_from_slice(counters);
    Memory {
        words,
        list: Vec::new(),
    }
}

/// The same with one counter.
fn one_counter(n: u32, j: usize, counter: u32) -> Memory {
    let mut order = order(n, &[]);
    order.words[3 + j] = counter;
    order
}

/// A new order under some key.
fn new_orders() -> Vec<Case> {
    let key = 0x0123_4567_89ab_cdef;
    let mut cases = Vec::new();
    for n in [0, 1, 5, LIMIT] {
        let taken = [key, n.into()];
        let mut made = order(n, &[]);
        made.words[..2].copy_from_slice(&[0x89ab_cdef, 0x0123_4567]);
        for words in [18, 20] {
            let before = Memory::untouched(words, 0);
            made.words.resize(words, NO);
            cases.push(changed("order_new", &before, &taken, 0, &made));
        }
        for words in [0, 17] {
            cases.push(refused(
                "order_new",
                &Memory::untouched(words, 0),
                &taken,
                4,
            ));
        }
    }
    for n in [LIMIT + 1, 1 << 31, u32::MAX] {
        let taken = [key, n.into()];
        cases.push(refused("order_new", &Memory::untouched(18, 0), &taken, 1));
    }
    cases
}

/// The next of an order, which gives a number or none.
fn next_of(before: Memory, answer: u64, after: Memory) -> Case {
    changed("order_next", &before, &[], answer, &after)
}

fn none_of(order: Memory) -> Case {
    kept("order_next", &order, &[], NONE)
}

fn next_refused(order: Memory, c: u32) -> Case {
    refused("order_next", &order, &[], c)
}

/// The counters of the lowest layers, each at its layer's size.
fn at_sizes(layers: u32) -> Vec<u32> {
    (0..layers).map(|j| 4 << (2 * j)).collect()
}

/// The same, the last of them one above.
fn past_sizes(layers: u32) -> Vec<u32> {
    let mut counters = at_sizes(layers);
    *counters.last_mut().unwrap() += 1;
    counters
}

/// Under key 0 layer 0 gives 0, 3, 2, 1, and layer 1 gives 13, 12, 11, 0, 4, 5, 8, 3, 7, 14, 1, 9, 15, 6, 10, 2.
fn nexts() -> Vec<Case> {
    let mut cases = vec![
        // A descent meets a counter at its size, after three numbers were dropped.
        next_refused(order(5, &[4]), 12),
        next_refused(order(5, &[4, 12]), 12),
        // It is not met.
        next_of(order(16, &[4]), 13, order(16, &[4, 1])),
        next_of(order(5, &[4, 4]), 4, order(5, &[4, 5])),
        // The last number of the lower layer, and of both.
        next_of(order(5, &[3, 10]), 1, order(5, &[4, 11])),
        next_of(order(5, &[3, 12]), 1, order(5, &at_sizes(2))),
        // Layers above that of n keep their counters.
        next_of(order(6, &[2, 5, 7, 9]), 5, order(6, &[2, 6, 7, 9])),
        // Numbers are dropped up to the layer's end, where the counter then stands.
        next_of(order(1, &[1]), NONE, order(1, &[4])),
        none_of(order(1, &[4])),
        none_of(order(5, &[0, 16])),
        none_of(order(16, &at_sizes(2))),
        none_of(one_counter(LIMIT, 14, LIMIT)),
        none_of(order(0, &[])),
        none_of(order(0, &at_sizes(3))),
    ];
    for n in [LIMIT + 1, 1 << 31, u32::MAX] {
        cases.push(next_refused(order(n, &[]), 1));
        cases.push(next_refused(order(n, &at_sizes(2)), 1));
        cases.push(next_refused(order(n, &past_sizes(2)), 12));
    }
    // Above its size, in a layer below, at and above that of n.
    for j in 0..15 {
        let above = (4 << (2 * j)) + 1;
        for n in [0, 1, 5, LIMIT] {
            cases.push(next_refused(one_counter(n, j, above), 12));
        }
        cases.push(next_refused(one_counter(1, j, u32::MAX), 12));
    }
    cases
}

/// Calls on records that lack words.
fn short_records() -> Vec<Case> {
    let mut short = order(5, &[]);
    short.words.truncate(17);
    vec![
        next_refused(short, 4),
        next_refused(Memory::untouched(0, 0), 4),
    ]
}

pub fn handmade() -> Vec<Case> {
    [new_orders(), nexts(), short_records()].concat()
}
