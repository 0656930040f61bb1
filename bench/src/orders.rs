//! Orders: many numbers, in one call of the library and a call each.

use oracle::{ConsistentPermutation, Draws};

use crate::{measure, measure_alone, report, report_alone, KEY};

/// How large n is, n, how many orders under other keys, and how many numbers of each.
const SIZES: [(&str, u32, u64, u32); 3] = [
    ("1000", 1000, 500, 1000),
    ("10^7", 10_000_000, 1, 500_000),
    ("2^30", 1 << 30, 1, 500_000),
];

/// How large n is, n, and how many locations, so many that all layers' are among them.
const PLACES: [(&str, u32, u64); 5] = [
    ("1000", 1000, 4000),
    ("10^5", 100_000, 60),
    ("10^7", 10_000_000, 12),
    ("2^20", 1 << 20, 40),
    ("2^24", 1 << 24, 16),
];

#[inline(never)]
fn digest(n: u32, key: u64, count: u32) -> u64 {
    oracle::order_digest(n, key, count)
}

/// A call of its own, as the proved one is.
#[inline(never)]
fn next(order: &mut ConsistentPermutation) -> Option<u32> {
    order.next()
}

/// The first numbers xored, a call each.
fn by_calls(n: u32, key: u64, count: u32) -> u64 {
    let mut order = ConsistentPermutation::new(n, key);
    (0..count).fold(0, |sum, _| sum ^ u64::from(next(&mut order).unwrap()))
}

fn our_by_calls(n: u32, key: u64, count: u32) -> u64 {
    let mut order = [0; 18];
    proved::order_new(key, n, &mut order).unwrap();
    (0..count).fold(0, |sum, _| {
        sum ^ u64::from(proved::order_next(&mut order).unwrap().unwrap())
    })
}

pub fn all() {
    for (size, n, orders, count) in SIZES {
        let each = |f: fn(u32, u64, u32) -> u64| {
            (0..orders).fold(0u64, |sum, t| f(n, KEY ^ t, count) ^ sum.rotate_left(1))
        };
        let compared = |what: &str, ours, theirs| {
            report(
                &format!("order of {size}, {what}"),
                measure(orders * u64::from(count), || each(ours), || each(theirs)),
            );
        };
        compared(
            "digested",
            |n, key, count| proved::order_digest(key, n, count).unwrap(),
            digest,
        );
        compared("a call each", our_by_calls, by_calls);
    }
    tested();
    for (size, n, locations) in PLACES {
        places(size, n, locations);
    }
}

/// The places of locations, each under a key of its own, and the original's iterator run to each.
fn places(size: &str, n: u32, locations: u64) {
    let mut draws = Draws(u64::from(n));
    let asked: Vec<_> = (0..locations)
        .map(|_| (draws.next(), draws.below(n.into()) as u32))
        .collect();
    let sum = |f: &dyn Fn(u64, u32) -> u32| {
        asked
            .iter()
            .map(|&(key, location)| u64::from(f(key, location)))
            .sum()
    };
    report(
        &format!("place in the order of {size}"),
        measure(
            locations,
            || sum(&|key, location| proved::place(key, n, location).unwrap()),
            || sum(&|key, location| position(key, n, location)),
        ),
    );
}

#[inline(never)]
fn position(key: u64, n: u32, location: u32) -> u32 {
    let mut order = ConsistentPermutation::new(n, key);
    order.position(|x| x == location).unwrap() as u32
}

/// With n = 0 a call reads the record, tests the fifteen counters and is done.
fn tested() {
    let calls = 1 << 20;
    let ours = || {
        let mut order = [0; 18];
        proved::order_new(KEY, 0, &mut order).unwrap();
        (0..calls).fold(0, |sum, _| {
            sum + u64::from(proved::order_next(&mut order).unwrap().is_none())
        })
    };
    report_alone(
        "order of 0, a call: the test of counters",
        measure_alone(calls, ours),
    );
}
