//! The set of orders: answers of the original for keys and numbers n.

use oracle::{order_digest, Draws, Order};

use crate::cases::{numbers, untouched, Case};
use crate::{coded, keys, KEYS, NONE};

/// The largest n.
const LIMIT: u32 = 1 << 30;

/// The numbers of `count` calls.
fn digested(n: u32, key: u64, count: u32) -> Case {
    let digest = order_digest(n, key, count);
    Case::of("order_digest", &[key, n.into(), count.into()], digest)
}

/// `new` and each of `count` calls.
fn walked(n: u32, key: u64, count: u32) -> Case {
    let mut order = Order::new(n, key);
    let mut case = Case::lent([untouched("words", 18)]);
    let left = |order: &Order| [("words", numbers(&order.words()))];
    case.call("order_new", &[key, n.into()], 0, left(&order));
    for _ in 0..count {
        let said = order.next().map_or(NONE, u64::from);
        case.call("order_next", &[], said, left(&order));
    }
    case.compare();
    case
}

/// A location's position among the original's numbers.
fn placed(n: u32, key: u64, location: u32) -> Case {
    let place = Order::new(n, key).position(|x| x == location);
    let place = place.expect("a location below n") as u64;
    Case::of("place", &[key, n.into(), location.into()], place)
}

/// All places of short orders, and some of longer ones.
fn places() -> Vec<Case> {
    let mut draws = Draws(6);
    let mut cases = Vec::new();
    for key in keys(1, &mut draws) {
        for n in [1, 2, 3, 4, 5, 15, 16, 17, 40, 64] {
            cases.extend((0..n).map(|location| placed(n, key, location)));
        }
        for n in [65, 255, 256, 257, 1000, 4096, 5000, 16384, 16385, 100_000] {
            let own = [0, 3, 4, 63, 64, n / 2, n - 1];
            cases.extend(own.map(|location| placed(n, key, location)));
            cases.push(placed(n, key, draws.below(n.into()) as u32));
        }
    }
    cases
}

/// 4^j and one off on both sides, up to the limit, where whole orders are long.
fn boundaries() -> Vec<u32> {
    let mut all: Vec<u32> = (4..16)
        .flat_map(|j| [4u32.pow(j) - 1, 4u32.pow(j), 4u32.pow(j) + 1])
        .collect();
    all.retain(|&n| n <= LIMIT);
    all
}

pub fn orders() -> Vec<Case> {
    let mut draws = Draws(5);
    let mut cases = Vec::new();
    // Whole orders, and two calls more.
    for key in keys(4, &mut draws) {
        cases.extend((0..=70).map(|n| digested(n, key, n + 2)));
    }
    for key in keys(1, &mut draws) {
        cases.extend((0..=70).map(|n| walked(n, key, n + 2)));
    }
    // First numbers.
    for n in boundaries() {
        for key in keys(1, &mut draws) {
            cases.push(digested(n, key, 200));
            cases.push(walked(n, key, 20));
        }
    }
    for _ in 0..40 {
        let n = (draws.below(1 << 30) >> draws.below(24)) as u32;
        cases.push(digested(n, draws.next(), 200));
        cases.push(walked(n, draws.next(), 20));
    }
    cases.extend(places());
    cases
}

/// An n above the limit, and a location that is not below n.
pub fn refusals() -> Vec<Case> {
    let refused = coded(Err(1));
    let mut cases = Vec::new();
    for n in [LIMIT + 1, 1 << 31, u32::MAX] {
        cases.extend(KEYS.map(|key| Case::of("order_digest", &[key, n.into(), 2], refused)));
        for location in [0, n - 1, n, u32::MAX] {
            cases.push(Case::of(
                "place",
                &[n.into(), n.into(), location.into()],
                refused,
            ));
        }
    }
    let no_location = coded(Err(13));
    for n in [0, 1, 4, 1000, LIMIT] {
        for location in [n, n + 1, u32::MAX] {
            cases.push(Case::of(
                "place",
                &[1, n.into(), location.into()],
                no_location,
            ));
        }
    }
    cases
}
