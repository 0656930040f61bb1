//! The set of choosers: histories of the original, each in memory of a stated length.

use oracle::{Chooser, Draws};

use crate::cases::{numbers, untouched, Case, Part};
use crate::{coded, done, keys};

/// The longest list that the replay lends.
const PLACES: u64 = 256;

/// The largest n.
const LIMIT: u64 = 1 << 62;

/// Scripts of one call only.
const GROW: u64 = 0;
const NEXT: u64 = u64::MAX / 3;
const SHRINK: u64 = u64::MAX / 3 * 2;

/// A chooser's beginning, by `new` or with a k, the list's length, how many calls, and which: the script's two lowest bits name the
/// next one, and after it the script is rotated right by two.
#[derive(Clone, Copy)]
struct History {
    state: u64,
    n: u64,
    k: Option<u64>,
    places: u64,
    calls: u64,
    script: u64,
}

impl History {
    fn case(&self) -> Case {
        let mut lent = Chooser::lent(self.places as usize);
        let list = untouched("wide_list", lent.list.len());
        let mut case = Case::lent([untouched("wide_words", 3), list]);
        let (name, taken, said) = self.begun(&mut lent);
        case.call(name, &taken, said, left(&lent));
        let mut script = self.script;
        for _ in 0..self.calls {
            let (name, said) = called(script % 4, &mut lent);
            case.call(name, &[], said, left(&lent));
            script = script.rotate_right(2);
        }
        case.compare();
        case
    }

    fn begun(&self, lent: &mut Chooser) -> (&'static str, Vec<u64>, u64) {
        let &History { state, n, .. } = self;
        match self.k {
            None => ("chooser_new", vec![state, n], done(lent.make(state, n))),
            Some(k) => {
                let said = lent.make_with_k(state, n, k);
                ("chooser_new_with_k", vec![state, k, n], done(said))
            }
        }
    }
}

/// A call of a script, and what it says, as the C functions give it.
fn called(call: u64, lent: &mut Chooser) -> (&'static str, u64) {
    match call {
        0 => ("chooser_grow_k", coded(lent.grow_k().map(Some))),
        1 => ("chooser_next", coded(lent.next_number())),
        2 => ("chooser_shrink_n", coded(lent.shrink_n().map(Some))),
        _ => ("chooser_fits", u64::from(lent.made())),
    }
}

fn left(lent: &Chooser) -> [Part; 2] {
    [
        ("wide_words", numbers(&lent.words)),
        ("wide_list", numbers(&lent.list)),
    ]
}

/// Every k and n up to 7: grown to n and once more, the same by `next`, shrunk to k and once more, and mixed calls in a list
/// that lacks a place, just holds the samples, or has more.
fn small(state: u64, draws: &mut Draws) -> Vec<Case> {
    let mut cases = Vec::new();
    for (k, n) in (0..=7).flat_map(|n| (0..=n).map(move |k| (k, n))) {
        let mut add = |places, calls, script| {
            let history = History {
                state,
                n,
                k: Some(k),
                places,
                calls,
                script,
            };
            cases.push(history.case());
        };
        add(n, n - k + 1, GROW);
        add(n + 1, n - k + 2, NEXT);
        add(k, n - k + 1, SHRINK);
        add((k + draws.below(4)).saturating_sub(1), 16, draws.next());
    }
    cases
}

/// The choice order of n, so many numbers of it in a list of as many places.
fn choice_order(state: u64, n: u64, calls: u64) -> Case {
    let history = History {
        state,
        n,
        k: None,
        places: calls,
        calls,
        script: NEXT,
    };
    history.case()
}

/// Powers of two from 64 on and one off on both sides, up to the limit.
fn boundaries() -> Vec<u64> {
    let mut all: Vec<u64> = (6..63)
        .flat_map(|bit| [(1 << bit) - 1, 1 << bit, (1 << bit) + 1])
        .collect();
    all.retain(|&n| n <= LIMIT);
    all
}

/// An n of 1 to 62 bits, now and then the limit.
fn any_n(draws: &mut Draws) -> u64 {
    let bit = draws.below(62);
    match draws.below(16) {
        0 => LIMIT,
        _ => (1 << bit) + draws.below(1 << bit),
    }
}

/// Mixed calls on a chooser of any n, with up to 100 samples, half of them with at most 10.
fn any(draws: &mut Draws) -> Case {
    let n = any_n(draws);
    let most = if draws.below(2) == 0 { 10 } else { 100 };
    let k = draws.below(n.min(most) + 1);
    let history = History {
        state: draws.next(),
        n,
        k: Some(k).filter(|&k| k != 0),
        places: (k + draws.below(16)).min(PLACES),
        calls: 24,
        script: draws.next(),
    };
    history.case()
}

pub fn choosers() -> Vec<Case> {
    let mut draws = Draws(7);
    let mut cases = Vec::new();
    for state in keys(2, &mut draws) {
        cases.extend(small(state, &mut draws));
    }
    // Whole choice orders, and two calls more.
    for state in keys(2, &mut draws) {
        cases.extend((0..=40).map(|n| choice_order(state, n, n + 2)));
    }
    // First numbers.
    for n in boundaries() {
        cases.push(choice_order(draws.below(4), n, 16));
        cases.push(choice_order(draws.next(), n, 30));
    }
    cases.extend((0..700).map(|_| any(&mut draws)));
    cases
}
