//! The set of reservoirs: histories of the original, each in memory of a stated length.

use oracle::{Draws, Reservoir, Told};

use crate::cases::{numbers, untouched, Case, Part};
use crate::{coded, done, keys};

/// The longest list that the replay lends.
const PLACES: usize = 256;

/// A reservoir's beginning, how many admits come after it, and whether a `grow_layer` comes before each of them where it is
/// in place: used length k, below layer 14.
#[derive(Clone, Copy)]
struct History {
    key: u64,
    k: u32,
    n: u32,
    admits: u32,
    grows: bool,
}

/// The record's words and the list.
fn left(lent: &Reservoir) -> [Part; 2] {
    [
        ("words", numbers(&lent.words)),
        ("list", numbers(&lent.list)),
    ]
}

impl History {
    /// Each call's name, what it takes and says, and the memory after it, in a list of so many places.
    fn follow(&self, places: usize, mut each: impl FnMut(&'static str, &[u64], u64, &Reservoir)) {
        let mut lent = Reservoir::lent(places);
        let said = lent.open(self.k, self.n, self.key);
        let taken = [self.key, self.k.into(), self.n.into()];
        each("reservoir_new", &taken, done(said), &lent);
        for _ in 0..self.admits {
            let [_, _, k, _, j_max, used] = lent.words;
            if self.grows && used == k && j_max < 14 {
                let said = lent.grow_layer();
                each("reservoir_grow_layer", &[], done(said), &lent);
            }
            let said = lent.admit();
            each("reservoir_next", &[], exchanged(said), &lent);
        }
    }

    fn case(&self, places: usize) -> Case {
        let mut case = Case::lent([untouched("words", 6), untouched("list", places)]);
        self.follow(places, |name, taken, said, lent| {
            case.call(name, taken, said, left(lent));
        });
        case.compare();
        case
    }

    /// The greatest used length that a call ends with.
    fn longest(&self) -> usize {
        let mut longest = 0;
        self.follow(PLACES, |_, _, _, lent| longest = longest.max(lent.words[5]));
        longest as usize
    }

    /// In a list that just holds what each call ends with, and in one that lacks a place for that: refusal 4.
    fn tight(&self) -> [Case; 2] {
        let longest = self.longest();
        [self.case(longest), self.case(longest - 1)]
    }
}

/// What an admit says: in * 2^32 + out.
fn exchanged(said: Told<Option<(u32, u32)>>) -> u64 {
    coded(said.map(|pair| pair.map(|(came, went)| (u64::from(came) << 32) + u64::from(went))))
}

/// Every k and n up to 12.
fn small() -> impl Iterator<Item = (u32, u32)> {
    (1..=12).flat_map(|n| (1..=n).map(move |k| (k, n)))
}

/// k up to 40 and n of any length, now and then at a power of four.
fn any(draws: &mut Draws) -> (u32, u32) {
    let n = match draws.below(4) {
        0 => 1 << (2 * draws.below(16)),
        1 => (1 << (2 * draws.below(15))) + 1,
        _ => 1 + (draws.below(1 << 30) >> draws.below(28)),
    };
    let k = 1 + draws.below(n.min(40));
    (k as u32, n as u32)
}

/// Key, k, n and a number of admits: layers that are skipped; none at the limit; a growth by eight outputs that ends with five.
const MARKED: [(u64, u32, u32, u32); 3] = [(3, 1, 1, 12), (0xa, 1, 1 << 28, 12), (0, 2, 4, 1)];

pub fn reservoirs() -> Vec<Case> {
    let mut draws = Draws(6);
    let mut cases = Vec::new();
    let mut add = |(k, n), key, admits| {
        let plain = History {
            key,
            k,
            n,
            admits,
            grows: false,
        };
        cases.push(plain.case(PLACES));
        cases.extend(plain.tight());
        let grown = History {
            grows: true,
            ..plain
        };
        cases.push(grown.case(PLACES));
        cases.push(grown.case(plain.longest()));
    };
    for (key, k, n, admits) in MARKED {
        add((k, n), key, admits);
    }
    for key in keys(1, &mut draws) {
        small().for_each(|pair| add(pair, key, 12));
    }
    for _ in 0..60 {
        add(any(&mut draws), draws.next(), 40);
    }
    cases
}
