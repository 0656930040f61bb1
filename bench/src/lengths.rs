//! How many places a reservoir uses of its list: over many keys the middle, what 999 in 1000 do with, and the longest. For each k the
//! n are from k up to 2^20, as many in each doubling.

use oracle::Draws;

/// The largest n, and the length of the list that no open of n or less outgrows: 4^10 numbers.
const LARGEST: u32 = 1 << 20;

/// So many opens for each k, fewer where each takes long.
fn trials(k: u32) -> u32 {
    (20_000_000 / k).clamp(200_000, 2_000_000)
}

/// An n from k up to 2^20.
fn site(k: u32, draws: &mut Draws) -> u32 {
    let doublings = (LARGEST / k).ilog2();
    let base = k << (draws.next() % u64::from(doublings)) as u32;
    base + (draws.next() % u64::from(base)) as u32
}

/// The used lengths of many opens, ascending.
fn used(k: u32, list: &mut [u32]) -> Vec<u32> {
    let mut draws = Draws(u64::from(k));
    let mut record = [0; 6];
    let mut lengths: Vec<u32> = (0..trials(k))
        .map(|_| {
            let n = site(k, &mut draws);
            proved::reservoir_new(draws.next(), k, n, &mut record, list).unwrap();
            record[5]
        })
        .collect();
    lengths.sort_unstable();
    lengths
}

pub fn all() {
    println!("places used of a list                   opens   middle  999 in 1000  longest");
    let mut list = vec![0; LARGEST as usize];
    for k in [1, 2, 5, 10, 20, 50, 100, 200, 500, 1000] {
        eprintln!("bench: opens with k = {k}");
        let lengths = used(k, &mut list);
        let at = |part: usize| lengths[(lengths.len() - 1) * part / 1000];
        println!(
            "k = {k:<32} {:>9} {:>8} {:>12} {:>8}",
            lengths.len(),
            at(500),
            at(999),
            at(1000)
        );
    }
}
