//! Reservoirs: opening, streams of admits, and the pass over the list that each of the library's admits makes.

use oracle::{ConsistentReservoir, Draws};

use crate::{measure, measure_alone, report, report_alone, KEY};

const N: u32 = 10_000_000;

/// Memory for a reservoir of size k.
struct Lent {
    record: [u32; 6],
    list: Vec<u32>,
}

impl Lent {
    fn new(k: u32) -> Self {
        Self {
            record: [0; 6],
            list: vec![0; 8 * k as usize + 64],
        }
    }

    fn open(&mut self, k: u32, n: u32, key: u64) {
        proved::reservoir_new(key, k, n, &mut self.record, &mut self.list).unwrap();
    }

    /// The numbers listed.
    fn listed(&self) -> &[u32] {
        &self.list[..self.record[5] as usize]
    }

    fn admit(&mut self) -> Option<(u32, u32)> {
        proved::reservoir_next(&mut self.record, &mut self.list).unwrap()
    }
}

/// How many numbers are listed, and the last, as one number.
fn ends(listed: &[u32]) -> u64 {
    ((listed.len() as u64) << 32) + u64::from(*listed.last().unwrap())
}

fn keys(count: usize) -> Vec<u64> {
    let mut draws = Draws(1);
    (0..count).map(|_| draws.next()).collect()
}

/// `new` with k of N.
fn opening(k: u32) {
    let keys = keys(1_000_000 / k as usize);
    let ours = || {
        let mut lent = Lent::new(k);
        keys.iter().fold(0, |sum, &key| {
            lent.open(k, N, key);
            sum ^ ends(lent.listed())
        })
    };
    let theirs = || {
        keys.iter().fold(0, |sum, &key| {
            sum ^ ends(ConsistentReservoir::new(k, N, key).values())
        })
    };
    report(
        &format!("reservoir of {k} of {N}, new"),
        measure(keys.len() as u64, ours, theirs),
    );
}

/// What an admit says, as one number.
pub fn exchanged(pair: Option<(u32, u32)>) -> u64 {
    let (came, went) = pair.unwrap();
    (u64::from(came) << 32) + u64::from(went)
}

/// Ten times k admits from k of k on, which bring n to some 22,000 times k.
fn streaming(k: u32) {
    let keys = keys(20_000 / k as usize);
    let admits = 10 * k;
    let ours = || {
        let mut lent = Lent::new(k);
        keys.iter().fold(0, |sum, &key| {
            lent.open(k, k, key);
            (0..admits).fold(sum, |sum, _| sum ^ exchanged(lent.admit()))
        })
    };
    let theirs = || {
        keys.iter().fold(0, |sum, &key| {
            let mut reservoir = ConsistentReservoir::new(k, k, key);
            (0..admits).fold(sum, |sum, _| sum ^ exchanged(reservoir.next()))
        })
    };
    report(
        &format!("reservoir of {k}, each admit of a stream"),
        measure(keys.len() as u64 * u64::from(admits), ours, theirs),
    );
}

/// The test of a record against its list, for each listed number.
fn testing(k: u32) {
    let mut lent = Lent::new(k);
    lent.open(k, N, KEY);
    let listed = lent.listed().len() as u64;
    let turns = 1_000_000 / listed;
    let ours = || {
        (0..turns).fold(0, |sum, _| {
            sum + u64::from(proved::reservoir_fits(&lent.record, &lent.list).unwrap())
        })
    };
    report_alone(
        &format!("fits, each of {listed} listed numbers"),
        measure_alone(turns * listed, ours),
    );
}

/// An admit that does not grow, for each listed number. It writes nothing, so the same one is made again and again.
fn admitting(k: u32) {
    let mut lent = Lent::new(k);
    lent.open(k, N, KEY);
    let record = lent.record;
    let listed = lent.listed().len() as u64;
    let turns = 1_000_000 / listed;
    let list = std::cell::RefCell::new(lent.list);
    let ours = || {
        (0..turns).fold(0, |sum, _| {
            let said = proved::reservoir_next(&mut record.clone(), &mut list.borrow_mut());
            sum ^ exchanged(said.unwrap())
        })
    };
    report_alone(
        &format!("admit, each of {listed} listed numbers"),
        measure_alone(turns * listed, ours),
    );
}

pub fn all() {
    [100, 1000].into_iter().for_each(opening);
    [100, 1000].into_iter().for_each(streaming);
    [10, 100, 1000, 10_000, 100_000]
        .into_iter()
        .for_each(testing);
    [100, 1000, 10_000].into_iter().for_each(admitting);
}
