//! Rounds: whole plans beside as many lookups of the original, the tests that it does not make, and calls that change a round.

use oracle::{location_state, ConsistentReservoir, Draws, Slots};

use crate::reservoirs::exchanged;
use crate::slots::{any_slots, found, get, mixed};
use crate::{measure, measure_alone, report, report_alone, KEY};

const N: u32 = 10_000_000;

/// How many locations and slots, and how many of the slots are active: 10 % deleted, or none.
const PLANS: [(u32, u32, u32); 4] = [
    (1000, 256, 230),
    (1000, 256, 256),
    (8192, 512, 461),
    (8192, 512, 512),
];

/// A round in memory that is long enough.
pub struct Lent {
    record: [u32; 7],
    list: Vec<u32>,
    table: Vec<u8>,
}

impl Lent {
    /// k of n locations, and these slots. Joins and withdraws would lead to the same.
    pub fn open(k: u32, n: u32, slots: &Slots) -> Self {
        let mut lent = Self {
            record: [0; 7],
            list: vec![0; 8 * k as usize + 64],
            table: slots.table.clone(),
        };
        proved::round_open(KEY, k, n, &mut lent.record, &mut lent.list).unwrap();
        lent.record[6] = slots.total();
        lent
    }

    pub fn plan(&self, locations: &mut [u32], terminals: &mut [u32], scratch: &mut [u64]) {
        let (record, list, table) = (&self.record, &self.list, &self.table);
        proved::round_plan(record, list, table, locations, terminals, scratch).unwrap();
    }

    fn fits(&self) -> bool {
        proved::round_fits(&self.record, &self.list, &self.table).unwrap()
    }

    fn admit(&mut self) -> Option<(u32, u32)> {
        proved::round_admit(&mut self.record, &mut self.list, &self.table).unwrap()
    }

    /// A join, and the withdraw of the slot that it took.
    fn join_and_withdraw(&mut self) -> u32 {
        let (record, list, table) = (&mut self.record, &self.list, &mut self.table);
        let slot = proved::round_join(record, list, table).unwrap();
        proved::round_withdraw(slot, record, list, table).unwrap();
        slot
    }
}

/// A plan for each of its locations, beside the original's `get` of each one's state; and the tests that a plan makes once.
fn planning((k, total, active): (u32, u32, u32)) {
    let slots = any_slots(total, active, &mut Draws(1));
    let lent = Lent::open(k, N, &slots);
    let places = k as usize;
    let (mut locations, mut unused) = (vec![0; places], vec![0; places]);
    lent.plan(&mut locations, &mut unused, &mut vec![0; total as usize]);
    let states: Vec<u64> = locations.iter().map(|&x| location_state(KEY, x)).collect();
    let turns = 100_000 / u64::from(k);
    let ours = || {
        let (mut locations, mut terminals) = (vec![0; places], vec![0; places]);
        let mut scratch = vec![0; total as usize];
        (0..turns).fold(0u64, |sum, _| {
            lent.plan(&mut locations, &mut terminals, &mut scratch);
            sum.rotate_left(1) ^ mixed(terminals.iter().copied())
        })
    };
    let theirs = || {
        (0..turns).fold(0u64, |sum, _| {
            sum.rotate_left(1) ^ found(&states, |state| get(&slots, state).unwrap())
        })
    };
    let what = format!("{k} locations, {active} of {total} slots");
    let each = turns * u64::from(k);
    report(&format!("plan, {what}"), measure(each, ours, theirs));
    let tests = || (0..turns).fold(0, |sum, _| sum + u64::from(lent.fits()));
    report_alone(&format!("its tests, {what}"), measure_alone(each, tests));
}

/// Ten times k admits from k of k on, in a round of 256 slots.
fn streaming(k: u32) {
    let slots = any_slots(256, 230, &mut Draws(1));
    let admits = 10 * k;
    let ours = || {
        let mut lent = Lent::open(k, k, &slots);
        (0..admits).fold(0, |sum, _| sum ^ exchanged(lent.admit()))
    };
    let theirs = || {
        let mut reservoir = ConsistentReservoir::new(k, k, KEY);
        (0..admits).fold(0, |sum, _| sum ^ exchanged(reservoir.next()))
    };
    report(
        &format!("round of {k}, each admit of a stream"),
        measure(admits.into(), ours, theirs),
    );
}

/// Joins and withdraws by turns, in a round of 256 slots.
fn changing(k: u32) {
    let slots = any_slots(256, 230, &mut Draws(1));
    let turns = 1_000_000 / u64::from(k);
    let ours = || {
        let mut lent = Lent::open(k, N, &slots);
        (0..turns).fold(0, |sum, _| sum + u64::from(lent.join_and_withdraw()))
    };
    report_alone(
        &format!("round of {k}, a join or a withdraw"),
        measure_alone(2 * turns, ours),
    );
}

/// The same in a replay, where each call is made on the lent record: 230 joins, then a join and a withdraw by turns. The open, the
/// plan and the memory are in the figure.
fn replaying(k: u32) {
    const ACTIVE: u32 = 230;
    let turns = 10_000_000 / u64::from(k);
    let mut calls = vec![1; ACTIVE as usize];
    (0..turns).for_each(|_| calls.extend([1, 1 << 32 | u64::from(ACTIVE)]));
    let places = k as usize;
    let ours = || {
        let (mut list, mut table) = (vec![0; 8 * places + 64], vec![0; 256]);
        let mut answers = vec![0; 4 * calls.len() + 4];
        let (mut locations, mut terminals) = (vec![0; places], vec![0; places]);
        let mut scratch = vec![0; 256];
        proved::round_replay(
            (KEY, k, N),
            &calls,
            &mut list,
            &mut table,
            &mut answers,
            &mut locations,
            &mut terminals,
            &mut scratch,
        )
        .unwrap();
        mixed(answers.iter().copied())
    };
    report_alone(
        &format!("round of {k}, a call of a replay"),
        measure_alone(calls.len() as u64, ours),
    );
}

pub fn all() {
    PLANS.into_iter().for_each(planning);
    [100, 1000].into_iter().for_each(streaming);
    [100, 1000].into_iter().for_each(changing);
    [100, 1000].into_iter().for_each(replaying);
}
