//! The set of rounds: histories over the original's own types, each in memory of stated lengths, call by call and in one replay.

use oracle::{splitmix64, Draws, Round, RoundCall, Told, UNTOUCHED};

use crate::cases::{numbers, untouched, Case, Part};
use crate::{coded, done};

/// The longest list of a history and the longest one of a plan that the replay lends.
const PLACES: u64 = 256;
const FEW: u64 = 24;

/// A plan, beside the calls that a round's replay knows.
const PLAN: u64 = 2;

/// An open with another n.
const OPEN: u64 = 1 << 33;

/// An open's numbers, and how much memory the calls are lent.
#[derive(Clone, Copy)]
struct Start {
    key: u64,
    k: u32,
    n: u32,
    places: u64,
    bytes: u64,
    locations: u64,
    terminals: u64,
    scratch: u64,
}

impl Start {
    /// With memory enough for a plan of 16 slots or fewer.
    fn of(key: u64, k: u32, n: u32, bytes: u64) -> Self {
        Self {
            key,
            k,
            n,
            places: PLACES,
            bytes,
            locations: FEW,
            terminals: FEW,
            scratch: FEW,
        }
    }

    fn lent(&self) -> Memory {
        let table = (0..self.bytes).map(|i| (splitmix64(self.key ^ i) % 3) as u8);
        Memory {
            start: *self,
            round: Round::lent(self.places as usize, table.collect()),
            locations: vec![UNTOUCHED; self.locations as usize],
            terminals: vec![UNTOUCHED; self.terminals as usize],
        }
    }

    /// What is lent for a history, and for a replay.
    fn parts(&self, lent: &Memory) -> Vec<Part> {
        let mut parts = lent.left();
        parts.push(untouched("scratch", self.scratch as usize));
        parts
    }

    /// Call by call, and last whether the round fits.
    fn history(&self, calls: &[u64]) -> Case {
        let mut lent = self.lent();
        let mut case = Case::lent(self.parts(&lent));
        case.lend(untouched("words", 7));
        for call in std::iter::once(OPEN + u64::from(self.n)).chain(calls.iter().copied()) {
            let (name, taken) = self.call(call);
            let said = lent.called(call);
            case.call(name, &taken, said, lent.after());
        }
        case.call("round_fits", &[], lent.round.opened().into(), []);
        case.compare();
        case
    }

    /// A call's name and what it takes.
    fn call(&self, number: u64) -> (&'static str, Vec<u64>) {
        if number == PLAN {
            return ("round_plan", vec![]);
        }
        if number >= OPEN {
            let taken = vec![self.key, self.k.into(), number - OPEN];
            return ("round_open", taken);
        }
        match RoundCall::of(number).expect("a call") {
            RoundCall::Admit => ("round_admit", vec![]),
            RoundCall::Join => ("round_join", vec![]),
            RoundCall::Withdraw(slot) => ("round_withdraw", vec![slot.into()]),
        }
    }

    /// In one call, with so many answers.
    fn replay(&self, answers: u64, calls: &[u64]) -> Case {
        let mut lent = self.lent();
        let mut case = Case::lent(self.parts(&lent));
        case.lend(("wide_list", calls.to_vec()));
        case.lend(untouched("answers", answers as usize));
        let mut said = vec![UNTOUCHED; answers as usize];
        let told = lent.round.replay(
            (self.key, self.k, self.n),
            calls,
            &mut said,
            &mut lent.locations,
            &mut lent.terminals,
            self.scratch as usize,
        );
        let mut left = lent.left();
        left.push(("answers", numbers(&said)));
        let taken = [self.key, self.k.into(), self.n.into()];
        case.call("round_replay", &taken, done(told), left);
        case.compare();
        case
    }
}

/// A round, and the two lists of its plans.
struct Memory {
    start: Start,
    round: Round,
    locations: Vec<u32>,
    terminals: Vec<u32>,
}

/// The values that a call says: in * 2^32 + out, a slot, or 0 for a withdraw.
fn valued(call: RoundCall, values: Vec<u32>) -> Option<u64> {
    match (call, &values[..]) {
        (RoundCall::Admit, []) => None,
        (_, values) => Some(values.iter().fold(0, |all, &x| (all << 32) + u64::from(x))),
    }
}

impl Memory {
    /// What a call says.
    fn called(&mut self, number: u64) -> u64 {
        let &mut Start {
            key, k, scratch, ..
        } = &mut self.start;
        if number == PLAN {
            let (locations, terminals) = (&mut self.locations, &mut self.terminals);
            return done(self.round.plan(locations, terminals, scratch as usize));
        }
        if number >= OPEN {
            return done(self.round.open(key, k, (number - OPEN) as u32));
        }
        let call = RoundCall::of(number).expect("a call");
        let said: Told<_> = self.round.call(call);
        coded(said.map(|values| valued(call, values)))
    }

    /// The list, the table and the plan's two lists.
    fn left(&self) -> Vec<Part> {
        vec![
            ("list", numbers(self.round.list())),
            ("table", numbers(self.round.table())),
            ("locations", numbers(&self.locations)),
            ("terminals", numbers(&self.terminals)),
        ]
    }

    /// The same and the record's words.
    fn after(&self) -> Vec<Part> {
        let mut parts = self.left();
        parts.push(("words", numbers(&self.round.words())));
        parts
    }
}

fn withdraw(slot: u64) -> u64 {
    (1 << 32) + slot
}

/// An admit, a join or a withdraw, mostly of a low slot, which is active more often.
fn any_change(bytes: u64, draws: &mut Draws) -> u64 {
    match draws.below(16) {
        0..5 => 0,
        5..11 => 1,
        11 => withdraw(bytes + draws.below(1 << 31)),
        12 => withdraw(draws.below(bytes + 1)),
        _ => withdraw(draws.below(4)),
    }
}

/// The same, or a plan, or now and then an open with another n, a refused one too.
fn any_call(start: &Start, draws: &mut Draws) -> u64 {
    match draws.below(32) {
        0 => OPEN + draws.below(u64::from(start.k) + 40),
        1 if draws.below(4) == 0 => OPEN + (1 << 30) + draws.below(2),
        1..8 => PLAN,
        _ => any_change(start.bytes, draws),
    }
}

/// k up to 20 and n up to 5,000, small ones more often; a table of 16 bytes or fewer.
fn any_start(draws: &mut Draws) -> Start {
    let n = 1 + (draws.below(5000) >> draws.below(13));
    let k = 1 + draws.below(n.min(20));
    Start::of(draws.next(), k as u32, n as u32, draws.below(17))
}

/// Memory of just the length that a plan needs, or one place less in one of its lists; a list that a growth may pass.
fn tight(start: Start, draws: &mut Draws) -> Start {
    let k = u64::from(start.k);
    let less = [draws.below(6), draws.below(6), draws.below(6)].map(|drawn| u64::from(drawn == 0));
    Start {
        places: (2 * k + draws.below(6 * k + 2)).min(PLACES),
        locations: k - less[0],
        terminals: k - less[1],
        scratch: start.bytes.saturating_sub(less[2]),
        ..start
    }
}

/// Opens that are refused 1, 2, 3 and 4.
fn refused(draws: &mut Draws) -> Start {
    let start = any_start(draws);
    match draws.below(4) {
        0 => Start {
            n: (1 << 30) + 1 + draws.below(9) as u32,
            ..start
        },
        1 => Start { k: 0, ..start },
        2 => Start {
            k: start.n + 1,
            ..start
        },
        _ => Start {
            places: draws.below(start.k.into()),
            ..start
        },
    }
}

/// A history call by call, and the changes in it as one replay.
fn both(start: Start, draws: &mut Draws) -> [Case; 2] {
    let count = draws.below(52);
    let calls: Vec<u64> = (0..count).map(|_| any_call(&start, draws)).collect();
    let mut changes: Vec<u64> = (0..count).map(|_| any_change(start.bytes, draws)).collect();
    // Now and then a number that is no call, or answers that do not fit.
    if draws.below(16) == 0 {
        changes.push([2, u32::MAX.into(), 1 << 33][draws.below(3) as usize]);
    }
    let needed = 4 * changes.len() as u64 + 4;
    let answers = match draws.below(8) {
        0 => needed - 1,
        1 => needed,
        _ => needed + draws.below(8),
    };
    [start.history(&calls), start.replay(answers, &changes)]
}

/// The line program's example; layers that are skipped; none at the limit; a growth that ends with fewer places; document 01's
/// "Three joins, then withdraw 1, 2 .. or 2, 1".
fn marked() -> Vec<Case> {
    let joined = [1, 1, 1];
    let after = |calls: &[u64]| [&joined, calls, &[PLAN]].concat();
    vec![
        Start::of(1, 1, 1, 1).history(&[1, PLAN, withdraw(3), withdraw(0), PLAN]),
        Start::of(3, 1, 1, 4).history(&after(&[0, PLAN, 0, PLAN, 0, PLAN, 0])),
        Start::of(0xa, 1, 1 << 28, 4).history(&after(&[0, PLAN, 0])),
        Start::of(0, 2, 4, 4).history(&after(&[0, PLAN, 0])),
        Start::of(7, 3, 9, 4).history(&after(&[withdraw(1), withdraw(2), PLAN, 1])),
        Start::of(7, 3, 9, 4).history(&after(&[withdraw(2), withdraw(1), PLAN, 1])),
    ]
}

pub fn rounds() -> Vec<Case> {
    let mut draws = Draws(10);
    let mut cases = marked();
    for _ in 0..120 {
        let start = any_start(&mut draws);
        cases.extend(both(start, &mut draws));
        let start = tight(any_start(&mut draws), &mut draws);
        cases.extend(both(start, &mut draws));
    }
    for _ in 0..20 {
        let start = refused(&mut draws);
        cases.extend(both(start, &mut draws));
    }
    cases
}
