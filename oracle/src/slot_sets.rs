//! The set of slots: lookups of the original in tables with slots deleted, histories with at most one slot deleted at a time,
//! and states of locations.

use oracle::{location_state, splitmix64, Draws, Slots, Told};

use crate::cases::{numbers, untouched, Case, Part};
use crate::{coded, keys};

/// A lookup: how many slots, the table's length, by what it is filled, and the scratch's length.
#[derive(Clone, Copy)]
struct Lookup {
    total: u64,
    bytes: u64,
    seed: u64,
    percent: u64,
    kept: u64,
    places: u64,
}

impl Lookup {
    fn byte(&self, i: u64) -> u8 {
        let drawn = splitmix64(self.seed ^ i);
        if i >= self.total {
            (drawn % 256) as u8
        } else {
            u8::from(i == self.kept || drawn % 100 >= self.percent)
        }
    }

    fn slots(&self) -> Slots {
        let table = (0..self.bytes).map(|i| self.byte(i)).collect();
        Slots::with(self.total as u32, table)
    }

    /// `get`, and the lookup without its tests.
    fn case(&self, state: u64) -> Case {
        let slots = self.slots();
        let places = self.places as usize;
        let got = slots.get(state, places).map(|slot| Some(slot.into()));
        let first = slots.first_active(state, places).map(u64::from);
        let table = ("table", numbers(&slots.table));
        looked_up(
            self.total,
            table,
            state,
            places,
            coded(got),
            coded(Ok(first)),
        )
    }

    /// So many slots and no byte more, a part of them deleted, and a scratch that is long enough.
    fn of(total: u64, percent: u64, draws: &mut Draws) -> Self {
        Self {
            total,
            bytes: total,
            seed: draws.next(),
            percent,
            kept: draws.below(total.max(1)),
            places: total,
        }
    }
}

/// Both lookups in a table with so many slots, by a scratch of so many places.
pub fn looked_up(total: u64, table: Part, state: u64, places: usize, got: u64, first: u64) -> Case {
    let mut case = Case::lent([table, untouched("scratch", places)]);
    for (name, said) in [("slots_get", got), ("first_active", first)] {
        case.call(name, &[state, total], said, []);
        case.compare();
    }
    case
}

/// Few slots: none of them deleted, some, all but one, all; bytes behind the count; a scratch too short.
fn few(total: u64, draws: &mut Draws) -> Vec<Case> {
    let mut cases = Vec::new();
    for percent in [0, 30, 60, 90, 100] {
        let lookup = Lookup::of(total, percent, draws);
        cases.push(lookup.case(draws.next()));
    }
    let bytes = total + draws.below(10);
    let behind = Lookup {
        bytes,
        places: bytes,
        ..Lookup::of(total, 70, draws)
    };
    cases.push(behind.case(draws.next()));
    let none = Lookup {
        kept: total,
        ..Lookup::of(total, 100, draws)
    };
    cases.push(none.case(draws.next()));
    let short = Lookup {
        places: draws.below(total.max(1)),
        ..Lookup::of(total, 80, draws)
    };
    cases.push(short.case(draws.next()));
    cases
}

fn lookups(draws: &mut Draws) -> Vec<Case> {
    let mut cases: Vec<Case> = (0..=70).flat_map(|total| few(total, draws)).collect();
    for (total, percent, count) in [
        (256, 0, 16),
        (256, 50, 32),
        (256, 90, 32),
        (256, 100, 16),
        (4096, 0, 16),
        (4096, 50, 32),
        (4096, 90, 32),
        (4096, 100, 16),
    ] {
        for _ in 0..count {
            let lookup = Lookup::of(total, percent, draws);
            cases.push(lookup.case(draws.next()));
        }
    }
    cases
}

/// What a call says: the count after it, and for an add the slot too.
fn called(call: u64, slots: &mut Slots) -> Told<u64> {
    match call {
        0 => slots
            .add()
            .map(|slot| (u64::from(slots.total()) << 32) + u64::from(slot)),
        _ => slots
            .remove((call - 1) as u32)
            .map(|()| slots.total().into()),
    }
}

/// A slot to remove, one above the count among them. Where one is deleted, it is that, the last, or no slot at all.
fn removed(slots: &Slots, draws: &mut Draws) -> u64 {
    let total = u64::from(slots.total());
    if slots.deleted() == 0 {
        return draws.below(total + 1);
    }
    let deleted = (0..slots.total()).find(|&slot| !slots.is_active(slot));
    match draws.below(3) {
        0 => deleted.unwrap().into(),
        1 => total - 1,
        _ => total + draws.below(2),
    }
}

/// A table after a call: the slot count, how many slots are active, whether none is, and for each byte whether its slot is active, and
/// the byte.
pub struct After {
    pub total: u32,
    pub len: u32,
    pub is_empty: bool,
    pub table: Vec<(bool, u8)>,
}

/// What is said of the slots after a call.
fn asked(case: &mut Case, after: &After) {
    let total = u64::from(after.total);
    case.call("slots_len", &[total], after.len.into(), []);
    case.call("slots_is_empty", &[total], after.is_empty.into(), []);
    for (slot, &(active, _)) in after.table.iter().enumerate() {
        case.call("slots_is_active", &[slot as u64, total], active.into(), []);
    }
}

/// Calls in a table of so many bytes, from no slot on: 0 is an add, 1 + slot a remove of that slot.
pub fn history_of(
    bytes: usize,
    calls: &[u64],
    mut made: impl FnMut(u64) -> (Told<u64>, After),
) -> Case {
    let mut case = Case::lent([untouched("table", bytes)]);
    let mut total = 0;
    for &call in calls {
        let (said, after) = made(call);
        let (name, taken) = match call {
            0 => ("slots_add", vec![total]),
            _ => ("slots_remove", vec![call - 1, total]),
        };
        let table = after.table.iter().map(|&(_, byte)| byte.into()).collect();
        case.call(name, &taken, coded(said.map(Some)), [("table", table)]);
        asked(&mut case, &after);
        total = after.total.into();
    }
    case.compare();
    case
}

/// Calls with at most one slot deleted at a time.
fn single(bytes: usize, count: u64, draws: &mut Draws) -> Vec<u64> {
    let mut slots = Slots::lent(bytes);
    let mut calls = Vec::new();
    for _ in 0..count {
        let call = match draws.below(5) {
            0..3 => 0,
            _ => 1 + removed(&slots, draws),
        };
        let _ = called(call, &mut slots);
        calls.push(call);
    }
    calls
}

fn history(bytes: usize, calls: &[u64]) -> Case {
    let mut slots = Slots::lent(bytes);
    history_of(bytes, calls, |call| {
        let said = called(call, &mut slots);
        let all = slots.table.iter().enumerate();
        let table = all
            .map(|(slot, &byte)| (slots.is_active(slot as u32), byte))
            .collect();
        let after = After {
            total: slots.total(),
            len: slots.len(),
            is_empty: slots.is_empty(),
            table,
        };
        (said, after)
    })
}

fn states(draws: &mut Draws) -> Vec<Case> {
    let mut cases = Vec::new();
    for key in keys(4, draws) {
        let any = draws.next() as u32;
        for location in [0, 1, (1 << 30) - 1, u32::MAX, any] {
            let state = location_state(key, location);
            cases.push(Case::of("location_state", &[key, location.into()], state));
        }
    }
    cases
}

pub fn slots() -> Vec<Case> {
    let mut draws = Draws(8);
    let mut cases = lookups(&mut draws);
    for bytes in (0..=24).cycle().take(300) {
        let count = 1 + draws.below(58);
        cases.push(history(bytes, &single(bytes, count, &mut draws)));
    }
    cases.extend(states(&mut draws));
    cases
}
