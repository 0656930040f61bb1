//! Calls on slots whose table is made by hand, and histories with any number of slots deleted. Answers and bytes
//! are document 01's.

use oracle::{Draws, Told, UNTOUCHED_BYTE};

use crate::cases::{numbers, Case, Part};
use crate::handmade::{changed, kept, refused, Lent};
use crate::slot_sets::{history_of, looked_up, After};
use crate::{coded, NONE};

/// Slots in a table.
#[derive(Clone)]
struct Slots {
    total: u32,
    table: Vec<u8>,
}

fn slots(total: u32, table: &[u8]) -> Slots {
    Slots {
        total,
        table: table.to_vec(),
    }
}

impl Lent for Slots {
    fn parts(&self) -> Vec<Part> {
        vec![("table", numbers(&self.table))]
    }

    fn taken(&self) -> Vec<u64> {
        vec![self.total.into()]
    }
}

/// An add that takes a slot.
fn added(before: Slots, slot: u32, after: Slots) -> Case {
    let answer = (u64::from(after.total) << 32) + u64::from(slot);
    changed("slots_add", &before, &[], answer, &after)
}

fn add_refused(slots: Slots, c: u32) -> Case {
    refused("slots_add", &slots, &[], c)
}

fn adds() -> Vec<Case> {
    vec![
        added(slots(0, &[255]), 0, slots(1, &[1])),
        added(slots(0, &[0, 0]), 0, slots(1, &[1, 0])),
        added(slots(2, &[1, 1, 0, 7]), 2, slots(3, &[1, 1, 1, 7])),
        added(slots(2, &[1, 1, 1]), 2, slots(3, &[1, 1, 1])),
        added(slots(2, &[1, 1, 255]), 2, slots(3, &[1, 1, 1])),
        // The lowest deleted slot.
        added(slots(2, &[1, 0]), 1, slots(2, &[1, 1])),
        added(slots(3, &[1, 0, 0, 255]), 1, slots(3, &[1, 1, 0, 255])),
        added(slots(3, &[0, 0, 1]), 0, slots(3, &[1, 0, 1])),
        added(slots(3, &[1, 1, 0, 0]), 2, slots(3, &[1, 1, 1, 0])),
        add_refused(slots(0, &[]), 9),
        add_refused(slots(1, &[1]), 9),
        add_refused(slots(2, &[1, 1]), 9),
    ]
}

/// A remove.
fn removed(before: Slots, slot: u32, after: Slots) -> Case {
    changed(
        "slots_remove",
        &before,
        &[slot.into()],
        after.total.into(),
        &after,
    )
}

fn remove_refused(slots: Slots, slot: u32, c: u32) -> Case {
    refused("slots_remove", &slots, &[slot.into()], c)
}

fn removes() -> Vec<Case> {
    vec![
        // The last slot: no byte is written, and the count falls by one only.
        removed(slots(1, &[1]), 0, slots(0, &[1])),
        removed(slots(3, &[1, 1, 1]), 2, slots(2, &[1, 1, 1])),
        removed(slots(3, &[1, 0, 1, 9]), 2, slots(2, &[1, 0, 1, 9])),
        removed(slots(3, &[0, 0, 1]), 2, slots(2, &[0, 0, 1])),
        // Another one.
        removed(slots(3, &[1, 1, 1]), 0, slots(3, &[0, 1, 1])),
        removed(slots(3, &[1, 1, 1, 255]), 1, slots(3, &[1, 0, 1, 255])),
        removed(slots(2, &[1, 0]), 0, slots(2, &[0, 0])),
        // Deleted, the last one too; from the count on, whatever the byte; past the table.
        remove_refused(slots(3, &[1, 0, 1]), 1, 10),
        remove_refused(slots(2, &[1, 0, 1]), 1, 10),
        remove_refused(slots(2, &[1, 1, 1]), 2, 10),
        remove_refused(slots(2, &[1, 1, 1]), 3, 10),
        remove_refused(slots(2, &[1, 1, 1]), u32::MAX, 10),
        remove_refused(slots(0, &[1]), 0, 10),
        remove_refused(slots(0, &[]), 0, 10),
    ]
}

/// Records that refusal 12 is for: a count past the table, a byte above 1 below the count.
fn unfit() -> Vec<Slots> {
    vec![
        slots(1, &[]),
        slots(3, &[1, 1]),
        slots(3, &[1, 0]),
        slots(65_536, &[1, 1]),
        slots(65_537, &[1, 1]),
        slots(u32::MAX, &[1, 1, 1]),
        slots(3, &[2, 1, 1]),
        slots(3, &[1, 255, 1]),
        slots(3, &[0, 0, 2]),
        slots(3, &[1, 1, 128, 1]),
    ]
}

/// Records that fit, with how many are active.
fn fit() -> Vec<(Slots, u64)> {
    vec![
        (slots(0, &[]), 0),
        (slots(0, &[2, 255]), 0),
        (slots(1, &[1]), 1),
        (slots(1, &[0, 1]), 0),
        (slots(3, &[1, 0, 1]), 2),
        (slots(3, &[1, 0, 1, 2, 255]), 2),
        (slots(3, &[0, 0, 0, 1, 1]), 0),
        (slots(4, &[1, 1, 1, 1]), 4),
    ]
}

/// Whether the count fits, how many slots are active, whether none is, and whether a slot is.
fn asked(slots: &Slots, slot: u32, answers: [u64; 4]) -> [Case; 4] {
    let [fits, len, is_empty, is_active] = answers;
    [
        kept("slots_fits", slots, &[], fits),
        kept("slots_len", slots, &[], len),
        kept("slots_is_empty", slots, &[], is_empty),
        kept("slots_is_active", slots, &[slot.into()], is_active),
    ]
}

/// For slots below the count, at it and above.
fn queries() -> Vec<Case> {
    let mut cases = Vec::new();
    for slot in [0, 1, 2, 3, 4, u32::MAX] {
        for (slots, active) in fit() {
            let below = slot < slots.total;
            let is_active = below && slots.table[slot as usize] == 1;
            let is_empty = u64::from(active == 0);
            cases.extend(asked(&slots, slot, [1, active, is_empty, is_active.into()]));
        }
        for slots in unfit() {
            let c = coded(Err(12));
            cases.extend(asked(&slots, slot, [0, c, c, c]));
        }
    }
    cases
}

/// Under state 0. `first_active` answers where `get` refuses too.
fn found(slots: Slots, places: u64, got: Told<u64>, first: Option<u64>) -> Case {
    let (got, first) = (coded(got.map(Some)), first.unwrap_or(NONE));
    let table = ("table", numbers(&slots.table));
    looked_up(slots.total.into(), table, 0, places as usize, got, first)
}

/// Under state 0 the choice order of 9 is 7, 3, 1, 4, 2, 8, 0, 5, 6.
const ORDER: [u64; 9] = [7, 3, 1, 4, 2, 8, 0, 5, 6];

/// One of nine slots active, in a scratch that is long enough, that just ends before it, and that ends with it.
fn single_lookups() -> Vec<Case> {
    let mut cases = Vec::new();
    for (before, slot) in ORDER.into_iter().enumerate() {
        let mut slots = slots(9, &[0; 9]);
        slots.table[slot as usize] = 1;
        let places = before as u64;
        cases.push(found(slots.clone(), 9, Ok(slot), Some(slot)));
        cases.push(found(slots.clone(), places, Err(4), None));
        if places < 8 {
            cases.push(found(slots, places + 1, Err(4), Some(slot)));
        }
    }
    cases
}

/// Under state 0 the choice order of 3 is 1, 2, 0.
fn lookups() -> Vec<Case> {
    vec![
        found(slots(9, &[1; 9]), 9, Ok(7), Some(7)),
        found(slots(9, &[1, 1, 1, 1, 1, 1, 1, 0, 1]), 9, Ok(3), Some(3)),
        found(slots(9, &[1, 0, 0, 0, 0, 1, 1, 0, 1]), 9, Ok(8), Some(8)),
        found(slots(9, &[1, 0, 0, 0, 0, 1, 1, 0, 0]), 24, Ok(0), Some(0)),
        // Bytes from the count on say nothing.
        found(slots(3, &[1, 0, 0, 1, 255]), 5, Ok(0), Some(0)),
        found(slots(3, &[0, 0, 0, 1, 1]), 5, Err(11), None),
        // 4 goes by the table's length, and comes before 11.
        found(slots(3, &[1, 0, 0, 1, 1]), 4, Err(4), Some(0)),
        found(slots(3, &[1, 0, 0, 1, 1]), 3, Err(4), Some(0)),
        found(slots(3, &[1, 0, 0, 1, 1]), 2, Err(4), None),
        found(slots(3, &[0, 0, 0]), 2, Err(4), None),
        found(slots(3, &[0, 0, 0]), 3, Err(11), None),
        found(slots(0, &[]), 0, Err(11), None),
        found(slots(0, &[1, 1]), 1, Err(4), None),
        found(slots(0, &[1, 1]), 2, Err(11), None),
    ]
}

/// 12 comes first. A byte past the table is as 0, and one above 1 is not 1.
fn unfit_lookups() -> Vec<Case> {
    vec![
        found(slots(9, &[1; 4]), 24, Err(12), Some(3)),
        found(slots(9, &[1; 4]), 2, Err(12), Some(3)),
        found(slots(9, &[1; 4]), 1, Err(12), None),
        found(slots(9, &[0; 4]), 24, Err(12), None),
        found(slots(9, &[1, 1, 1, 2, 1, 1, 1, 2, 1]), 24, Err(12), Some(1)),
        found(slots(3, &[2, 2, 2]), 3, Err(12), None),
        found(slots(65_537, &[1]), 1, Err(12), None),
        found(slots(u32::MAX, &[1, 1]), 3, Err(12), None),
    ]
}

/// "Add takes the lowest deleted slot below the count, else the count, then one higher, and sets its byte to 1"
fn add(slots: &mut Slots) -> Told<u64> {
    let total = slots.total as usize;
    let slot = (0..total)
        .find(|&slot| slots.table[slot] == 0)
        .unwrap_or(total);
    *slots.table.get_mut(slot).ok_or(9u32)? = 1;
    slots.total = slots.total.max(slot as u32 + 1);
    Ok((u64::from(slots.total) << 32) + slot as u64)
}

/// "Remove of the last slot lowers the count by one only and writes no byte; of another it sets the byte to 0."
fn remove(slots: &mut Slots, slot: usize) -> Told<u64> {
    let total = slots.total as usize;
    if slot >= total || slots.table[slot] == 0 {
        return Err(10);
    }
    if slot + 1 == total {
        slots.total -= 1;
    } else {
        slots.table[slot] = 0;
    }
    Ok(slots.total.into())
}

fn history(bytes: usize, calls: &[u64]) -> Case {
    let mut slots = slots(0, &vec![UNTOUCHED_BYTE; bytes]);
    history_of(bytes, calls, |call| {
        let said = match call {
            0 => add(&mut slots),
            _ => remove(&mut slots, call as usize - 1),
        };
        let below = slots.total as usize;
        let bytes = slots.table.iter().enumerate();
        let table: Vec<_> = bytes.map(|(i, &b)| (i < below && b == 1, b)).collect();
        let len = table.iter().filter(|(active, _)| *active).count() as u32;
        let after = After {
            total: slots.total,
            len,
            is_empty: len == 0,
            table,
        };
        (said, after)
    })
}

/// Document 01's own, and any calls.
fn histories() -> Vec<Case> {
    let mut draws = Draws(9);
    let mut cases = vec![
        history(4, &[0, 0, 0, 2, 3, 0]),
        history(4, &[0, 0, 0, 3, 2, 0]),
    ];
    for bytes in (0..=24).cycle().take(250) {
        let calls: Vec<u64> = (0..1 + draws.below(58))
            .map(|_| match draws.below(2) {
                0 => 0,
                _ => 1 + draws.below(bytes as u64 + 1),
            })
            .collect();
        cases.push(history(bytes, &calls));
    }
    cases
}

pub fn handmade() -> Vec<Case> {
    let mut cases = [
        adds(),
        removes(),
        queries(),
        lookups(),
        unfit_lookups(),
        single_lookups(),
    ]
    .concat();
    for slots in unfit() {
        cases.push(add_refused(slots.clone(), 12));
        for slot in [0, 2, 9] {
            cases.push(remove_refused(slots.clone(), slot, 12));
        }
    }
    cases.extend(histories());
    cases
}
