//! Trials of slots: histories and calls on tables made by hand.

use oracle::{Draws, Told, UNTOUCHED_BYTE};

use crate::document_slots::{Slots, LIMIT};
use crate::sides::{self, followed_on, Lent, Side};
use crate::{told, word};

/// A call on slots, or a question.
#[derive(Clone, Copy, Debug)]
enum Call {
    Add,
    Remove(u32),
    Len,
    IsEmpty,
    IsActive(u32),
    Fits,
}

impl sides::Call for Call {
    /// The count.
    type Record = u32;
    type Place = u8;
    type Said = Told<u32>;

    fn proved(self, lent: &mut Lent<Self>) -> Told<u32> {
        let (total, table) = (lent.record, &mut lent.list);
        let said = match self {
            Call::Add => proved::slots_add(total, table).map(|(after, slot)| {
                lent.record = after;
                slot
            }),
            Call::Remove(slot) => proved::slots_remove(slot, total, table).map(|after| {
                lent.record = after;
                0
            }),
            Call::Len => proved::slots_len(total, table),
            Call::IsEmpty => proved::slots_is_empty(total, table).map(u32::from),
            Call::IsActive(slot) => proved::slots_is_active(slot, total, table).map(u32::from),
            Call::Fits => proved::slots_fits(total, table).map(u32::from),
        };
        told(said)
    }
}

impl Side<Call> for oracle::Slots {
    fn memory(&self) -> (u32, &[u8]) {
        (self.total(), &self.table)
    }

    fn call(&mut self, call: Call) -> Told<u32> {
        match call {
            Call::Add => self.add(),
            Call::Remove(slot) => self.remove(slot).map(|()| 0),
            Call::Len => Ok(self.len()),
            Call::IsEmpty => Ok(self.is_empty().into()),
            Call::IsActive(slot) => Ok(self.is_active(slot).into()),
            Call::Fits => Ok(1),
        }
    }
}

impl Side<Call> for Slots {
    fn memory(&self) -> (u32, &[u8]) {
        (self.total, &self.table)
    }

    fn call(&mut self, call: Call) -> Told<u32> {
        match call {
            Call::Add => self.add(),
            Call::Remove(slot) => self.remove(slot).map(|()| 0),
            Call::Len => self.len(),
            Call::IsEmpty => self.is_empty().map(u32::from),
            Call::IsActive(slot) => self.is_active(slot).map(u32::from),
            Call::Fits => Ok(self.fits().into()),
        }
    }
}

/// A slot below the count, at it or above, or any number.
pub fn any_slot(total: u32, draws: &mut Draws) -> u32 {
    match draws.below(16) {
        0 => word(draws) as u32,
        1..4 => total.wrapping_add(draws.below(3) as u32).wrapping_sub(1),
        _ => draws.below(u64::from(total) + 1) as u32,
    }
}

/// A call, an add or a remove more often than not.
fn any_call(total: u32, draws: &mut Draws) -> Call {
    let slot = any_slot(total, draws);
    match draws.below(16) {
        0 => Call::Len,
        1 => Call::IsEmpty,
        2..4 => Call::IsActive(slot),
        4 => Call::Fits,
        5..11 => Call::Add,
        _ => Call::Remove(slot),
    }
}

/// The same, but no remove that leaves two slots deleted, since the original's next add could take either.
fn single_call(slots: &oracle::Slots, draws: &mut Draws) -> Call {
    let total = slots.total();
    match any_call(total, draws) {
        Call::Remove(slot)
            if slots.deleted() == 1 && slots.is_active(slot) && slot != total - 1 =>
        {
            Call::Add
        }
        call => call,
    }
}

/// Slots from none on, with at most one deleted at a time, beside the original's.
pub fn single(draws: &mut Draws) -> Option<String> {
    let bytes = draws.below(24) as usize;
    let mut theirs = oracle::Slots::lent(bytes);
    followed_on(&mut theirs, draws.below(60), |slots| {
        single_call(slots, draws)
    })
}

/// A table's length: short, or now and then about 65,536 bytes.
pub fn any_bytes(draws: &mut Draws) -> usize {
    match draws.below(64) {
        0 => LIMIT - 1 + draws.below(4) as usize,
        _ => draws.below(24) as usize,
    }
}

/// A byte that stands for no slot.
pub fn any_byte(draws: &mut Draws) -> u8 {
    [0, 1, 2, UNTOUCHED_BYTE][draws.below(4) as usize]
}

/// A count and its table, made by hand: slots all active, some of them deleted, or all; anything behind the count.
pub fn any_slots(draws: &mut Draws) -> Slots {
    let bytes = any_bytes(draws) as u64;
    let total = match draws.below(8) {
        0 => 0,
        1..3 => bytes,
        3..6 => bytes.saturating_sub(1 + draws.below(2)),
        _ => draws.below(bytes + 1),
    };
    let part = draws.below(3) * draws.below(3);
    let mut table: Vec<u8> = (0..total)
        .map(|_| (draws.below(4) >= part).into())
        .collect();
    table.resize_with(bytes as usize, || any_byte(draws));
    let total = total as u32;
    Slots { total, table }
}

/// Spoils the count, or one byte.
pub fn spoil(slots: &mut Slots, draws: &mut Draws) {
    let bytes = slots.table.len();
    if draws.below(2) == 0 || bytes == 0 {
        let past = bytes as u32 + 1 + draws.below(2) as u32;
        slots.total = [past, past.max(word(draws) as u32)][draws.below(2) as usize];
    } else {
        let at = draws.below(bytes as u64) as usize;
        slots.table[at] = (2 + draws.below(254)) as u8;
    }
}

/// Calls on slots made by hand with any number deleted, one in four of them spoilt.
pub fn handmade(draws: &mut Draws) -> Option<String> {
    let mut theirs = any_slots(draws);
    if draws.below(4) == 0 {
        spoil(&mut theirs, draws);
    }
    let calls = match theirs.table.len() {
        0..24 => 1 + draws.below(40),
        _ => 4,
    };
    followed_on(&mut theirs, calls, |slots| any_call(slots.total, draws))
}
