//! Document 01's slots to the letter, on any count and table: what those made by hand are held to, and histories in which the
//! original would take any of several deleted slots.

use oracle::Told;

use crate::document_choosers::choice_order;

/// "or 65,536"
pub const LIMIT: usize = 1 << 16;

/// A count and its table.
#[derive(Clone, Debug)]
pub struct Slots {
    pub total: u32,
    pub table: Vec<u8>,
}

impl Slots {
    /// Refusal 12's test.
    pub fn fits(&self) -> bool {
        let below = self.table.get(..self.total as usize);
        self.total as usize <= LIMIT && below.is_some_and(|bytes| bytes.iter().all(|&b| b <= 1))
    }

    fn fitting(&self) -> Told<()> {
        self.fits().then_some(()).ok_or(12)
    }

    /// "a slot below the count is active where its byte is 1 and deleted where it is 0"
    fn active(&self, slot: u32) -> bool {
        slot < self.total && self.table.get(slot as usize) == Some(&1)
    }

    /// The slot.
    pub fn add(&mut self) -> Told<u32> {
        self.fitting()?;
        let deleted = (0..self.total).find(|&slot| !self.active(slot));
        if deleted.is_none() && self.total as usize == self.table.len().min(LIMIT) {
            return Err(9);
        }
        let slot = deleted.unwrap_or(self.total);
        self.table[slot as usize] = 1;
        self.total = self.total.max(slot + 1);
        Ok(slot)
    }

    pub fn remove(&mut self, slot: u32) -> Told<()> {
        self.fitting()?;
        if !self.active(slot) {
            return Err(10);
        }
        if slot == self.total - 1 {
            self.total -= 1;
        } else {
            self.table[slot as usize] = 0;
        }
        Ok(())
    }

    pub fn len(&self) -> Told<u32> {
        self.fitting()?;
        Ok((0..self.total).filter(|&slot| self.active(slot)).count() as u32)
    }

    pub fn is_empty(&self) -> Told<bool> {
        self.len().map(|len| len == 0)
    }

    pub fn is_active(&self, slot: u32) -> Told<bool> {
        self.fitting()?;
        Ok(self.active(slot))
    }

    /// The first active slot among so many of the choice order. A byte past the table is as 0.
    pub fn first_active(&self, state: u64, places: usize) -> Option<u32> {
        let order = choice_order(state, self.total.into(), places as u64);
        let slots = order.into_iter().map(|slot| slot as u32);
        slots.into_iter().find(|&slot| self.active(slot))
    }

    pub fn get(&self, state: u64, places: usize) -> Told<u32> {
        self.fitting()?;
        if places < self.table.len().min(LIMIT) {
            return Err(4);
        }
        self.first_active(state, self.total as usize).ok_or(11)
    }
}
