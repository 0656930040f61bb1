//! The original's slots, with the table that document 01 has lent.

use crate::node_map::ConsistentNodeMap;
use crate::{ConsistentChooseKHasher, StandIn, Told};

/// What stands in a table before a call writes to it: neither active nor deleted.
pub const UNTOUCHED_BYTE: u8 = u8::MAX;

/// "or 65,536"
const LIMIT: usize = 1 << 16;

/// A table, and the original's node map that its first bytes stand for. Refusals are by document 01, and so is what is written
/// to the table.
pub struct Slots {
    pub table: Vec<u8>,
    original: ConsistentNodeMap,
}

impl Slots {
    /// No slot.
    pub fn lent(bytes: usize) -> Self {
        Self {
            table: vec![UNTOUCHED_BYTE; bytes],
            original: ConsistentNodeMap::new(),
        }
    }

    /// So many slots, active and deleted as the table says. A last slot that is added, and removed again, keeps those before it
    /// from lowering the count.
    pub fn with(total: u32, table: Vec<u8>) -> Self {
        let mut original = ConsistentNodeMap::new();
        (0..=total).for_each(|slot| assert_eq!(original.add(), slot as usize));
        for slot in (0..=total as usize).filter(|&slot| slot == total as usize || table[slot] == 0)
        {
            assert!(original.remove(slot));
        }
        Self { table, original }
    }

    pub fn total(&self) -> u32 {
        self.original.slot_count() as u32
    }

    pub fn deleted(&self) -> u32 {
        self.total() - self.len()
    }

    /// The slot. The original takes any deleted one, so there may not be two.
    pub fn add(&mut self) -> Told<u32> {
        assert!(self.deleted() <= 1);
        if self.deleted() == 0 && self.total() as usize == self.table.len().min(LIMIT) {
            return Err(9);
        }
        let slot = self.original.add();
        self.table[slot] = 1;
        Ok(slot as u32)
    }

    /// The slot, the lowest where several are deleted. There the original's map is made anew, as it stands after taking that one.
    pub fn add_lowest(&mut self) -> Told<u32> {
        if self.deleted() <= 1 {
            return self.add();
        }
        let slot = (0..self.total()).find(|&slot| !self.is_active(slot));
        let slot = slot.expect("a slot is deleted");
        let mut table = std::mem::take(&mut self.table);
        table[slot as usize] = 1;
        *self = Self::with(self.total(), table);
        Ok(slot)
    }

    pub fn remove(&mut self, slot: u32) -> Told<()> {
        let last = self.total().checked_sub(1);
        if !self.original.remove(slot as usize) {
            return Err(10);
        }
        if Some(slot) != last {
            self.table[slot as usize] = 0;
        }
        Ok(())
    }

    pub fn len(&self) -> u32 {
        self.original.len() as u32
    }

    pub fn is_empty(&self) -> bool {
        self.original.is_empty()
    }

    pub fn is_active(&self, slot: u32) -> bool {
        self.original.is_active(slot as usize)
    }

    /// The original's `get` itself.
    #[inline]
    pub fn slot_of(&self, state: u64) -> Option<u32> {
        self.original.get(StandIn(state)).map(|slot| slot as u32)
    }

    /// Whether a scratch of so many places is long enough.
    pub fn suffices(&self, places: usize) -> bool {
        self.table.len().min(LIMIT) <= places
    }

    /// `get` with a scratch of so many places.
    pub fn get(&self, state: u64, places: usize) -> Told<u32> {
        if !self.suffices(places) {
            return Err(4);
        }
        self.slot_of(state).ok_or(11)
    }

    /// The first active slot among so many of the choice order.
    pub fn first_active(&self, state: u64, places: usize) -> Option<u32> {
        let order = ConsistentChooseKHasher::new(StandIn(state), self.original.slot_count());
        let slot = order
            .take(places)
            .find(|&slot| self.original.is_active(slot));
        slot.map(|slot| slot as u32)
    }
}

/// A location's state under a key.
pub fn location_state(key: u64, location: u32) -> u64 {
    crate::splitmix64(key ^ u64::from(location))
}
