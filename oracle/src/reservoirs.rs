//! The original's reservoirs, in memory as document 01 has it lent.

use crate::ConsistentReservoir;

/// What a call says; a refusal by document 01's number.
pub type Told<T> = Result<T, u32>;

/// What stands in memory before a call writes to it: no number of a reservoir.
pub const UNTOUCHED: u32 = u32::MAX;

/// A list, the six words of the library's record, and the original's reservoir that they stand for, if one was opened.
/// Refusals are by document 01; refusal 4 goes by the length that the original ends with.
pub struct Reservoir {
    pub list: Vec<u32>,
    pub words: [u32; 6],
    original: Option<ConsistentReservoir>,
}

impl Reservoir {
    /// Nothing opened yet.
    pub fn lent(places: usize) -> Self {
        Self {
            list: vec![UNTOUCHED; places],
            words: [UNTOUCHED; 6],
            original: None,
        }
    }

    /// Whether a reservoir stands there.
    pub fn opened(&self) -> bool {
        self.original.is_some()
    }

    /// Keeps what a call left, unless the list is too short for it.
    fn kept<T>(&mut self, left: ConsistentReservoir, said: T) -> Told<T> {
        let values = left.values();
        if self.list.len() < values.len() {
            return Err(4);
        }
        self.list[..values.len()].copy_from_slice(values);
        self.words[2..].copy_from_slice(&[left.k(), left.n(), left.j_max(), values.len() as u32]);
        self.original = Some(left);
        Ok(said)
    }

    pub fn open(&mut self, k: u32, n: u32, key: u64) -> Told<()> {
        if n > 1 << 30 {
            return Err(1);
        }
        if k == 0 {
            return Err(2);
        }
        if k > n {
            return Err(3);
        }
        // The original lists k numbers at least, and would take memory for all of them.
        if self.list.len() < k as usize {
            return Err(4);
        }
        self.kept(ConsistentReservoir::new(k, n, key), ())?;
        self.words[..2].copy_from_slice(&[key as u32, (key >> 32) as u32]);
        Ok(())
    }

    /// The number that comes in and the one that goes out, or none.
    pub fn admit(&mut self) -> Told<Option<(u32, u32)>> {
        let mut left = self.original.clone().ok_or(12u32)?;
        let said = left.next();
        self.kept(left, said)
    }

    pub fn grow_layer(&mut self) -> Told<()> {
        let mut left = self.original.clone().ok_or(12u32)?;
        if left.values().len() > left.k() as usize {
            return Err(7);
        }
        if left.j_max() == 14 {
            return Err(8);
        }
        left.grow_layer();
        self.kept(left, ())
    }

    /// The sample, into the first k places of another list.
    pub fn sample(&self, out: &mut [u32]) -> Told<()> {
        let original = self.original.as_ref().ok_or(12u32)?;
        if out.len() < original.k() as usize {
            return Err(4);
        }
        out.iter_mut()
            .zip(original.reservoir())
            .for_each(|(place, x)| *place = x);
        Ok(())
    }
}
