//! Calls on a round as numbers, and a whole history in one call, as the library's `replay` has them. They are of its own making:
//! neither the original nor document 01 has a replay.

use crate::{Round, Told};

/// A call on a round that changes it.
#[derive(Clone, Copy, Debug, PartialEq, Eq)]
pub enum RoundCall {
    Admit,
    Join,
    Withdraw(u32),
}

impl RoundCall {
    /// 0, 1, or 2^32 + the slot.
    pub fn number(self) -> u64 {
        match self {
            RoundCall::Admit => 0,
            RoundCall::Join => 1,
            RoundCall::Withdraw(slot) => (1 << 32) + u64::from(slot),
        }
    }

    /// The call of a number, if it is one's.
    pub fn of(number: u64) -> Option<Self> {
        match (number >> 32, number as u32) {
            (0, 0) => Some(RoundCall::Admit),
            (0, 1) => Some(RoundCall::Join),
            (1, slot) => Some(RoundCall::Withdraw(slot)),
            _ => None,
        }
    }
}

/// Four numbers for an answer: the refusal's or 0, how many values there are, and two places for them.
pub fn spelt(said: Told<Vec<u32>>) -> [u32; 4] {
    let value = |values: &[u32], place| values.get(place).copied().unwrap_or(0);
    match said {
        Ok(values) => [0, values.len() as u32, value(&values, 0), value(&values, 1)],
        Err(c) => [c, 0, 0, 0],
    }
}

/// What an open is refused for which some memory is too short. Document 01: "Order: 12, 1, 2, 3, .. 4".
pub fn short_open(k: u32, n: u32) -> u32 {
    match (k, n) {
        (_, n) if n > 1 << 30 => 1,
        (0, _) => 2,
        (k, n) if k > n => 3,
        _ => 4,
    }
}

impl Round {
    /// The values that a call says.
    pub fn call(&mut self, call: RoundCall) -> Told<Vec<u32>> {
        match call {
            RoundCall::Admit => self
                .admit()
                .map(|pair| pair.map_or(vec![], |(came, went)| vec![came, went])),
            RoundCall::Join => self.join().map(|slot| vec![slot]),
            RoundCall::Withdraw(slot) => self.withdraw(slot).map(|()| vec![]),
        }
    }

    /// An open, calls, and the plan after them: 12 for a number that is no call, then open's, 4 also for answers that do not fit.
    #[allow(clippy::too_many_arguments)]
    pub fn replay(
        &mut self,
        (key, k, n): (u64, u32, u32),
        calls: &[u64],
        answers: &mut [u32],
        locations: &mut [u32],
        terminals: &mut [u32],
        scratch: usize,
    ) -> Told<()> {
        let known: Option<Vec<_>> = calls.iter().map(|&number| RoundCall::of(number)).collect();
        let known = known.ok_or(12u32)?;
        if answers.len() < 4 * calls.len() + 4 {
            return Err(short_open(k, n));
        }
        self.open(key, k, n)?;
        let mut said: Vec<_> = known.into_iter().map(|call| self.call(call)).collect();
        let planned = self.plan(locations, terminals, scratch);
        said.push(planned.map(|()| vec![]));
        for (four, said) in answers.chunks_mut(4).zip(said) {
            four.copy_from_slice(&spelt(said));
        }
        Ok(())
    }
}
