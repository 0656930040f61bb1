//! Trials of `replay`: a whole history in one call, beside the same calls one by one.

use oracle::{Draws, Round, RoundCall, Told, UNTOUCHED};

use crate::rounds::{any_open, any_table, places_for, Call, Lent, Open, Room};
use crate::sides::Side;
use crate::slots::any_slot;
use crate::{differ, rounds, told};

/// What a replay says, and all that it may write: the list, the table, the answers, the plan's two lists.
type Left = (Told<()>, Vec<u32>, Vec<u8>, Vec<u32>, [Vec<u32>; 2]);

/// A history, and how much memory it is lent.
struct History {
    open: Open,
    calls: Vec<u64>,
    answers: usize,
    room: Room,
}

impl History {
    /// Memory for the answers and the plan, filled with what no call writes.
    fn lent(&self) -> (Vec<u32>, [Vec<u32>; 2]) {
        let places = [self.room.locations, self.room.terminals];
        let plan = places.map(|places| vec![UNTOUCHED; places]);
        (vec![UNTOUCHED; self.answers], plan)
    }

    /// The library's replay.
    fn proved(&self, mut lent: Lent) -> Left {
        let (mut answers, [mut locations, mut terminals]) = self.lent();
        let said = told(proved::round_replay(
            self.open,
            &self.calls,
            &mut lent.list,
            &mut lent.record.1,
            &mut answers,
            &mut locations,
            &mut terminals,
            &mut vec![0; self.room.scratch],
        ));
        let plan = [locations, terminals];
        (said, lent.list, lent.record.1, answers, plan)
    }

    /// The same over the original's own types.
    fn expected(&self, mut round: Round) -> Left {
        let (mut answers, [mut locations, mut terminals]) = self.lent();
        let said = round.replay(
            self.open,
            &self.calls,
            &mut answers,
            &mut locations,
            &mut terminals,
            self.room.scratch,
        );
        let (list, table) = (round.list().to_vec(), round.table().to_vec());
        (said, list, table, answers, [locations, terminals])
    }

    /// The library's calls one by one, where the replay is not refused.
    fn one_by_one(&self, mut lent: Lent) -> Left {
        let (mut answers, _) = self.lent();
        let said = rounds::open(&mut lent, self.open);
        let calls = self.calls.iter().map(|&number| RoundCall::of(number));
        let changes = calls.map(|call| Call::Change(call.expect("a call")));
        let mut plan = [vec![], vec![]];
        for (call, four) in changes
            .chain([Call::Plan(self.room)])
            .zip(answers.chunks_mut(4))
        {
            let said = lent.call(call);
            plan = said.plan;
            four.copy_from_slice(&oracle::spelt(said.values));
        }
        (said, lent.list, lent.record.1, answers, plan)
    }
}

fn any_number(bytes: usize, draws: &mut Draws) -> u64 {
    let call = match draws.below(8) {
        0..3 => RoundCall::Admit,
        3..6 => RoundCall::Join,
        _ => RoundCall::Withdraw(any_slot(bytes as u32, draws)),
    };
    call.number()
}

/// Numbers of calls, now and then one among them that is no call's.
fn any_calls(bytes: usize, draws: &mut Draws) -> Vec<u64> {
    let count = draws.below(30);
    let mut calls: Vec<u64> = (0..count).map(|_| any_number(bytes, draws)).collect();
    if draws.below(16) == 0 {
        let unknown = [2, u32::MAX.into(), 1 << 33, draws.next() | 1 << 63];
        let place = draws.below(count + 1) as usize;
        calls.insert(place, unknown[draws.below(4) as usize]);
    }
    calls
}

/// A replay beside the original's, and beside the library's own calls.
pub fn replays(draws: &mut Draws) -> Option<String> {
    let open = any_open(draws);
    let (places, table) = (places_for(open, draws), any_table(draws));
    let calls = any_calls(table.len(), draws);
    let needed = 4 * calls.len() + 4;
    let answers = match draws.below(16) {
        0 => draws.below(needed as u64) as usize,
        _ => needed + draws.below(6) as usize,
    };
    let history = History {
        open,
        calls,
        answers,
        room: Room::any(open.1, table.len(), draws),
    };
    let lent = || Round::lent(places, table.clone());
    let said = history.proved(Lent::like(&lent()));
    let input = format!("{open:?}, {places} places, {:x?}", history.calls);
    let refused = said.0.is_err();
    differ(&input, &said, &history.expected(lent())).or_else(|| {
        let one_by_one = (!refused).then(|| history.one_by_one(Lent::like(&lent())));
        one_by_one.and_then(|alone| differ(&input, said, alone))
    })
}
