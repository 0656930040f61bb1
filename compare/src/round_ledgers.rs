//! Demand 3 by running: rounds held to document 01's ledger, and what a change moves. The library's and the original's alike, so
//! that document 01's claim is tried apart from the library.

use std::ops::ControlFlow;

use oracle::{Draws, Ledger, Round, RoundCall, Told};

use crate::differ;
use crate::rounds::{any_table, open, Call, Lent, Open, Room};
use crate::sides::Side;
use crate::slots::any_slot;

/// Location by location, its terminal.
type Plan = Told<Vec<(u32, u32)>>;

/// The ledger tries every location on its way, so a history ends with an admit that goes as far as this.
const FAR: u32 = 1 << 13;

/// An open with a small n.
fn small_open(draws: &mut Draws) -> Open {
    let n = 1 + (draws.below(300) >> draws.below(8));
    let k = 1 + draws.below(n.min(20));
    (draws.next(), k as u32, n as u32)
}

/// An admit, a join, or a withdraw, of a slot that is not active among them.
fn any_change(side: &impl Side<Call>, draws: &mut Draws) -> RoundCall {
    let (([.., total, _], _), _) = side.memory();
    match draws.below(8) {
        0..2 => RoundCall::Admit,
        2..5 => RoundCall::Join,
        _ => RoundCall::Withdraw(any_slot(total, draws)),
    }
}

/// A side's plan, asked with lists and scratch long enough.
fn plan_of(side: &mut impl Side<Call>) -> Plan {
    let (([_, _, k, ..], table), _) = side.memory();
    let said = side.call(Call::Plan(Room::for_plan(k, table.len())));
    let [locations, terminals] = said.plan;
    said.values?;
    Ok(locations.into_iter().zip(terminals).collect())
}

/// What the ledger answers to a call that was not refused.
fn answered(ledger: &mut Ledger, call: RoundCall) -> Vec<u32> {
    match call {
        RoundCall::Admit => ledger
            .admit()
            .map_or(vec![], |(came, went)| vec![came, went]),
        RoundCall::Join => vec![ledger.join()],
        RoundCall::Withdraw(slot) => {
            ledger.withdraw(slot);
            vec![]
        }
    }
}

/// Whether an admit brings in a location too far for the ledger, or none.
fn is_far(call: RoundCall, said: &Told<Vec<u32>>) -> bool {
    let came = said.as_ref().map(|values| values.first());
    call == RoundCall::Admit && came.is_ok_and(|came| came.is_none_or(|&came| came >= FAR))
}

/// One change on both, and the plan after it.
fn stepped(
    side: &mut impl Side<Call>,
    ledger: &mut Ledger,
    call: RoundCall,
) -> ControlFlow<Option<String>> {
    let said = side.call(Call::Change(call)).values;
    if is_far(call, &said) {
        return ControlFlow::Break(differ("no location near", None, ledger.due(FAR)));
    }
    let expected = said.clone().map(|_| answered(ledger, call));
    let (planned, due) = (plan_of(side), ledger.plan());
    match differ("said and planned", (said, planned), (expected, due)) {
        None => ControlFlow::Continue(()),
        difference => ControlFlow::Break(difference),
    }
}

/// Changes beside the ledger, which is told those that were not refused.
fn by_ledger(side: &mut impl Side<Call>, open: Open, draws: &mut Draws) -> Option<String> {
    let (key, k, n) = open;
    let mut ledger = Ledger::new(key, k, n);
    let mut made = Vec::new();
    for _ in 0..draws.below(40) {
        made.push(any_change(side, draws));
        let last = made[made.len() - 1];
        if let ControlFlow::Break(end) = stepped(side, &mut ledger, last) {
            return end.map(|difference| format!("{open:?}, {made:?}: {difference}"));
        }
    }
    None
}

/// The terminal of a location; "a refused plan gives none".
fn terminal(plan: &Plan, location: u32) -> Option<u32> {
    let sheets = plan.as_ref().ok()?;
    let sheet = sheets.iter().find(|(x, _)| *x == location)?;
    Some(sheet.1)
}

fn holds(plan: &Plan, location: u32) -> bool {
    terminal(plan, location).is_some()
}

/// The locations of one plan or the other whose terminals differ.
fn moved(before: &Plan, after: &Plan) -> Vec<u32> {
    let mut locations: Vec<u32> = [before, after]
        .into_iter()
        .flatten()
        .flat_map(|sheets| sheets.iter().map(|&(x, _)| x))
        .collect();
    locations.retain(|&x| terminal(before, x) != terminal(after, x));
    locations
}

/// A plan without one of its locations.
fn without(plan: &Plan, location: u32) -> Plan {
    let sheets = plan.clone()?;
    Ok(sheets.into_iter().filter(|(x, _)| *x != location).collect())
}

/// Whether a change that said this moved only what demand 3 lets it move.
fn only_moved(call: RoundCall, said: &Told<Vec<u32>>, before: &Plan, after: &Plan) -> bool {
    let moved = moved(before, after);
    match (call, said.as_deref()) {
        (RoundCall::Withdraw(slot), Ok([])) => {
            moved.iter().all(|&x| terminal(before, x) == Some(slot))
        }
        (RoundCall::Join, Ok(&[slot])) => moved.iter().all(|&x| terminal(after, x) == Some(slot)),
        (RoundCall::Admit, Ok(&[came, went])) => {
            let one_out = holds(before, went) && !holds(after, went);
            let one_in = !holds(before, came) && holds(after, came);
            (before.is_err() || one_out && one_in) && without(before, went) == without(after, came)
        }
        // None, or a refusal.
        _ => before == after,
    }
}

/// Changes, with the plan before and after each.
fn by_moves(side: &mut impl Side<Call>, open: Open, draws: &mut Draws) -> Option<String> {
    let mut before = plan_of(side);
    (0..draws.below(40)).find_map(|_| {
        let call = any_change(side, draws);
        let said = side.call(Call::Change(call)).values;
        let after = plan_of(side);
        let fine = only_moved(call, &said, &before, &after);
        let difference = differ(
            format_args!("{open:?}, {call:?} said {said:?}, from {before:?} to {after:?}"),
            fine,
            true,
        );
        before = after;
        difference
    })
}

/// Memory for a history: a list that is long enough, or nearly, and any table.
fn lent((_, k, _): Open, draws: &mut Draws) -> Round {
    let places = match draws.below(4) {
        0 => 2 * k + draws.below(4 * u64::from(k)) as u32,
        _ => 16 * k + 64,
    };
    Round::lent(places as usize, any_table(draws))
}

/// A history of the library, if its open was not refused.
fn proved_history(
    draws: &mut Draws,
    followed: fn(&mut Lent, Open, &mut Draws) -> Option<String>,
) -> Option<String> {
    let numbers = small_open(draws);
    let mut ours = Lent::like(&lent(numbers, draws));
    open(&mut ours, numbers).ok()?;
    followed(&mut ours, numbers, draws)
}

/// The same of the original's own types.
fn original_history(
    draws: &mut Draws,
    followed: fn(&mut Round, Open, &mut Draws) -> Option<String>,
) -> Option<String> {
    let (key, k, n) = small_open(draws);
    let mut theirs = lent((key, k, n), draws);
    theirs.open(key, k, n).ok()?;
    followed(&mut theirs, (key, k, n), draws)
}

pub fn ledger(draws: &mut Draws) -> Option<String> {
    proved_history(draws, by_ledger)
}

pub fn moves(draws: &mut Draws) -> Option<String> {
    proved_history(draws, by_moves)
}

pub fn original_ledger(draws: &mut Draws) -> Option<String> {
    original_history(draws, by_ledger)
}

pub fn original_moves(draws: &mut Draws) -> Option<String> {
    original_history(draws, by_moves)
}
