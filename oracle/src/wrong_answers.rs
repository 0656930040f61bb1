//! Wrong answers, of which a replay must say that they differ: of each call that the sets have a wrong answer and a wrong digest, the
//! right ones with a bit changed.

use std::collections::BTreeMap;

use crate::cases::Case;
use crate::NONE;

/// The shortest case of each call, up to its answer: one that it does not refuse, where there is one.
fn shortest(cases: &[Case]) -> BTreeMap<&'static str, Case> {
    let mut found = BTreeMap::new();
    for case in cases {
        for (place, name, said) in case.calls() {
            let rank = (said >= NONE, place);
            let best = found.entry(name).or_insert((rank, case));
            if rank < best.0 {
                *best = (rank, case);
            }
        }
    }
    let cases = found.into_iter();
    cases
        .map(|(name, ((_, place), case))| (name, case.up_to(place)))
        .collect()
}

/// A line's answer, or else its digest, with a bit changed.
fn changed(line: &str, which: usize, bit: u64) -> String {
    let (call, told) = line.split_once(" = ").expect("an answer");
    let told = told.split(' ').enumerate().map(|(i, number)| {
        let number = u64::from_str_radix(number, 16).expect("a number");
        format!(" {:x}", if i == which { number ^ bit } else { number })
    });
    format!("{call} ={}", told.collect::<String>())
}

/// Lines that have no answer and are differences all the same: a name that nothing has, and a call before the end with no answer after it.
pub const UNANSWERED: [&str; 2] = ["no_such_call 1", "splitmix64 1"];

/// What a replay passes over at the end of that file: a line on how answers were made, in bytes that are no text, and what has no line feed.
pub const PASSED_OVER: &[u8] = b"# \xFF\nno_such_call 1";

pub fn lines(cases: &[Case]) -> Vec<String> {
    let mut lines = Vec::new();
    for (i, (_, case)) in shortest(cases).into_iter().enumerate() {
        for which in [0, 1] {
            let mut right = case.lines();
            let last = right.pop().expect("an answer");
            lines.extend(right);
            lines.push(changed(&last, which, 1 << (i % 63)));
            lines.push(String::new());
        }
    }
    lines.push("no_such_call 1 = 0 0".into());
    lines.extend(UNANSWERED.map(String::from));
    lines
}
