//! Trials of the line program: whole inputs, to the proved program as a process of its own and to the original's in this one.

use std::io::{self, Write};
use std::process::{Command, Output, Stdio};
use std::thread;

use oracle::{answer_lines, any_lines, Draws};

/// From the repository's own folder, where compare/run starts.
const PROGRAM: &str = "target/bin/stocktake";

/// What the proved program prints, and how it ends, for an input that comes in pieces of so many bytes.
fn printed(input: &[u8], piece: usize) -> io::Result<Output> {
    let mut command = Command::new(PROGRAM);
    let piped = command.stdin(Stdio::piped()).stdout(Stdio::piped());
    let mut child = piped.spawn()?;
    let mut stdin = child.stdin.take().expect("it is piped");
    thread::scope(|scope| {
        // A program that ends early shows in what it printed. The end of this closes its input.
        scope.spawn(move || {
            input
                .chunks(piece)
                .try_for_each(|part| stdin.write_all(part))
        });
        child.wait_with_output()
    })
}

/// Random lines, half of them cut somewhere or with some bytes other than they were.
fn any_input(draws: &mut Draws) -> Vec<u8> {
    let count = 50 + draws.below(400);
    let mut input = any_lines(count, draws);
    if draws.below(4) == 0 {
        input.truncate(draws.below(input.len() as u64 + 1) as usize);
    }
    if draws.below(4) == 0 && !input.is_empty() {
        for _ in 0..draws.below(40) {
            let place = draws.below(input.len() as u64) as usize;
            input[place] = draws.next() as u8;
        }
    }
    input
}

fn any_piece(draws: &mut Draws) -> usize {
    match draws.below(8) {
        0 => 1,
        1..4 => 1 + draws.below(100) as usize,
        _ => 1 << 20,
    }
}

/// The first line in which two outputs differ, counted from 1, and both of it.
fn first_difference(ours: &[u8], theirs: &[u8]) -> String {
    let lines = |output: &[u8]| -> Vec<String> {
        let lines = output.split_inclusive(|&byte| byte == b'\n');
        lines.map(|line| line.escape_ascii().to_string()).collect()
    };
    let (ours, theirs) = (lines(ours), lines(theirs));
    let same = ours.iter().zip(&theirs).take_while(|(a, b)| a == b).count();
    let (our, their) = (ours.get(same), theirs.get(same));
    format!("line {}: proved {our:?}, expected {their:?}", same + 1)
}

pub fn inputs(draws: &mut Draws) -> Option<String> {
    let (input, piece) = (any_input(draws), any_piece(draws));
    let mut theirs = Vec::new();
    answer_lines(&input[..], &mut theirs).expect("memory takes every answer");
    let ours = match printed(&input, piece) {
        Ok(output) => output,
        Err(error) => return Some(format!("{PROGRAM}: {error}")),
    };
    if ours.status.success() && ours.stdout == theirs {
        return None;
    }
    let first = first_difference(&ours.stdout, &theirs);
    let (status, input) = (ours.status, input.escape_ascii());
    Some(format!("{status}, {first}, pieces of {piece}, {input}"))
}
