//! The line program beside one over the original's types: each a process of its own that reads a file, its answers dropped.

use std::fs::{self, File};
use std::path::{Path, PathBuf};
use std::process::{Command, Stdio};
use std::time::Instant;

use oracle::{open_line, Draws, Slots, LINE_SLOTS};

use crate::rounds::Lent;
use crate::{measure_alone, report, report_alone, report_ratio, KEY};

/// The proved one and the original's, from the repository's own folder, where bench/run starts.
const PROGRAMS: [&str; 2] = ["target/bin/stocktake", "target/cargo/release/lines"];

const REPEATS: usize = 5;

/// How long an input of short lines is.
const BYTES: usize = 10_000_000;

/// A plan that fills the program's lists. The list of an open with so many locations is as short as that only where n is a
/// layer's size.
const K: u32 = 8192;
const N: u32 = 65_536;
const TERMINALS: u32 = 16;
const PLANS: u64 = 200;

fn command(program: &str, input: &Path) -> Command {
    let file = File::open(input).unwrap_or_else(|e| panic!("{}: {e}", input.display()));
    let mut command = Command::new(program);
    command.stdin(file);
    command
}

/// Nanoseconds from a program's start to its end.
fn elapsed(program: &str, input: &Path) -> f64 {
    let start = Instant::now();
    let ended = command(program, input).stdout(Stdio::null()).status();
    let time = start.elapsed().as_nanos() as f64;
    let status = ended.unwrap_or_else(|e| panic!("{program}: {e}"));
    assert!(status.success(), "{program}: {status}");
    time
}

fn printed(program: &str, input: &Path) -> Vec<u8> {
    let ended = command(program, input).output();
    ended.unwrap_or_else(|e| panic!("{program}: {e}")).stdout
}

/// The lowest of the repeats for each of `count` items. The programs take turns.
fn measure_programs(count: u64, input: &Path) -> (f64, f64) {
    let [ours, theirs] = PROGRAMS.map(|program| printed(program, input));
    assert!(ours == theirs, "the two programs print different things");
    let mut best = [f64::MAX; 2];
    for _ in 0..REPEATS {
        for (program, time) in PROGRAMS.into_iter().zip(&mut best) {
            *time = time.min(elapsed(program, input) / count as f64);
        }
    }
    (best[0], best[1])
}

/// Slots with at most one deleted, as lines take them in and out: the original's map is made anew where two are.
struct Traffic {
    count: u64,
    deleted: Option<u64>,
    draws: Draws,
}

impl Traffic {
    fn join(&mut self) -> String {
        if self.deleted.take().is_none() {
            self.count += 1;
        }
        "join".into()
    }

    /// Of any slot while none is deleted, else of the last or, refused, of the deleted one.
    fn withdraw(&mut self) -> String {
        let last = self.count - 1;
        let slot = match self.deleted {
            None => self.draws.below(self.count),
            Some(slot) if self.draws.below(2) == 0 => slot,
            Some(_) => last,
        };
        if self.deleted != Some(slot) {
            if slot == last {
                self.count -= 1;
            } else {
                self.deleted = Some(slot);
            }
        }
        format!("withdraw\t{slot}")
    }

    /// A join, a withdraw or, one in ten, a line of no known form, with the count kept between two numbers.
    fn line(&mut self, low: u64, high: u64) -> String {
        match self.draws.below(10) {
            0 => ["", "joins", "withdraw\t", "Plan"][self.draws.below(4) as usize].into(),
            _ if self.count <= low => self.join(),
            _ if self.count >= high => self.withdraw(),
            1..6 => self.join(),
            _ => self.withdraw(),
        }
    }
}

/// Short lines after an open of few locations, and how many lines they are.
fn short_lines(low: u64, high: u64) -> (String, u64) {
    let mut traffic = Traffic {
        count: 0,
        deleted: None,
        draws: Draws(1),
    };
    let mut input = open_line(KEY, 4, 100) + "\n";
    let mut count = 1;
    while input.len() < BYTES {
        input += &traffic.line(low, high);
        input.push('\n');
        count += 1;
    }
    (input, count)
}

/// A file for the programs to read, in a folder that is gone with it.
struct Input {
    folder: PathBuf,
    file: PathBuf,
}

impl Input {
    fn of(text: &str) -> Self {
        let folder = std::env::temp_dir().join(format!("perillajamb-{}", std::process::id()));
        fs::create_dir(&folder).unwrap_or_else(|e| panic!("{}: {e}", folder.display()));
        let file = folder.join("lines");
        fs::write(&file, text).unwrap_or_else(|e| panic!("{}: {e}", file.display()));
        Self { folder, file }
    }
}

impl Drop for Input {
    fn drop(&mut self) {
        // What cannot be removed stays in the system's own folder for such files.
        let _ = fs::remove_dir_all(&self.folder);
    }
}

fn answering(what: &str, low: u64, high: u64) {
    let (text, count) = short_lines(low, high);
    let input = Input::of(&text);
    report(
        &format!("line program, short lines, {what}"),
        measure_programs(count, &input.file),
    );
}

/// The same plan over and over, as the program has it and as calls of the library alone.
fn planning() {
    let joins = "join\n".repeat(TERMINALS as usize);
    let plans = "plan\n".repeat(PLANS as usize);
    let open = open_line(KEY, K.into(), N.into());
    let input = Input::of(&format!("{open}\n{joins}{plans}"));
    let each = PLANS * u64::from(K);
    let what = format!("plan of {K}, {TERMINALS} slots");
    let programs = measure_programs(each, &input.file);
    report(&format!("line program, {what}"), programs);
    let alone = plans_alone(each);
    report_alone(&format!("library alone, {what}"), alone);
    report_ratio("line program to library alone", programs.0 / alone);
}

/// As many plans by the library, in memory as the program's is: the calls and nothing else.
fn plans_alone(each: u64) -> f64 {
    let mut table = vec![0; LINE_SLOTS];
    table[..TERMINALS as usize].fill(1);
    let lent = Lent::open(K, N, &Slots::with(TERMINALS, table));
    measure_alone(each, || {
        let (mut locations, mut terminals) = (vec![0; K as usize], vec![0; K as usize]);
        let mut scratch = vec![0; LINE_SLOTS];
        (0..PLANS).fold(0, |sum, _| {
            lent.plan(&mut locations, &mut terminals, &mut scratch);
            sum + u64::from(terminals[0])
        })
    })
}

pub fn all() {
    answering("few slots", 0, 64);
    answering("500 slots", 480, LINE_SLOTS as u64);
    planning();
}
