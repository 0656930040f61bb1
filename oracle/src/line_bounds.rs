//! Inputs of the line program at its boundaries: opens and admits, keys and numbers, slots, the longest plan.

use oracle::{filled, open_line, LINE_PLACES, LINE_SLOTS};

use crate::line_sets::joined;

const MOST: u64 = 1 << 30;
const WORD: u64 = u32::MAX as u64;

/// Key, k and n of opens whose list, or the list of the first admit, is near the array's end.
const NEAR_THE_END: [(u64, u64, u64); 4] = [
    (0x64, 2050, 4096),
    (0x70, 2045, 4096),
    (0x7e, 2050, 4096),
    (0x66, 2052, 4096),
];

/// k and n that are refused 1, 2, 3 and 4, also where a later test would refuse them too.
const REFUSED: [(u64, u64); 16] = [
    (1, MOST + 1),
    (1, WORD),
    (WORD, WORD),
    (0, MOST + 1),
    (0, WORD),
    (0, 0),
    (0, 1),
    (0, MOST),
    (1, 0),
    (2, 1),
    (WORD, MOST),
    (WORD, 0),
    (8193, 8193),
    (8193, 16384),
    (8193, MOST),
    (100_000, 1_000_000),
];

/// The same calls before an accepted open and after it, refused opens and lines of no known form among them.
pub fn before_open() -> Vec<u8> {
    let calls = ["admit", "join", "withdraw\t0", "plan", "nothing", ""];
    let mut lines: Vec<String> = calls.map(String::from).to_vec();
    for (k, n) in REFUSED {
        lines.push(open_line(1, k, n));
        lines.extend(calls.map(String::from));
    }
    lines.push(open_line(1, 2, 5));
    lines.extend(calls.map(String::from));
    joined(lines)
}

/// Opens and admits near the end of the array, and k of just its length: accepted where n is a layer's size.
pub fn opens() -> Vec<u8> {
    let mut lines = Vec::new();
    for (key, k, n) in NEAR_THE_END {
        lines.push(open_line(key, k, n));
        lines.extend(["admit", "admit", "join", "admit", "withdraw\t0"].map(String::from));
    }
    let most = LINE_PLACES as u64;
    let sizes = [6, 7, 13, 14].map(|j| 4 << (2 * j));
    for n in sizes.into_iter().chain([16383, 16385, most, 100_000]) {
        lines.push(open_line(1, most, n));
        lines.extend(["admit", "join", "admit"].map(String::from));
        lines.push(open_line(1, most + 1, n));
        lines.push("join".into());
    }
    for (key, k, n) in [
        (0xa, 1, 1 << 28),
        (3, 1, 1),
        (0, 2, 4),
        (5, 1, MOST),
        (5, 9, MOST - 1),
    ] {
        lines.push(open_line(key, k, n));
        lines.extend(["join", "plan", "admit", "plan", "admit", "admit", "plan"].map(String::from));
    }
    joined(lines)
}

/// A refused open keeps the round, an accepted one replaces it, the same one too.
pub fn reopened() -> Vec<u8> {
    let start = [
        "join",
        "join",
        "join",
        "join",
        "withdraw\t1",
        "admit",
        "plan",
    ];
    let mut lines = vec![open_line(0x51, 5, 20)];
    lines.extend(start.map(String::from));
    for (k, n) in REFUSED {
        lines.push(open_line(0x99, k, n));
        lines.push("plan".into());
    }
    lines.extend(["admit", "plan", "join", "join", "plan"].map(String::from));
    for key in [0x52, 0x52, 0x51] {
        lines.push(open_line(key, 5, 20));
        lines.extend(["plan", "withdraw\t0", "join", "plan"].map(String::from));
        lines.extend(start.map(String::from));
    }
    joined(lines)
}

/// Keys in either case, numbers with zeros before them, the largest number, and lines of 80 and 81 bytes.
pub fn numbers() -> Vec<u8> {
    let mut lines: Vec<Vec<u8>> = Vec::new();
    let after = ["join", "join", "plan", "admit", "plan"];
    for key in [
        "deadbeefcafef00d",
        "DEADBEEFCAFEF00D",
        "DeadBeefCAFEf00d",
        "0000000000000000",
        "ffffffffffffffff",
        "FFFFFFFFFFFFFFFF",
        "8000000000000000",
        "0123456789abcdef",
        "0123456789ABCDEF",
    ] {
        for numbers in ["3\t100", "0000000003\t0000000100", "03\t00100"] {
            lines.push(format!("open\t{key}\t{numbers}").into());
            lines.extend(after.map(Vec::from));
        }
    }
    for slot in [
        "0000000001",
        "01",
        "1",
        "0",
        "4294967295",
        "0000000512",
        "2147483648",
    ] {
        lines.push(format!("withdraw\t{slot}").into());
    }
    for bytes in [42, 43, 44, 79, 80, 81, 82] {
        lines.push(filled(b"withdraw\t", b'0', bytes));
        lines.push(filled(b"open\t0000000000000007\t1\t", b'1', bytes));
        lines.push(filled(b"join", b' ', bytes));
        lines.extend(after.map(Vec::from));
    }
    joined(lines)
}

fn withdraw(slot: usize) -> String {
    format!("withdraw\t{slot}")
}

/// The table filled and one more; withdraws of the last slot, of deleted ones, at and past the count; all out, from either end.
pub fn slots() -> Vec<u8> {
    let last = LINE_SLOTS - 1;
    let join = || String::from("join");
    let mut lines = vec![open_line(0x77, 4, 50)];
    lines.extend((0..LINE_SLOTS + 2).map(|_| join()));
    for slot in [last + 1, last, last, last + 2] {
        lines.push(withdraw(slot));
    }
    lines.extend([join(), join(), "plan".into()]);
    for slot in [0, 0, 5, 3, last - 1, last, last - 1, last] {
        lines.extend([withdraw(slot), "plan".into()]);
    }
    lines.extend((0..6).map(|_| join()));
    lines.extend((0..=last).map(withdraw));
    lines.extend([
        "plan".into(),
        join(),
        "plan".into(),
        withdraw(1),
        join(),
        join(),
    ]);
    lines.push(open_line(0x78, 4, 50));
    lines.extend(["plan".into(), withdraw(0)]);
    lines.extend((0..LINE_SLOTS).map(|_| join()));
    lines.extend((0..=last).rev().map(withdraw));
    lines.extend(["plan".into(), withdraw(0), join(), "plan".into()]);
    joined(lines)
}

/// A plan that fills the program's lists.
pub fn longest_plan() -> Vec<u8> {
    let mut lines = vec![open_line(0x8192, LINE_PLACES as u64, 65536)];
    lines.extend(["join"; 5].map(String::from));
    lines.extend(["withdraw\t2", "plan", "admit", "join"].map(String::from));
    joined(lines)
}
