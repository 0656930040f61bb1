//! The stored inputs of the line program, and what it must print for each.

use std::path::Path;
use std::{fs, io};

use oracle::{answer_lines, any_lines, filled, long_lines, malformed_lines, open_line, Draws};

use crate::line_bounds;

/// Document 01's table, a comma for a tab as there.
const DOCUMENT: [(&str, &str); 6] = [
    ("open,0000000000000001,1,1", "opened"),
    ("join", "joined,0"),
    ("plan", "0,0,0"),
    ("withdraw,3", "refused,10"),
    ("withdraw,0", "withdrawn,0"),
    ("plan", "refused,11"),
];

/// Lines, each with its line feed.
pub fn joined<L: Into<Vec<u8>>>(lines: impl IntoIterator<Item = L>) -> Vec<u8> {
    let mut input = Vec::new();
    for line in lines {
        input.extend(line.into());
        input.push(b'\n');
    }
    input
}

fn document() -> Vec<u8> {
    joined(DOCUMENT.map(|(line, _)| line.replace(',', "\t")))
}

/// The table's right side.
fn document_answers() -> Vec<u8> {
    joined(DOCUMENT.map(|(_, answer)| answer.replace(',', "\t")))
}

/// README's worked example.
fn example() -> Vec<u8> {
    let open = open_line(2, 4, 12);
    joined([
        open.as_str(),
        "plan",
        "join",
        "join",
        "plan",
        "withdraw\t0",
        "plan",
        "join",
        "admit",
        "plan",
        "withdraw\t7",
        "join now",
    ])
}

/// A round with two terminals.
fn opened() -> Vec<u8> {
    joined([open_line(7, 3, 9).as_str(), "join", "join"])
}

/// Each line between good ones, which show that the round is as it was and goes on.
fn among_good(lines: Vec<Vec<u8>>) -> Vec<u8> {
    let changes = ["join", "withdraw\t2", "admit"];
    let mut input = opened();
    for (place, line) in lines.into_iter().enumerate() {
        let change = changes[place % changes.len()];
        input.extend(joined([line, b"plan".to_vec(), change.into()]));
    }
    input
}

fn malformed() -> Vec<u8> {
    among_good(malformed_lines())
}

/// Lines over 80 bytes, some longer than what a program may read at once.
fn long() -> Vec<u8> {
    let mut lines: Vec<_> = [80, 81, 82, 128, 160, 161, 4096, 5000]
        .into_iter()
        .flat_map(long_lines)
        .collect();
    lines.push(filled(b"join\t", b'x', 200_000));
    among_good(lines)
}

/// Lines, and a last one that lacks its line feed.
fn unended(last: &[u8]) -> Vec<u8> {
    [opened(), last.to_vec()].concat()
}

/// How many bytes of a line come before the end of a block: none, one, all but the line feed, all, or a part.
fn before_the_end(line: &[u8], draws: &mut Draws) -> usize {
    match draws.below(8) {
        0 => 0,
        1 => 1,
        2 => line.len(),
        3 => line.len() + 1,
        _ => 1 + draws.below(line.len() as u64) as usize,
    }
}

/// Lines that lie across the ends of blocks of 4,096 bytes, so of 65,536 too, each at another place; long ones among them.
fn straddle() -> Vec<u8> {
    let mut draws = Draws(11);
    let mut input = opened();
    for block in 1..=66 {
        // Of another kind at each end of 65,536 bytes too.
        let line = match (block + block / 8) % 8 {
            0 => filled(b"join", b'x', 70 + 2 * block),
            1 | 4 => open_line(draws.next(), 3, 9 + draws.below(90)).into(),
            2 | 5 => format!("withdraw\t{:010}", draws.below(4)).into(),
            3 => b"admit".to_vec(),
            6 => b"plan".to_vec(),
            _ => b"join".to_vec(),
        };
        let end = 4096 * block - before_the_end(&line, &mut draws);
        while input.len() + 100 < end {
            let fill = ["join".into(), format!("withdraw\t{:010}", draws.below(9))];
            let more = fill[draws.below(2) as usize].as_str();
            input.extend(joined([more, "nothing of a known form, 40 bytes long .."]));
        }
        input.resize(end - 1, b'x');
        input.push(b'\n');
        input.extend(joined([line, b"join".to_vec()]));
    }
    input
}

fn random(seed: u64) -> Vec<u8> {
    any_lines(4000, &mut Draws(seed))
}

/// A set's name and its input.
type Set = (&'static str, fn() -> Vec<u8>);

const SETS: [Set; 24] = [
    ("document", document),
    ("example", example),
    ("before_open", line_bounds::before_open),
    ("opens", line_bounds::opens),
    ("reopened", line_bounds::reopened),
    ("numbers", line_bounds::numbers),
    ("slots", line_bounds::slots),
    ("longest_plan", line_bounds::longest_plan),
    ("malformed", malformed),
    ("long_lines", long),
    ("empty", Vec::new),
    ("line_feeds", || joined([""; 5])),
    ("one_byte", || b"x".to_vec()),
    ("no_line_feed", || unended(b"join")),
    ("plan_no_line_feed", || unended(b"plan")),
    ("bad_no_line_feed", || unended(b"joi")),
    ("tab_no_line_feed", || unended(b"\t")),
    ("return_no_line_feed", || unended(b"join\r")),
    ("long_no_line_feed", || {
        unended(&filled(b"join", b' ', 70_000))
    }),
    ("straddle", straddle),
    ("random_1", || random(21)),
    ("random_2", || random(22)),
    ("random_3", || random(23)),
    ("random_4", || random(24)),
];

/// What the line program prints for an input.
fn answers(input: &[u8]) -> Vec<u8> {
    let mut output = Vec::new();
    answer_lines(input, &mut output).expect("memory takes every answer");
    output
}

/// Writes every input and its answers to a folder. Those of document 01's own lines are its table.
pub fn write(folder: &Path) -> io::Result<()> {
    assert_eq!(answers(&document()), document_answers(), "document 01");
    for (name, input) in SETS {
        let input = input();
        fs::write(folder.join(format!("{name}.in")), &input)?;
        fs::write(folder.join(format!("{name}.out")), answers(&input))?;
    }
    Ok(())
}
