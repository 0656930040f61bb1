//! Holds the original to what docs/DIFFERENCES.md says of it: `oracle differences`. A claim names its row and quotes it, so that a
//! claim whose words left the page is found, and a row with an input that no claim tries.
//!
//! compare/run builds in release, as every answer here is from a release build: what the page says of a debug build is not run
//! there. This program built for debugging, `cargo run -p oracle -- differences`, holds the original to that instead.

use std::panic::{self, catch_unwind};

use crate::difference_claims::SECTIONS;

const PAGE: &str = include_str!("../../docs/DIFFERENCES.md");

/// What a call that panics gives.
pub const PANICS: &str = "panics";

/// One input that the page names.
pub struct Claim {
    /// The row's first cell; nothing for the lines outside a table.
    place: &'static str,
    /// The page's words, in that row or in those lines.
    words: &'static str,
    /// Tries the original on the input.
    tried: fn() -> String,
    gives: &'static str,
    gives_in_debug: &'static str,
}

/// What a build of the original gives for an input, whether for release or for debugging.
pub const fn claim(
    place: &'static str,
    words: &'static str,
    tried: fn() -> String,
    gives: &'static str,
) -> Claim {
    Claim {
        place,
        words,
        tried,
        gives,
        gives_in_debug: gives,
    }
}

impl Claim {
    /// The same, but for a build for debugging.
    pub const fn panics_in_debug(self) -> Self {
        Self {
            gives_in_debug: PANICS,
            ..self
        }
    }

    fn expected(&self) -> &'static str {
        if cfg!(debug_assertions) {
            self.gives_in_debug
        } else {
            self.gives
        }
    }
}

/// A section of the page: its heading, the rows of its table cell by cell, and its other lines as one.
struct Section {
    heading: &'static str,
    rows: Vec<Vec<&'static str>>,
    lines: String,
}

impl Section {
    fn read(text: &'static str) -> Self {
        let (heading, body) = text.split_once('\n').unwrap_or((text, ""));
        let (rows, lines): (Vec<_>, Vec<_>) = body.lines().partition(|line| line.starts_with("| "));
        let cells = |row: &'static str| row.trim_matches('|').split('|').map(str::trim).collect();
        Self {
            heading,
            rows: rows.into_iter().map(cells).collect(),
            lines: lines.join(" "),
        }
    }

    fn claims(&self) -> &'static [Claim] {
        let section = SECTIONS.iter().find(|(name, _)| *name == self.heading);
        section.map_or(&[], |(_, claims)| claims)
    }

    /// Whether a claim's words stand where it says.
    fn has(&self, claim: &Claim) -> bool {
        if claim.place.is_empty() {
            return self.lines.contains(claim.words);
        }
        let mut rows = self.rows.iter().filter(|row| row[0] == claim.place);
        rows.any(|row| {
            // An input that panics stands in a row that says so.
            let agrees = claim.gives != PANICS || row[1] == PANICS;
            agrees && row.join(" | ").contains(claim.words)
        })
    }

    /// What is wrong with a claim: its words left the page, or the original gives something else.
    fn fault(&self, claim: &Claim) -> Option<String> {
        let (place, words, expected) = (claim.place, claim.words, claim.expected());
        if !self.has(claim) {
            return Some(format!(
                "{place}: the page does not say \"{words}\", {expected}"
            ));
        }
        let given = catch_unwind(claim.tried).unwrap_or(PANICS.into());
        (given != expected)
            .then(|| format!("{place}: \"{words}\", {expected}, but the original gives {given}"))
    }

    /// Rows with an input that no claim tries, though the original has what they speak of.
    fn untried(&self) -> impl Iterator<Item = String> + '_ {
        let inputs = |row: &&Vec<&str>| row.len() == 4 && !row[3].is_empty();
        self.rows
            .iter()
            .filter(inputs)
            .filter(|row| row[0] != "where" && row[1] != "cannot be made")
            .filter(|row| !row[3].starts_with("none known"))
            .filter(|row| !self.claims().iter().any(|claim| claim.place == row[0]))
            .map(|row| format!("{}: \"{}\" is not tried", row[0], row[3]))
    }
}

/// Prints how many inputs were tried, and what is not as the page says; whether all is.
pub fn hold() -> bool {
    let page: Vec<Section> = PAGE.split("\n## ").skip(1).map(Section::read).collect();
    let hook = panic::take_hook();
    panic::set_hook(Box::new(|_| {}));
    let mut faults = Vec::new();
    let mut count = 0;
    for section in &page {
        count += section.claims().len();
        let wrong = section.claims().iter().filter_map(|c| section.fault(c));
        let found = wrong.chain(section.untried());
        faults.extend(found.map(|fault| format!("{}: {fault}", section.heading)));
    }
    panic::set_hook(hook);
    let headings = SECTIONS.iter().map(|(name, _)| *name);
    let lost = headings.filter(|name| !page.iter().any(|section| section.heading == *name));
    faults.extend(lost.map(|name| format!("{name}: the page has no such section")));
    println!("differences: {count} inputs of docs/DIFFERENCES.md tried on the original");
    faults
        .iter()
        .for_each(|fault| println!("differences: {fault}"));
    faults.is_empty()
}
