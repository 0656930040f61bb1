//! The line program over the original's own types, from document 01's "The line program" alone.
//!
//! The original's is what a round says (see `rounds`). Forms, words and arrays are document 01's.

use std::io::{self, BufRead, Write};

use crate::{Round, Told};

/// "Lists of 8,192 numbers and 512 slots are its own arrays."
pub const LINE_PLACES: usize = 8192;
pub const LINE_SLOTS: usize = 512;

/// "lines to 80 bytes (a longer one has no known form)". The line feed is not counted.
pub const LONGEST_LINE: usize = 80;

/// A line of a known form.
#[derive(Clone, Copy, Debug, PartialEq, Eq)]
enum Form {
    Open { key: u64, k: u32, n: u32 },
    Admit,
    Join,
    Withdraw { slot: u32 },
    Plan,
}

/// "key (16 hexadecimal digits, either case)"
fn key(field: &[u8]) -> Option<u64> {
    if field.len() != 16 {
        return None;
    }
    field.iter().try_fold(0, |key, &byte| {
        let digit = char::from(byte).to_digit(16)?;
        Some(16 * key + u64::from(digit))
    })
}

/// "slots, k and n have 1 to 10 digits, below 2^32"
fn number(field: &[u8]) -> Option<u32> {
    if !(1..=10).contains(&field.len()) {
        return None;
    }
    let value = field.iter().try_fold(0, |value, &byte| {
        let digit = byte.is_ascii_digit().then_some(byte - b'0')?;
        Some(10 * value + u64::from(digit))
    })?;
    u32::try_from(value).ok()
}

/// The form of a line, if it has a known one: a word, its fields, and no other field behind them.
fn form(line: &[u8]) -> Option<Form> {
    if line.len() > LONGEST_LINE {
        return None;
    }
    let mut fields = line.split(|&byte| byte == b'\t');
    let form = match fields.next()? {
        b"open" => Form::Open {
            key: key(fields.next()?)?,
            k: number(fields.next()?)?,
            n: number(fields.next()?)?,
        },
        b"admit" => Form::Admit,
        b"join" => Form::Join,
        b"withdraw" => Form::Withdraw {
            slot: number(fields.next()?)?,
        },
        b"plan" => Form::Plan,
        _ => return None,
    };
    fields.next().is_none().then_some(form)
}

/// "numbers are printed without leading zeros"
fn print_number(text: &mut Vec<u8>, number: u32) {
    let mut digits = [0; 10];
    let (mut first, mut rest) = (digits.len(), number);
    loop {
        first -= 1;
        digits[first] = b'0' + (rest % 10) as u8;
        rest /= 10;
        if rest == 0 {
            break;
        }
    }
    text.extend_from_slice(&digits[first..]);
}

/// Numbers, each behind a tab, and the end of the line.
fn print_rest(text: &mut Vec<u8>, numbers: &[u32]) {
    for &number in numbers {
        text.push(b'\t');
        print_number(text, number);
    }
    text.push(b'\n');
}

fn print(text: &mut Vec<u8>, word: &str, numbers: &[u32]) {
    text.extend_from_slice(word.as_bytes());
    print_rest(text, numbers);
}

/// The round with the program's arrays, and the text of the answer to the last line.
struct Desk {
    round: Round,
    locations: Vec<u32>,
    terminals: Vec<u32>,
    answer: Vec<u8>,
}

impl Desk {
    fn new() -> Self {
        Self {
            round: Round::lent(LINE_PLACES, vec![0; LINE_SLOTS]),
            locations: vec![0; LINE_PLACES],
            terminals: vec![0; LINE_PLACES],
            answer: Vec::new(),
        }
    }

    /// Makes a call, and prints what it says unless it is refused.
    fn call(&mut self, form: Form) -> Told<()> {
        let text = &mut self.answer;
        match form {
            Form::Open { key, k, n } => {
                self.round.open(key, k, n)?;
                print(text, "opened", &[]);
            }
            Form::Admit => match self.round.admit()? {
                Some((came, went)) => print(text, "admit", &[came, went]),
                None => print(text, "none", &[]),
            },
            Form::Join => {
                let slot = self.round.join()?;
                print(text, "joined", &[slot]);
            }
            Form::Withdraw { slot } => {
                self.round.withdraw(slot)?;
                print(text, "withdrawn", &[slot]);
            }
            Form::Plan => self.plan()?,
        }
        Ok(())
    }

    /// "Plan prints place, location, slot a line."
    fn plan(&mut self) -> Told<()> {
        let (locations, terminals) = (&mut self.locations, &mut self.terminals);
        self.round.plan(locations, terminals, LINE_SLOTS)?;
        let [_, _, k, ..] = self.round.words();
        for (place, (&location, &slot)) in (0..k).zip(locations.iter().zip(&*terminals)) {
            print_number(&mut self.answer, place);
            print_rest(&mut self.answer, &[location, slot]);
        }
        Ok(())
    }

    /// Answers a line, given without its line feed.
    fn line(&mut self, line: &[u8], output: &mut impl Write) -> io::Result<()> {
        self.answer.clear();
        let said = form(line).ok_or(12).and_then(|form| self.call(form));
        if let Err(c) = said {
            print(&mut self.answer, "refused", &[c]);
        }
        output.write_all(&self.answer)
    }

    /// Answers the lines that end in a part of the input. `begun` is what came before of the first one, and what has come of a
    /// line whose end has not.
    fn part(
        &mut self,
        part: &[u8],
        begun: &mut Vec<u8>,
        output: &mut impl Write,
    ) -> io::Result<()> {
        for piece in part.split_inclusive(|&byte| byte == b'\n') {
            match piece.strip_suffix(b"\n") {
                None => keep(begun, piece),
                Some(line) if begun.is_empty() => self.line(line, output)?,
                Some(rest) => {
                    keep(begun, rest);
                    self.line(begun, output)?;
                    begun.clear();
                }
            }
        }
        Ok(())
    }
}

/// Keeps a piece of a line, no more than shows that the line is too long.
fn keep(begun: &mut Vec<u8>, piece: &[u8]) {
    let room = LONGEST_LINE + 1 - begun.len();
    begun.extend_from_slice(&piece[..piece.len().min(room)]);
}

/// Answers every line of the input. All answers to what has come are out before it waits for more.
pub fn answer_lines(mut input: impl BufRead, mut output: impl Write) -> io::Result<()> {
    let mut desk = Desk::new();
    let mut begun = Vec::new();
    loop {
        output.flush()?;
        let part = input.fill_buf()?;
        let bytes = part.len();
        if bytes == 0 {
            break;
        }
        desk.part(part, &mut begun, &mut output)?;
        input.consume(bytes);
    }
    // "Lines end in a line feed, which the last input line may lack"
    if !begun.is_empty() {
        desk.line(&begun, &mut output)?;
    }
    output.flush()
}
