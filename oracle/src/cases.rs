//! Cases of a file of answers: memory that is lent, calls on it, and where an answer is compared. What a call says and leaves is told by
//! who makes the case; how that is spelt is told here.

use oracle::digest;

/// How the lines of every file read, to stand at its head.
pub const HOW: &str = "\
NAME n1 n2 .. = ANSWER DIGEST: a call, by its name without the library's prefix, its numbers, what it answers, and a digest. Or
times*NAME ..: the call so many times, its first number one higher each time; ANSWER is the last one's. A call's line without an
answer only goes into the next digest. PART places n1 n2 ..: lends a part of the memory anew, of so many places with these numbers,
and with all ones where there are no more: words, list, wide_words, wide_list (for a replay its calls), table (or table_bits, 64
places to a number, the lowest bit first), answers, locations (of a sample too), terminals, scratch. An empty line: nothing is lent
any more. The digest is, for each call since the last answer, fed with what it answers and then with all that is lent, in that order,
but for the scratch. All numbers are hexadecimal.";

/// The parts of memory, in the order in which a digest is fed with them, and what stands in a place that no call wrote to.
const PARTS: [(&str, u64); 9] = [
    ("words", u32::MAX as u64),
    ("list", u32::MAX as u64),
    ("wide_words", u64::MAX),
    ("wide_list", u64::MAX),
    ("table", u8::MAX as u64),
    ("answers", u32::MAX as u64),
    ("locations", u32::MAX as u64),
    ("terminals", u32::MAX as u64),
    ("scratch", u64::MAX),
];

/// A part of memory by its name, with what stands in it.
pub type Part = (&'static str, Vec<u64>);

/// A part that no call has written to.
pub fn untouched(name: &'static str, places: usize) -> Part {
    (name, vec![PARTS[place(name)].1; places])
}

fn place(name: &str) -> usize {
    let found = PARTS.iter().position(|&(part, _)| part == name);
    found.unwrap_or_else(|| panic!("no part {name}"))
}

pub fn numbers<W: Copy + Into<u64>>(words: &[W]) -> Vec<u64> {
    words.iter().map(|&x| x.into()).collect()
}

/// Numbers of a line.
fn spelt(numbers: &[u64]) -> String {
    numbers.iter().map(|x| format!(" {x:x}")).collect()
}

/// What a part's line says: no number of the last places that are untouched.
fn spelt_part((name, numbers): &Part) -> String {
    let ones = PARTS[place(name)].1;
    let told = numbers
        .iter()
        .rposition(|&x| x != ones)
        .map_or(0, |i| i + 1);
    format!("{name} {:x}{}", numbers.len(), spelt(&numbers[..told]))
}

/// The same in bits, where each place has one.
fn spelt_bits((_, numbers): &Part) -> String {
    let packed: Vec<u64> = numbers
        .chunks(64)
        .map(|bits| bits.iter().rev().fold(0, |all, bit| 2 * all + bit))
        .collect();
    format!("table_bits {:x}{}", numbers.len(), spelt(&packed))
}

fn part_line(part: &Part) -> String {
    if part.0 == "table" && part.1.len() > 24 && part.1.iter().all(|&byte| byte <= 1) {
        spelt_bits(part)
    } else {
        spelt_part(part)
    }
}

/// A call, what it says, and the parts that it leaves otherwise than they were.
#[derive(Clone)]
struct Call {
    name: &'static str,
    taken: Vec<u64>,
    said: u64,
    left: Vec<Part>,
}

impl Call {
    /// Whether it is the next of so many calls that begin with another: its first number one higher each time.
    fn goes_on(&self, first: &Call, times: u64) -> bool {
        let mut next = first.taken.clone();
        if let Some(raised) = next.first_mut() {
            *raised += times;
        }
        self.name == first.name && self.taken == next
    }
}

#[derive(Clone)]
enum Step {
    Lend(Part),
    Call(Call),
    Compare,
}

/// A case begins with no memory.
#[derive(Clone, Default)]
pub struct Case {
    steps: Vec<Step>,
}

impl Case {
    pub fn lent(parts: impl IntoIterator<Item = Part>) -> Self {
        let mut case = Self::default();
        parts.into_iter().for_each(|part| case.lend(part));
        case
    }

    pub fn lend(&mut self, part: Part) {
        if !part.1.is_empty() {
            self.steps.push(Step::Lend(part));
        }
    }

    /// A call on numbers alone, and its answer.
    pub fn of(name: &'static str, taken: &[u64], said: u64) -> Self {
        let mut case = Self::default();
        case.call(name, taken, said, []);
        case.compare();
        case
    }

    pub fn call(
        &mut self,
        name: &'static str,
        taken: &[u64],
        said: u64,
        left: impl IntoIterator<Item = Part>,
    ) {
        self.steps.push(Step::Call(Call {
            name,
            taken: taken.to_vec(),
            said,
            left: left.into_iter().collect(),
        }));
    }

    /// The answer of the last call is compared, and the digest of all since the one before.
    pub fn compare(&mut self) {
        self.steps.push(Step::Compare);
    }

    pub fn lends(&self) -> bool {
        self.steps.iter().any(|step| matches!(step, Step::Lend(_)))
    }

    /// How many calls there are, and how many answers are compared.
    pub fn counts(&self) -> (usize, usize) {
        let compared = self.steps.iter().filter(|s| matches!(s, Step::Compare));
        (self.calls().count(), compared.count())
    }

    /// Each call's place among the steps, its name, and what it says.
    pub fn calls(&self) -> impl Iterator<Item = (usize, &'static str, u64)> + '_ {
        let calls = self.steps.iter().enumerate();
        calls.filter_map(|(i, step)| match step {
            Step::Call(call) => Some((i, call.name, call.said)),
            _ => None,
        })
    }

    /// The steps up to a call, whose answer alone is compared.
    pub fn up_to(&self, place: usize) -> Case {
        let before = self.steps[..=place].iter();
        let before = before.filter(|step| !matches!(step, Step::Compare));
        let steps = before.cloned().chain([Step::Compare]).collect();
        Case { steps }
    }

    pub fn lines(&self) -> Vec<String> {
        let mut written = Written::default();
        self.steps.iter().for_each(|step| written.take(step));
        written.lines
    }
}

/// A case that is being written: its lines, the memory as it stands, what the digest is fed with, and the last call that can be gone on
/// with: the first of its kind, how many times, and what the last said.
#[derive(Default)]
struct Written {
    lines: Vec<String>,
    memory: [Vec<u64>; 9],
    fed: Vec<u64>,
    last: Option<(Call, u64, u64)>,
}

impl Written {
    fn take(&mut self, step: &Step) {
        match step {
            Step::Lend(part) => {
                self.flush("");
                self.lines.push(part_line(part));
                self.memory[place(part.0)] = part.1.clone();
            }
            Step::Call(call) => {
                self.feed(call);
                self.write(call);
            }
            Step::Compare => {
                let said = self.last.as_ref().expect("a call").2;
                let digest = digest(std::mem::take(&mut self.fed).into_iter());
                self.flush(&format!(" = {said:x} {digest:x}"));
            }
        }
    }

    fn feed(&mut self, call: &Call) {
        for (name, numbers) in &call.left {
            assert_eq!(
                self.memory[place(name)].len(),
                numbers.len(),
                "{}",
                call.name
            );
            self.memory[place(name)] = numbers.clone();
        }
        self.fed.push(call.said);
        let fed = PARTS
            .iter()
            .zip(&self.memory)
            .filter(|((name, _), _)| *name != "scratch");
        self.fed.extend(fed.flat_map(|(_, numbers)| numbers));
    }

    fn write(&mut self, call: &Call) {
        match &mut self.last {
            Some((first, times, said)) if call.goes_on(first, *times) => {
                *times += 1;
                *said = call.said;
            }
            _ => {
                self.flush("");
                self.last = Some((call.clone(), 1, call.said));
            }
        }
    }

    /// Writes down the calls that are not yet.
    fn flush(&mut self, end: &str) {
        if let Some((first, times, _)) = self.last.take() {
            let times = if times == 1 {
                String::new()
            } else {
                format!("{times:x}*")
            };
            let taken = spelt(&first.taken);
            self.lines
                .push(format!("{times}{}{taken}{end}", first.name));
        }
    }
}

/// The lines of cases one after the other. Where memory was lent, it is taken back.
pub fn lines(cases: &[Case]) -> Vec<String> {
    let mut lines = Vec::new();
    for (i, case) in cases.iter().enumerate() {
        if i > 0 && (case.lends() || cases[i - 1].lends()) {
            lines.push(String::new());
        }
        lines.extend(case.lines());
    }
    lines
}
