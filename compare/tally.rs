//! The count of the cases of each call, and the end of the run at the first difference.

use crate::document::{self, Ground};
use crate::library::Answer;
use std::fmt::{Debug, Write as _};
use std::io::Write as _;

/// What a case of a status is counted under.
pub const STATUSES: [&str; document::SHORT as usize + 1] = [
    "accepted",
    "refused by 1:",
    "refused by 2:",
    "refused by 3:",
    "refused by 4:",
    "refused by 5:",
    "refused by 6:",
    "refused by 7:",
    "refused by 8:",
    "refused by 9:",
    "refused by 10:",
    "refused by 11:",
    "refused by 12:",
    "refused by 13:",
];

/// Other classes after the first ones of some, as many of these as there is room for.
pub const fn after<const N: usize>(
    first: &[&'static str],
    others: &[&'static str],
) -> [&'static str; N] {
    let number = N - others.len();
    let mut all = [""; N];
    let mut i = 0;
    while i < N {
        all[i] = if i < number {
            first[i]
        } else {
            others[i - number]
        };
        i += 1;
    }
    all
}

/// The classes from one on, and others before it.
pub fn from(first: u32, classes: &[&str], others: &[u32]) -> Vec<u32> {
    let rest = first..classes.len() as u32;
    rest.chain(others.iter().copied()).collect()
}

/// Who judges a case: the Rust; or document 01 alone, outside the comparison's domain, where a table has both 6 and 7,
/// which the Rust meets in the other order, so that such inputs stay out of the comparison with it, where an output is
/// shorter than the list, since the Rust is lent no outputs, where the Rust panics, and where the Rust has no such call
/// or no way to be told such sizes and lengths.
#[derive(Clone, Copy, PartialEq)]
pub enum Judge {
    Rust,
    Outside,
    SixAndSeven,
    TooShort,
    Panics,
    Unasked,
}

impl Judge {
    const TITLES: [&'static str; 6] = [
        "with the Rust",
        "outside the domain",
        "with both 6 and 7",
        "with an output too short",
        "where the Rust panics",
        "which the Rust cannot be asked",
    ];
}

/// The cases of one call by their judge and their class: the status, or the ground of a candidate check's answer.
pub struct Tally {
    name: &'static str,
    classes: &'static [&'static str],
    /// How many cases a class has at least, if it has to be met.
    least: usize,
    cases: [Vec<usize>; Judge::TITLES.len()],
}

impl Tally {
    /// By statuses; one case meets a status.
    pub fn new(name: &'static str) -> Self {
        Self::of(name, &STATUSES, 1)
    }

    /// By grounds; so many cases meet a ground.
    pub fn by_ground(name: &'static str, least: usize) -> Self {
        Self::of(name, &Ground::TITLES, least)
    }

    /// By classes that are told; so many cases meet one.
    pub fn of(name: &'static str, classes: &'static [&'static str], least: usize) -> Self {
        Self {
            name,
            classes,
            least,
            cases: std::array::from_fn(|_| vec![0; classes.len()]),
        }
    }

    /// Counts a case under its status; where the answers differ, prints it whole and ends the run.
    pub fn compare<T: Debug + PartialEq>(
        &mut self,
        by: Judge,
        input: impl FnOnce() -> String,
        judge: Answer<T>,
        library: Answer<T>,
    ) {
        let status = match judge {
            Answer::Accepted(_) => 0,
            Answer::Refused(status) => status,
            Answer::Broken(_) => unreachable!("no judge is broken"),
        };
        self.compare_as(status, by, input, judge, library);
    }

    /// The same under a class that is told.
    pub fn compare_as<T: Debug + PartialEq>(
        &mut self,
        class: u32,
        by: Judge,
        input: impl FnOnce() -> String,
        judge: Answer<T>,
        library: Answer<T>,
    ) {
        if judge != library {
            let judge_name = match by {
                Judge::Rust => "the Rust",
                _ => "document 01",
            };
            end(&format!(
                "{} differs\n{}  {judge_name}: {judge:?}\n  the library: {library:?}",
                self.name,
                input()
            ));
        }
        self.cases[by as usize][class as usize] += 1;
    }

    /// How many cases the Rust judged, and how many document 01 alone.
    pub fn cases(&self) -> [usize; 2] {
        let [rust, document @ ..] = &self.cases;
        [total(rust), document.iter().map(|cases| total(cases)).sum()]
    }

    /// The fewest cases that one of these classes has of a judge.
    pub fn rarest(&self, judge: Judge, classes: &[u32]) -> usize {
        let cases = &self.cases[judge as usize];
        let times = classes.iter().map(|class| cases[*class as usize]);
        times.min().unwrap()
    }

    /// The call's line; a class that a call has of a judge and too few cases met ends the run.
    pub fn report(&self, rust: &[u32], others: &[(Judge, &[u32])]) {
        let titled = std::iter::zip(&self.cases, Judge::TITLES);
        let met = titled.filter(|(cases, _)| total(*cases) > 0);
        let parts =
            met.map(|(cases, title)| format!("{} {title}{}", total(cases), self.classes_of(cases)));
        let parts: Vec<String> = parts.collect();
        let [with_rust, with_document] = self.cases();
        println!(
            "{}: {with_rust} cases with the Rust and {with_document} with document 01 alone: {}",
            self.name,
            parts.join("; ")
        );
        for (judge, expected) in others.iter().chain(&[(Judge::Rust, rust)]) {
            let cases = &self.cases[*judge as usize];
            let few = |class: &&u32| cases[**class as usize] < self.least;
            if let Some(class) = expected.iter().find(few) {
                let title = self.classes[*class as usize];
                end(&format!("{} has too few cases of: {title}", self.name));
            }
        }
    }

    /// How many cases each class has that was met; nothing where all are of one.
    fn classes_of(&self, cases: &[usize]) -> String {
        if cases.contains(&total(cases)) {
            return String::new();
        }
        let met: Vec<String> = std::iter::zip(self.classes, cases)
            .filter(|(_, cases)| **cases > 0)
            .map(|(title, cases)| format!("{title} {cases}"))
            .collect();
        format!(" ({})", met.join(", "))
    }
}

/// Ends the run. The output stays locked, so that no other thread prints between this and the end.
pub fn end(wrong: &str) -> ! {
    let mut output = std::io::stdout().lock();
    let _ = writeln!(output, "compare: {wrong}");
    std::process::exit(1)
}

/// Ends the run where what must hold does not.
pub fn sure(holds: bool, wrong: &str) {
    if !holds {
        end(wrong);
    }
}

/// Where the Rust and document 01 both judge, they answer the same.
pub fn agreed<T: Debug + PartialEq>(rust: T, document: T, input: impl FnOnce() -> String) {
    if rust != document {
        end(&format!(
            "the Rust and document 01 differ\n{}  the Rust: {rust:?}\n  document 01: {document:?}",
            input()
        ));
    }
}

fn total(cases: &[usize]) -> usize {
    cases.iter().sum()
}

/// An input's line: its name, then its numbers.
pub fn numbers(name: &str, numbers: &[usize]) -> String {
    let mut line = format!("  {name}");
    for number in numbers {
        let _ = write!(line, " {number}");
    }
    line + "\n"
}

/// An input's line: its name, then each float's bits.
pub fn floats(name: &str, floats: &[f64]) -> String {
    let mut line = format!("  {name}");
    for float in floats {
        let _ = write!(line, " 0x{:016x}", float.to_bits());
    }
    line + "\n"
}
