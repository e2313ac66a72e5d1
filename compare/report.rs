//! The comparison of the report program, which runs as a process of its own: a deposit on its standard input, and what it
//! prints beside document 01's text. The equilibria and the strikes in it are the Rust's, those of the table and of what is
//! left of it; the refusals and the catalogue are document 01's alone.

use crate::catalogue;
use crate::deposit::{self, Ground, GROUNDS};
use crate::document::{self, PLAYERS};
use crate::library::{Answer, Bits, Listing};
use crate::report_cases;
use crate::strikes::Table;
use crate::survivors;
use crate::tally::{agreed, sure, Judge, Tally};
use std::fmt::Write as _;
use std::io::Write as _;
use std::process::{Command, Stdio};
use std::time::Duration;

/// The program, from the root of the repository.
pub const PROGRAM: &str = "target/bin/report";

/// The most bytes and the most cells of a deposit that is reported.
pub const BYTES: usize = 24_616;
pub const CELLS: usize = 2_048;

/// The time between two pieces of a deposit.
const PAUSE: Duration = Duration::from_millis(2);

/// The cases that each ground and each feature has at least.
const LEAST: usize = 50;

/// What a case is counted under: a ground of the reader, whose output for payoffs holds so many cells, or the bytes.
const MANY_BYTES: u32 = GROUNDS.len() as u32;

const TITLES: [&str; GROUNDS.len() + 1] = {
    let mut titles = ["refused by 5, the bytes:"; GROUNDS.len() + 1];
    let mut i = 0;
    while i < GROUNDS.len() {
        titles[i] = match GROUNDS[i] {
            (Ground::ManyCells, ..) => "refused by 5, over 65,536 cells:",
            (Ground::ShortPayoffs, ..) => "refused by 5, over 2,048 cells:",
            (_, _, title) => title,
        };
        i += 1;
    }
    titles
};

/// The refusal of a class.
fn refusal(class: u32) -> u32 {
    match GROUNDS.get(class as usize) {
        None | Some((Ground::ShortPayoffs, ..)) => document::MANY_CELLS,
        Some((_, refusal, _)) => *refusal,
    }
}

/// What a table's report is also counted under: its sweeps, the last one too, its equilibria and its catalogue number.
const FEATURES: [(&str, &[&str]); 3] = [
    ("sweeps", &["1", "2", "3", "more"]),
    ("equilibria", &["0", "1", "more"]),
    ("catalogue", &["a number", "none"]),
];

pub struct Reports {
    pub report: Tally,
    keys: Vec<usize>,
    features: [[usize; 4]; FEATURES.len()],
}

impl Reports {
    pub const ACCEPTED: u32 = Ground::Accepted as u32;

    /// The grounds that have to be met where the Rust cannot be asked: all but those of outputs that have room.
    pub fn refused() -> Vec<u32> {
        let room = [Ground::ShortCounts, Ground::ShortBoth, Ground::Accepted];
        let grounds = GROUNDS.iter().map(|(ground, ..)| *ground);
        let met = grounds.filter(|ground| !room.contains(ground));
        met.map(|ground| ground as u32)
            .chain([MANY_BYTES])
            .collect()
    }

    /// A deposit's report as the judges have it, which is the program's.
    pub fn report(&mut self, bytes: &[u8]) -> String {
        self.report_in(bytes, 1)
    }

    /// The same of a deposit that the program is given in so many pieces.
    pub fn report_in(&mut self, bytes: &[u8], pieces: usize) -> String {
        let (class, by, text) = match read(bytes) {
            Ok(table) => (Self::ACCEPTED, Judge::Rust, self.text(&table)),
            Err(class) => {
                let text = format!("refused {}\n", refusal(class));
                (class, Judge::Unasked, text)
            }
        };
        self.report.compare_as(
            class,
            by,
            || deposit::file(bytes),
            Answer::Accepted(text.clone()),
            printed(bytes, pieces),
        );
        text
    }

    /// The report of a table, counted under its features.
    fn text(&mut self, read: &Listing<Bits>) -> String {
        let counts = &read.first[..];
        let payoffs = read.second.iter().map(|bits| f64::from_bits(bits.0));
        let payoffs: Vec<f64> = payoffs.collect();
        let table = Table::new(counts, &payoffs);
        let equilibria = table.judged.equilibria().unwrap();
        let every = survivors::all(counts);
        agreed(&equilibria, &table.game().equilibria(&every), || {
            deposit::file(&deposit::bytes(&deposit::words(counts, &payoffs)))
        });
        let (struck, sweeps) = struck(&table);
        let number = catalogue::number(&self.keys, counts, &payoffs);
        let features = [
            (sweeps - 1).min(3),
            equilibria.number.min(2),
            usize::from(number.is_none()),
        ];
        for (times, feature) in std::iter::zip(&mut self.features, features) {
            times[feature] += 1;
        }
        lines(counts, &equilibria, &struck, number)
    }

    /// The lines of the features; one that came too rarely ends the run.
    pub fn report_features(&self) {
        for ((name, titles), times) in std::iter::zip(FEATURES, self.features) {
            let times = &times[..titles.len()];
            let line =
                std::iter::zip(titles, times).map(|(title, times)| format!("{title}: {times}"));
            let line: Vec<String> = line.collect();
            println!("report, {name}: {}", line.join(", "));
            sure(
                times.iter().all(|times| *times >= LEAST),
                "report has too few of a feature",
            );
        }
        println!(
            "report, the rarest of these and of the causes of a refusal: {}",
            self.rarest()
        );
    }

    fn rarest(&self) -> usize {
        let features = std::iter::zip(FEATURES, &self.features);
        let times = features.flat_map(|((_, titles), times)| &times[..titles.len()]);
        let refusals = self.report.rarest(Judge::Unasked, &Self::refused());
        refusals.min(*times.min().unwrap())
    }
}

/// The table of a deposit, or the class of its refusal.
pub fn read(bytes: &[u8]) -> Result<Listing<Bits>, u32> {
    if bytes.len() > BYTES {
        return Err(MANY_BYTES);
    }
    deposit::read(bytes, [PLAYERS, CELLS]).map_err(|ground| ground as u32)
}

/// The strikes that are accepted, players then strategies ascending, sweep after sweep, until a sweep strikes nothing:
/// player, strategy and dominator of each, and the number of sweeps, the last one too.
pub fn struck(table: &Table) -> (Vec<[usize; 3]>, usize) {
    let mut state = table.fresh();
    let mut struck = Vec::new();
    let mut sweeps = 0;
    loop {
        let before = struck.len();
        for (player, count) in table.judged.counts.iter().enumerate() {
            for strategy in 0..*count {
                if let (_, _, Ok(dominator)) = state.strike(player, strategy) {
                    state = state.without(player, strategy);
                    struck.push([player, strategy, dominator]);
                }
            }
        }
        sweeps += 1;
        if struck.len() == before {
            return (struck, sweeps);
        }
    }
}

/// The text of a report.
fn lines(
    counts: &[usize],
    equilibria: &Listing<Bits>,
    struck: &[[usize; 3]],
    number: Option<usize>,
) -> String {
    let players = counts.len();
    let mut text = format!("players {players}\ncounts{}\n", spaced(counts));
    let _ = writeln!(text, "equilibria {}", equilibria.number);
    let profiles = equilibria.first.chunks(players);
    for (profile, payoffs) in std::iter::zip(profiles, equilibria.second.chunks(players)) {
        text += spaced(profile).trim_start();
        for payoff in payoffs {
            let _ = write!(text, " {:016x}", payoff.0);
        }
        text.push('\n');
    }
    let _ = writeln!(text, "struck {}", struck.len());
    for strike in struck {
        text += spaced(strike).trim_start();
        text.push('\n');
    }
    let number = number.map_or(String::from("none"), |number| number.to_string());
    text + "catalogue " + &number + "\n"
}

/// The numbers with a space before each.
fn spaced(numbers: &[usize]) -> String {
    numbers.iter().map(|number| format!(" {number}")).collect()
}

/// What the program prints, where it does nothing else. It is given the bytes in about so many pieces, one some time
/// after the other, so that it reads them one by one.
fn printed(bytes: &[u8], pieces: usize) -> Answer<String> {
    let mut child = Command::new(PROGRAM)
        .stdin(Stdio::piped())
        .stdout(Stdio::piped())
        .stderr(Stdio::piped())
        .spawn()
        .expect("the program starts");
    let mut input = child.stdin.take().unwrap();
    for piece in bytes.chunks((bytes.len() / pieces).max(1)) {
        // A program that has seen too many bytes may end before it is given the rest.
        let _ = input.write_all(piece);
        if pieces > 1 {
            std::thread::sleep(PAUSE);
        }
    }
    drop(input);
    let output = child.wait_with_output().expect("the program ends");
    if !output.status.success() {
        Answer::Broken("ended with another status than 0")
    } else if !output.stderr.is_empty() {
        Answer::Broken("wrote to its standard error")
    } else {
        Answer::Accepted(String::from_utf8_lossy(&output.stdout).into_owned())
    }
}

/// The comparison.
pub fn reports() -> Reports {
    let mut reports = Reports {
        report: Tally::of("report", &TITLES, LEAST),
        keys: catalogue::least_keys(),
        features: [[0; 4]; FEATURES.len()],
    };
    report_cases::run(&mut reports);
    reports
}
