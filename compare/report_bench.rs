//! The report program's time as a process, its instructions, and what it reports.

use crate::report::{self, PROGRAM};
use crate::report_cases::{EXAMPLES, KEPT};
use crate::strikes::Table;
use std::fs::File;
use std::path::PathBuf;
use std::process::{Command, Stdio};
use std::time::Instant;

/// Deposits that the repository keeps.
pub const DEPOSITS: [&str; 5] = [
    "refused_17_empty",
    "volunteers_8",
    "cournot",
    "gifts_32",
    "climbers",
];

/// How often the program runs on each.
const TIMES: usize = 400;

/// Where callgrind writes what it counted besides the sum.
const COUNTED: &str = "--callgrind-out-file=target/compare/callgrind";

fn deposit(name: &str) -> PathBuf {
    let place = PathBuf::from(format!("{EXAMPLES}/{name}.deposit"));
    if place.exists() {
        return place;
    }
    PathBuf::from(format!("{KEPT}/{name}.deposit"))
}

/// The median time from the program's start to its end, the deposit being a file.
pub fn milliseconds(name: &str) -> f64 {
    let deposit = deposit(name);
    let mut times: Vec<f64> = (0..TIMES)
        .map(|_| {
            let input = File::open(&deposit).expect(name);
            let start = Instant::now();
            let status = Command::new(PROGRAM)
                .stdin(input)
                .stdout(Stdio::null())
                .status();
            assert!(status.is_ok_and(|status| status.success()), "{name}");
            1_000.0 * start.elapsed().as_secs_f64()
        })
        .collect();
    times.sort_by(f64::total_cmp);
    times[TIMES / 2]
}

/// The program's instructions as callgrind counts them, where it is at hand.
pub fn instructions(name: &str) -> Option<f64> {
    let output = Command::new("valgrind")
        .args(["--tool=callgrind", COUNTED, PROGRAM])
        .stdin(File::open(deposit(name)).expect(name))
        .output()
        .ok()?;
    let told = String::from_utf8_lossy(&output.stderr);
    let line = told.lines().find(|line| line.contains("Collected :"))?;
    line.split_whitespace().last()?.parse().ok()
}

/// The lengths of a deposit and of its report.
pub fn lengths(name: &str) -> [usize; 2] {
    let report = PathBuf::from(format!("{KEPT}/{name}.report"));
    [deposit(name), report].map(|file| std::fs::metadata(file).expect(name).len() as usize)
}

/// A deposit's counts, its equilibria, its strikes and its sweeps, the last one too, where it is
/// not refused.
pub fn told(name: &str) -> Option<(Vec<usize>, [usize; 3])> {
    let bytes = std::fs::read(deposit(name)).expect(name);
    let read = report::read(&bytes).ok()?;
    let payoffs = read.second.iter().map(|bits| f64::from_bits(bits.0));
    let payoffs: Vec<f64> = payoffs.collect();
    let table = Table::new(&read.first, &payoffs);
    let equilibria = table.judged.equilibria().ok()?.number;
    let (struck, sweeps) = report::struck(&table);
    Some((read.first.clone(), [equilibria, struck.len(), sweeps]))
}
