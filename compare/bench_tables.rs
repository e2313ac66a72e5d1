//! The tables of docs/BENCH.md: the median of several runs of `bench`, each a process of its own,
//! one after the other, and their range.

use crate::bench::{self, PARTS};
use crate::report_bench;
use std::process::{Command, Stdio};

/// One row of a part: its names, and what each run measured.
struct Row {
    names: Vec<String>,
    runs: Vec<Vec<f64>>,
}

/// What the runs give of one figure.
#[derive(Clone, Copy)]
struct Spread {
    median: f64,
    least: f64,
    most: f64,
}

impl Row {
    /// A figure of each run, from what it measured.
    fn spread(&self, figure: impl Fn(&[f64]) -> f64) -> Spread {
        let mut figures: Vec<f64> = self.runs.iter().map(|run| figure(run)).collect();
        figures.sort_by(f64::total_cmp);
        let last = figures.len() - 1;
        Spread {
            median: (figures[last / 2] + figures[last.div_ceil(2)]) / 2.0,
            least: figures[0],
            most: figures[last],
        }
    }

    fn median(&self, place: usize) -> f64 {
        self.spread(|run| run[place]).median
    }

    /// Rust / library, of a row that has the library's time and then the Rust's.
    fn ratio(&self) -> Spread {
        self.spread(|run| run[1] / run[0])
    }

    /// The ratio and the library's time in microseconds.
    fn field(&self) -> String {
        let time = figure(self.median(0) / 1_000.0);
        format!("{} ({time})", figure(self.ratio().median))
    }

    fn part(&self) -> &str {
        &self.names[0]
    }

    /// The last of its names.
    fn call(&self) -> &str {
        &self.names[self.names.len() - 1]
    }
}

impl Spread {
    fn text(self, number: fn(f64) -> String) -> String {
        let Self {
            median,
            least,
            most,
        } = self;
        format!("{} {}", number(median), range(least, most, number))
    }
}

fn range(least: f64, most: f64, number: fn(f64) -> String) -> String {
    format!("({} to {})", number(least), number(most))
}

/// A number by about three digits, or by all before its point.
fn figure(number: f64) -> String {
    match number.abs() {
        99.95.. => whole(number),
        9.995.. => format!("{number:.1}"),
        0.1.. => format!("{number:.2}"),
        _ => format!("{number:.3}"),
    }
}

/// A number without decimals, a comma after each three digits.
fn whole(number: f64) -> String {
    let digits = format!("{:.0}", number.abs());
    let mut text = String::new();
    for (place, digit) in digits.chars().enumerate() {
        if place > 0 && (digits.len() - place) % 3 == 0 {
            text.push(',');
        }
        text.push(digit);
    }
    if number < 0.0 && digits != "0" {
        text.insert(0, '−');
    }
    text
}

/// The tables of a part, or of all, over so many runs.
pub fn bench(runs: &str, part: &str) {
    let known = part == "all" || PARTS.iter().any(|(name, _)| *name == part);
    let runs = runs.parse().unwrap_or(0);
    if !known || runs == 0 {
        println!("compare: no such part, or not a number of runs");
        std::process::exit(2);
    }
    let rows = measure(runs, part);
    let of = |part| -> Vec<&Row> { rows.iter().filter(|row| row.part() == part).collect() };
    println!("{runs} runs; medians, with ranges; times in ns where nothing else is said");
    pairs("checks", &of("checks"));
    offsets(&of("offsets"));
    solvers(&of("solvers"));
    marks(&of("marks"));
    elimination(&of("elimination"), &of("strike"));
    strike_checks(&of("strike"));
    pairs(
        "candidate checks, 64 × 64 unless other sizes are named",
        &of("candidates"),
    );
    deposits(&of("deposits"));
    pairs("catalogue", &of("catalogue"));
    reports(&of("report"));
}

/// What the runs of a part measured, in the order of the first one.
fn measure(runs: usize, part: &str) -> Vec<Row> {
    let mut rows: Vec<Row> = Vec::new();
    let driver = std::env::current_exe().expect("the driver has a place");
    for run in 1..=runs {
        eprintln!("run {run} of {runs}");
        let mut command = Command::new(&driver);
        let command = command.args(["bench-run", part]).stderr(Stdio::inherit());
        let output = command.output().expect("a run starts");
        assert!(output.status.success(), "a run failed");
        for line in String::from_utf8(output.stdout).unwrap().lines() {
            let (names, measured) = line.rsplit_once('\t').unwrap();
            let names: Vec<String> = names.split('\t').map(String::from).collect();
            let measured = measured.split(' ').map(|number| number.parse().unwrap());
            let measured: Vec<f64> = measured.collect();
            match rows.iter_mut().find(|row| row.names == names) {
                Some(row) => row.runs.push(measured),
                None => rows.push(Row {
                    names,
                    runs: vec![measured],
                }),
            }
        }
    }
    rows
}

/// A table, its numbers to the right; nothing where it has no rows.
fn table(title: &str, words: &[&str], numbers: &[&str], rows: &[Vec<String>]) {
    if rows.is_empty() {
        return;
    }
    println!("\n{title}\n\n| {} |", [words, numbers].concat().join(" | "));
    let lines = [vec!["---"; words.len()], vec!["---:"; numbers.len()]];
    println!("|{}|", lines.concat().join("|"));
    for row in rows {
        println!("| {} |", row.join(" | "));
    }
}

/// The library's time, the Rust's and the ratio.
fn pairs(title: &str, rows: &[&Row]) {
    let fields = |row: &&Row| {
        vec![
            row.call().to_string(),
            figure(row.median(0)),
            figure(row.median(1)),
            row.ratio().text(figure),
        ]
    };
    let rows: Vec<Vec<String>> = rows.iter().map(fields).collect();
    let columns = ["library", "Rust", "Rust / library (range)"];
    table(title, &["call"], &columns, &rows);
}

/// The library's time, and the Rust's and plain Rust's with their ratios.
fn offsets(rows: &[&Row]) {
    let fields = |row: &&Row| {
        let mut fields = vec![row.call().to_string(), figure(row.median(0))];
        for other in [1, 2] {
            fields.push(figure(row.median(other)));
            fields.push(row.spread(|run| run[other] / run[0]).text(figure));
        }
        fields
    };
    let rows: Vec<Vec<String>> = rows.iter().map(fields).collect();
    let columns = [
        "library",
        "Rust",
        "Rust / library (range)",
        "plain Rust",
        "plain Rust / library (range)",
    ];
    table("offsets, of the last profile", &["shape"], &columns, &rows);
}

/// The calls of the solvers on one table, the last two those of best responses: into two outputs,
/// and as records.
const CALLS: usize = 6;
const RESPONSES: usize = CALLS - 2;
const RECORDS: usize = CALLS - 1;

/// The tables of each shape.
const KINDS: usize = 3;

/// The shape that stands for small tables.
const SMALLEST: &str = "2 × 2";

/// The ratios of the calls beside each other, what is missed, and the lists of records.
fn solvers(rows: &[&Row]) {
    if rows.is_empty() {
        return;
    }
    let line = |table: &[&Row]| {
        let names = table[0].names[1..3].iter().cloned();
        names
            .chain(table[..RECORDS].iter().map(|row| row.field()))
            .collect()
    };
    let lines: Vec<Vec<String>> = rows.chunks(CALLS).map(line).collect();
    let calls: Vec<&str> = rows[..RECORDS].iter().map(|row| row.call()).collect();
    let title = "solvers: Rust / library (the library's time in µs)";
    table(title, &["shape", "table"], &calls, &lines);
    missed(rows);
    records(rows);
    let least = |records: bool| {
        let rows = rows
            .iter()
            .filter(|row| records == (row.call() == rows[RECORDS].call()));
        let least = rows.map(|row| row.ratio().least).reduce(f64::min);
        figure(least.unwrap())
    };
    let [plain, records] = [false, true].map(least);
    println!("\nthe least ratio in any run: {plain}, and of lists of records {records}");
}

/// How many times as fast as the Rust a call of the solvers is to be at least.
fn aim(row: &Row) -> f64 {
    match (row.call(), row.names[2].as_str()) {
        _ if row.names[1] == SMALLEST => 1.0,
        ("`equilibria`", "random") => 5.0,
        ("`equilibria`", "constant") => 10.0,
        (call, _) if call.starts_with("dominance") => 10.0,
        _ => 1.0,
    }
}

/// What misses its aim, a line for each call and shape; the range is that of the line.
fn missed(rows: &[&Row]) {
    let missed = rows.iter().filter(|row| row.ratio().median < aim(row));
    let mut missed: Vec<&Row> = missed.copied().collect();
    missed.sort_by_key(|row| row.call());
    let line = |rows: &[&Row]| {
        let kinds: Vec<&str> = rows.iter().map(|row| row.names[2].as_str()).collect();
        let ratios = rows.iter().map(|row| row.ratio());
        let medians: Vec<String> = ratios.clone().map(|ratio| figure(ratio.median)).collect();
        let least = ratios.clone().map(|ratio| ratio.least).reduce(f64::min);
        let most = ratios.map(|ratio| ratio.most).reduce(f64::max);
        let range = range(least.unwrap(), most.unwrap(), figure);
        vec![
            rows[0].call().to_string(),
            format!("{} {}", rows[0].names[1], kinds.join(", ")),
            format!("{} {range}", medians.join(", ")),
        ]
    };
    let same =
        |one: &&Row, other: &&Row| one.call() == other.call() && one.names[1] == other.names[1];
    let lines: Vec<Vec<String>> = missed.chunk_by(same).map(line).collect();
    let columns = ["Rust / library (range)"];
    table(
        "what is missed",
        &["what", "shape and table"],
        &columns,
        &lines,
    );
}

/// Best responses into two outputs, and as records: the ratios of each table of a shape, and the
/// library's time in µs on the first.
fn records(rows: &[&Row]) {
    let line = |shape: &[&Row]| {
        let field = |call: usize| {
            let rows = shape.iter().skip(call).step_by(CALLS);
            let ratios: Vec<String> = rows.map(|row| figure(row.ratio().median)).collect();
            let time = figure(shape[call].median(0) / 1_000.0);
            format!("{} ({time})", ratios.join(", "))
        };
        vec![shape[0].names[1].clone(), field(RESPONSES), field(RECORDS)]
    };
    let lines: Vec<Vec<String>> = rows.chunks(KINDS * CALLS).map(line).collect();
    let columns = ["into two outputs", "as records"];
    table("best responses", &["shape"], &columns, &lines);
}

/// The calls on marks on one table: the sweep, the equilibria and the listing from the sweep's marks.
const MARK_CALLS: usize = 3;

/// Each call's time in ns and ratio, and the sweep's time for a cell.
fn marks(rows: &[&Row]) {
    if rows.is_empty() {
        return;
    }
    let a_cell = |row: &Row| row.spread(|run| run[0] / run[2]);
    let line = |table: &[&Row]| {
        let mut fields = table[0].names[1..3].to_vec();
        for row in table {
            fields.extend([figure(row.median(0)), row.ratio().text(figure)]);
        }
        fields.insert(3, a_cell(table[0]).text(figure));
        fields
    };
    let lines: Vec<Vec<String>> = rows.chunks(MARK_CALLS).map(line).collect();
    let calls = rows[..MARK_CALLS].iter().map(|row| row.call());
    let mut columns: Vec<&str> = calls
        .clone()
        .flat_map(|call| [call, "Rust / library (range)"])
        .collect();
    columns.insert(1, "a cell (range)");
    table("marks, in ns", &["shape", "table"], &columns, &lines);
    let larger = rows.iter().filter(|row| row.names[1] != SMALLEST);
    let least = |call: &str| {
        let rows = larger.clone().filter(|row| row.call() == call);
        let least = rows.map(|row| row.ratio().least).reduce(f64::min);
        format!("{} of {call}", figure(least.unwrap()))
    };
    let least: Vec<String> = calls.map(least).collect();
    let sweeps = larger.step_by(MARK_CALLS);
    let most = sweeps.map(|row| a_cell(row).most).reduce(f64::max);
    println!(
        "\nin any run, after {SMALLEST}: the least ratio {}; the most ns a cell {}",
        least.join(", "),
        figure(most.unwrap())
    );
}

/// Eliminations in µs, with the checks' share of single strikes.
fn elimination(rows: &[&Row], checks: &[&Row]) {
    let fields = |row: &&Row| {
        let checks = checks.iter().find(|checks| checks.names[1] == row.names[1]);
        let checks = checks.unwrap();
        let time = |place: usize| figure(row.median(place) / 1_000.0);
        let ratio = |place: usize| row.spread(|run| run[4] / run[place]).text(figure);
        vec![
            row.names[1].clone(),
            row.names[2].clone(),
            whole(row.median(0)),
            whole(row.median(1)),
            time(2),
            time(3),
            time(4),
            ratio(2),
            ratio(3),
            share(row, checks, |check| check[0]),
            share(row, checks, |check| check[2] - check[0]),
        ]
    };
    let lines: Vec<Vec<String>> = rows.iter().map(fields).collect();
    let columns = [
        "strikes",
        "accepted",
        "single strikes",
        "one list",
        "Rust",
        "Rust / single strikes (range)",
        "Rust / list (range)",
        "1 to 7",
        "16",
    ];
    table("elimination, in µs", &["shape", "table"], &columns, &lines);
}

/// What each single strike checks, in ns.
fn strike_checks(rows: &[&Row]) {
    let fields = |row: &&Row| {
        vec![
            row.names[1].clone(),
            row.spread(|run| run[0]).text(whole),
            row.spread(|run| run[1] - run[0]).text(whole),
            row.spread(|run| run[2] - run[1]).text(whole),
        ]
    };
    let lines: Vec<Vec<String>> = rows.iter().map(fields).collect();
    let columns = [
        "1 to 7 (range)",
        "taken over (range)",
        "foreign check (range)",
    ];
    table("what each strike checks", &["shape"], &columns, &lines);
}

/// The share that a check has of an elimination by single strikes, each of which makes it.
fn share(row: &Row, checks: &Row, check: fn(&[f64]) -> f64) -> String {
    let shares = std::iter::zip(&row.runs, &checks.runs)
        .map(|(run, checks)| vec![100.0 * check(checks) * run[0] / run[2]]);
    let shares = Row {
        names: Vec::new(),
        runs: shares.collect(),
    };
    format!("{:.0}%", shares.median(0))
}

fn deposits(rows: &[&Row]) {
    let fields = |row: &&Row| {
        let speed = |place: usize| row.spread(|run| 1_000.0 * run[2] / run[place]);
        vec![
            row.call().to_string(),
            whole(row.median(2)),
            figure(row.median(0)),
            figure(row.median(1)),
            speed(0).text(whole),
            speed(1).text(whole),
            row.ratio().text(figure),
        ]
    };
    let lines: Vec<Vec<String>> = rows.iter().map(fields).collect();
    let columns = [
        "bytes",
        "library, ns",
        "Rust, ns",
        "library, MB/s (range)",
        "Rust, MB/s (range)",
        "Rust / library (range)",
    ];
    table("deposit files", &["call"], &columns, &lines);
}

/// The program's time and instructions, and what it reports.
fn reports(rows: &[&Row]) {
    let fields = |row: &&Row| {
        let name = row.call();
        let [deposit, report] = report_bench::lengths(name).map(|length| whole(length as f64));
        let (shape, told) = match report_bench::told(name) {
            Some((counts, told)) => (
                bench::shape(&counts),
                told.map(|number| whole(number as f64)),
            ),
            None => (String::new(), [(); 3].map(|()| String::new())),
        };
        let instructions = report_bench::instructions(name).map(|number| number / 1_000.0);
        let instructions = instructions.map_or(String::from("left out"), whole);
        let names = [format!("`{name}`"), shape, deposit];
        let time = row.spread(|run| run[0]).text(figure);
        let fields = [names, told].concat();
        [fields, vec![report, time, instructions]].concat()
    };
    let lines: Vec<Vec<String>> = rows.iter().map(fields).collect();
    let columns = [
        "bytes",
        "equilibria",
        "strikes",
        "sweeps",
        "bytes of the report",
        "ms (range)",
        "thousand instructions",
    ];
    table("report", &["deposit", "shape"], &columns, &lines);
}
