//! The library beside the Rust that it was ported from: every call of both on the same inputs, by
//! bits.
//! Words: none compares, `bench RUNS PART` prints the times of so many runs of a part or of `all`,
//! each made by `bench-run PART`; `record` writes the Rust's answers to a sample of inputs into the
//! lines of the test programs.

mod bench;
mod bench_tables;
mod calls;
mod candidate_cases;
mod candidate_record;
mod candidates;
mod cases;
mod catalogue;
mod catalogue_cases;
mod deposit;
mod deposit_cases;
mod differences;
mod document;
mod grid_cases;
mod grids;
mod inputs;
mod library;
mod listings;
mod marks;
mod plain;
mod record;
mod report;
mod report_bench;
mod report_cases;
mod rust;
mod solvers;
mod steps;
mod strike_cases;
mod strikes;
mod survivors;
mod tally;

/// The reference as it stands, and below it the ways to its private functions.
#[allow(dead_code)]
mod reference {
    include!(env!("REFERENCE"));

    pub fn offset(space: &StrategySpace, profile: &[usize]) -> Option<usize> {
        space.profile_offset(profile)
    }

    pub fn advance(space: &StrategySpace, profile: &mut [usize]) -> bool {
        advance_profile(profile, space)
    }

    pub fn is_equilibrium(matrix: &PayoffMatrix, profile: &[usize]) -> bool {
        PureNashSolver::is_equilibrium(matrix, profile)
    }
}

fn main() {
    let words: Vec<String> = std::env::args().skip(1).collect();
    let words: Vec<&str> = words.iter().map(String::as_str).collect();
    match words[..] {
        [] => {
            differences::differences();
            calls::compare();
            record::record(false);
        }
        ["bench", runs, part] => bench_tables::bench(runs, part),
        ["bench-run", part] => bench::run(part),
        ["record"] => record::record(true),
        _ => {
            eprintln!("usage: compare [bench RUNS PART | record]");
            std::process::exit(2);
        }
    }
}
