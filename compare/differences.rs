//! The intended differences of docs/DIFFERENCES.md, each on its smallest input: both sides answer as the page says.

use crate::document::{ACTIONS, PLAYERS, STRATEGIES};
use crate::library::{self, Answer, Bits, Claim};
use crate::reference;
use crate::rust;
use std::panic::UnwindSafe;

/// Runs every listed difference and prints how many there are; one that does not stand ends the run.
pub fn differences() {
    let many = STRATEGIES + 1;
    let listed = [
        table("one player too many", &[1; PLAYERS + 1], PLAYERS + 1, 2, 0),
        table("a count over the limit", &[many], many, 4, 0),
        table("a count over the limit, then 0", &[many, 0], 0, 4, 3),
        table("a 0 past the last player", &eight_and_a_zero(), 0, 2, 3),
        table("too many cells", &[8, 8, 16, 17], 8 * 8 * 16 * 17 * 4, 5, 0),
        table("counts whose product wraps", &[1 << 16; 4], 0, 4, 0),
        wrapped_listing(),
        both_six_and_seven(),
        largest_choice(),
        no_profile("an equilibrium of too few choices", &[], 11),
        no_profile("an equilibrium past a count", &[1], 12),
        gain_of_many(),
        minimax_of_many(),
    ];
    for (name, stands) in listed {
        if !stands {
            println!("compare: the difference listed as `{name}` is another one");
            std::process::exit(1);
        }
    }
    println!(
        "differences: {} listed, all as docs/DIFFERENCES.md says",
        listed.len()
    );
}

fn eight_and_a_zero() -> [usize; PLAYERS + 1] {
    let mut counts = [1; PLAYERS + 1];
    counts[PLAYERS] = 0;
    counts
}

/// A table of zeros, with the status of the library and that of the Rust.
fn table(
    name: &'static str,
    counts: &[usize],
    length: usize,
    here: u32,
    there: u32,
) -> (&'static str, bool) {
    let payoffs = vec![0.0; length];
    let library = library::payoff_matrix_new(counts, &payoffs) == Answer::Refused(here);
    let rust = rust::table(counts, &payoffs).err().unwrap_or(0) == there;
    (name, library && rust)
}

/// The equilibria of the table that the Rust accepted because the product wrapped: the listing panics.
fn wrapped_listing() -> (&'static str, bool) {
    let table = rust::table(&[1 << 16; 4], &[]).unwrap();
    let listed = panics(|| rust::equilibria(&table).len());
    ("the listing of such counts", listed)
}

/// The hook is that of all threads: no other runs meanwhile.
fn panics<T>(call: impl FnOnce() -> T + UnwindSafe) -> bool {
    let hook = std::panic::take_hook();
    std::panic::set_hook(Box::new(|_| ()));
    let answer = std::panic::catch_unwind(call);
    std::panic::set_hook(hook);
    answer.is_err()
}

/// Counts 1 with the payoff 0.0, and choices that are no profile: a refusal here, a panic there.
fn no_profile(name: &'static str, profile: &[usize], here: u32) -> (&'static str, bool) {
    let library = library::is_equilibrium(&[1], &[0.0], profile) == Answer::Refused(here);
    let table = rust::table(&[1], &[0.0]).unwrap();
    let rust = panics(|| reference::is_equilibrium(&table, profile));
    (name, library && rust)
}

/// Counts 2 with the one payoff NaN: the number of payoffs is judged first here, the value first there.
fn both_six_and_seven() -> (&'static str, bool) {
    let library = library::payoff_matrix_new(&[2], &[f64::NAN]) == Answer::Refused(6);
    let rust = rust::table(&[2], &[f64::NAN]).err() == Some(7);
    ("both 6 and 7", library && rust)
}

/// Counts 2 2 with the choices 0 and the largest number: here the second goes to 0 and the first goes up; there the
/// addition overflows, which in a release build gives 0 and a next profile.
fn largest_choice() -> (&'static str, bool) {
    let mut lent = [0; PLAYERS];
    lent[1] = usize::MAX;
    let mut stepped = [0; PLAYERS];
    stepped[0] = 1;
    let library = library::advance_profile(&[2, 2], &lent) == Answer::Accepted((true, stepped));
    let space = rust::space(&[2, 2]).unwrap();
    let more = reference::advance(&space, &mut lent[..2]);
    (
        "the largest number as a choice",
        library && more && lent[..2] == [0, 0],
    )
}

/// One row too many of one column, all zeros: infinity here, no gain there.
fn gain_of_many() -> (&'static str, bool) {
    let zeros = [0.0; ACTIONS + 1];
    let infinity = Answer::Accepted(Bits::of(f64::INFINITY));
    let lists = [&zeros[..]; 3];
    let library = library::verify_correlated_equilibrium_incentives(ACTIONS + 1, 1, lists);
    let rows = rust::rows(&zeros, 1);
    let rust = rust::incentives(&rows, &rows, &rows).to_bits() == 0;
    ("a gain of too many rows", library == infinity && rust)
}

/// The same table with its first row as player 1's strategy, the value 0 and the tolerance 0: no here, yes there.
fn minimax_of_many() -> (&'static str, bool) {
    let zeros = [0.0; ACTIONS + 1];
    let mut first = zeros;
    first[0] = 1.0;
    let claim = Claim {
        value: 0.0,
        tolerance: 0.0,
    };
    let lists: [&[f64]; 3] = [&zeros, &first, &[1.0]];
    let library = library::verify_minimax_residuals(ACTIONS + 1, 1, lists, claim);
    let record = rust::record(&first, &[1.0], claim.value);
    let rust = rust::minimax(&rust::rows(&zeros, 1), &record, claim.tolerance);
    (
        "a minimax check of too many rows",
        library == Answer::Accepted(false) && rust,
    )
}
