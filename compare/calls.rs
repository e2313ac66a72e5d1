//! The comparison of every call.

use crate::candidates::{self, Candidates};
use crate::cases::{self, Random, MOST_PROFILES};
use crate::catalogue;
use crate::deposit::{self, Deposits};
use crate::document::{self, Ground, CELLS, PLAYERS, STRATEGIES};
use crate::grids::{self, Grids};
use crate::inputs;
use crate::library::{self, Answer, Bits};
use crate::listings;
use crate::marks::{self, Marks};
use crate::report::{self, Reports};
use crate::rust::{self, Judged};
use crate::solvers;
use crate::steps;
use crate::strikes::{self, Strikes};
use crate::tally::{floats, numbers, Judge, Tally};

/// What every call with a table is refused by outside the domain, and with both 6 and 7; what one with outputs is.
const OUTSIDE: (Judge, &[u32]) = (Judge::Outside, &[2, 3, 4, 5]);
const BOTH: (Judge, &[u32]) = (Judge::SixAndSeven, &[6]);
const SHORT: (Judge, &[u32]) = (Judge::TooShort, &[13]);

/// Compares every call and prints a line for each. Two threads share the calls, such that they take about as long.
pub fn compare() {
    inputs::watch();
    let other = std::thread::spawn(|| {
        (
            strikes::strikes(),
            deposit::deposits(),
            catalogue::catalogue(),
            grids::grids(),
        )
    });
    let (mut with_rust, mut with_document) = (0, 0);
    let mut report = |tally: Tally, rust: &[u32], others: &[(Judge, &[u32])]| {
        tally.report(rust, others);
        let [rust, document] = tally.cases();
        with_rust += rust;
        with_document += document;
    };
    report(utilities(), &[0, 7], &[]);
    report(finite(), &[0], &[]);
    report(spaces(), &[0, 1, 3], &[OUTSIDE]);
    report(matrices(), &[0, 1, 3, 6, 7], &[OUTSIDE, BOTH]);
    let calls = calls();
    let table = [OUTSIDE, BOTH];
    report(calls.payoff, &[0, 1, 3, 6, 7, 8, 11, 12], &table);
    report(calls.offset, &[0, 1, 3, 6, 7, 11, 12], &table);
    report(calls.profile_payoffs, &[0, 1, 3, 6, 7, 11, 12], &table);
    report(steps::steps(), &[0], &[(Judge::Outside, &[0])]);
    let solvers = solvers::solvers();
    let lists = [OUTSIDE, BOTH, SHORT];
    report(solvers.responses, &[0, 1, 3, 6, 7, 8, 9, 10], &lists);
    report(solvers.records, &[0, 1, 3, 6, 7, 8, 9, 10], &lists);
    let panics: (Judge, &[u32]) = (Judge::Panics, &[11, 12]);
    report(
        solvers.equilibrium,
        &[0, 1, 3, 6, 7],
        &[OUTSIDE, BOTH, panics],
    );
    report(solvers.equilibria, &listings::with_rust(), &table);
    report(solvers.dominated, &[0, 1, 3, 6, 7, 8], &lists);
    mark_calls(marks::marks(), &mut report);
    let candidates = candidates::candidates();
    let reports = report::reports();
    let (strikes, deposits, catalogue, grids) = other.join().unwrap();
    strike_calls(strikes, &mut report);
    let classes =
        |grounds: &[Ground]| -> Vec<u32> { grounds.iter().map(|ground| *ground as u32).collect() };
    let sizes = classes(&[Ground::Sizes]);
    let shapes = classes(&[Ground::Sizes, Ground::Lengths]);
    let others: [(Judge, &[u32]); 2] = [(Judge::Outside, &sizes), (Judge::Unasked, &shapes)];
    candidates.report_largest();
    report(candidates.gain, &classes(&Candidates::GAIN), &others);
    let verdict = classes(&Candidates::VERDICT);
    report(candidates.verdict, &[], &[(Judge::Unasked, &verdict)]);
    report(candidates.minimax, &classes(&Candidates::MINIMAX), &others);
    grids.report_features();
    report(grids.gain, &Grids::GAIN, &[]);
    report(grids.dominated, &Grids::DOMINATED, &[]);
    let read: Vec<u32> = (0..deposit::GROUNDS.len() as u32).collect();
    report(deposits.read, &[], &[(Judge::Unasked, &read)]);
    report(deposits.write, &[], &[(Judge::Unasked, &Deposits::WRITE)]);
    catalogue.report_numbers();
    let titles: Vec<u32> = (0..catalogue::TITLES.len() as u32).collect();
    report(catalogue.number, &[], &[(Judge::Unasked, &titles)]);
    reports.report_features();
    let refused = Reports::refused();
    report(
        reports.report,
        &[Reports::ACCEPTED],
        &[(Judge::Unasked, &refused)],
    );
    inputs::report();
    println!("compare: {with_rust} cases with the Rust and {with_document} with document 01 alone, 0 differences");
}

/// The calls on marks of best responses.
fn mark_calls(marks: Marks, report: &mut impl FnMut(Tally, &[u32], &[(Judge, &[u32])])) {
    marks.report_beside();
    let short: (Judge, &[u32]) = (Judge::TooShort, &Marks::SHORT);
    report(marks.sweep, &Marks::with_rust(), &[OUTSIDE, BOTH, short]);
    let unasked: (Judge, &[u32]) = (Judge::Unasked, &listings::without_rust());
    report(
        marks.listing,
        &listings::with_rust(),
        &[OUTSIDE, BOTH, unasked],
    );
}

/// The calls on survivors.
fn strike_calls(strikes: Strikes, report: &mut impl FnMut(Tally, &[u32], &[(Judge, &[u32])])) {
    strikes.report_answers();
    strikes.report_beside();
    report(strikes.fresh, &[0, 1, 3, 6, 7], &[OUTSIDE, BOTH]);
    let refused = [&Strikes::GONE[..], &Strikes::FOREIGN].concat();
    let unasked: (Judge, &[u32]) = (Judge::Unasked, &refused);
    report(
        strikes.strike,
        &[0, 1, 3, 6, 7, 8, 15],
        &[OUTSIDE, BOTH, unasked],
    );
    let unasked: (Judge, &[u32]) = (Judge::Unasked, &Strikes::FOREIGN);
    report(
        strikes.surviving,
        &listings::with_rust(),
        &[OUTSIDE, BOTH, unasked],
    );
    report(strikes.strikes, &[0, 1, 3, 6, 7], &[OUTSIDE, BOTH, SHORT]);
}

fn utilities() -> Tally {
    let mut tally = Tally::new("Utility::new");
    let mut compare = |bits: u64| {
        let value = f64::from_bits(bits);
        let judge = rust::utility(value).map(|utility| Bits::of(utility.value()));
        let input = || floats("value", &[value]);
        let library = library::utility_new(value);
        tally.compare(Judge::Rust, input, judge.into(), library);
    };
    // Both signs, every exponent, fractions around every edge.
    for exponent in 0..1 << 12 {
        for fraction in [
            0,
            1,
            2,
            (1 << 51) - 1,
            1 << 51,
            (1 << 51) + 1,
            (1 << 52) - 1,
        ] {
            compare(exponent << 52 | fraction);
        }
    }
    let mut random = Random(1);
    cases::FINITE
        .into_iter()
        .chain(cases::NON_FINITE)
        .for_each(&mut compare);
    for _ in 0..100_000 {
        compare(random.word());
        compare(random.finite().to_bits());
        compare(random.non_finite().to_bits());
    }
    tally
}

fn finite() -> Tally {
    let mut tally = Tally::new("all_finite");
    let mut compare = |payoffs: &[f64]| {
        let judge = Answer::Accepted(payoffs.iter().all(|payoff| rust::utility(*payoff).is_ok()));
        let input = || floats("payoffs", payoffs);
        tally.compare(Judge::Rust, input, judge, library::all_finite(payoffs));
    };
    // Every length up to 64, each with every place of one value that isn't finite.
    let mut random = Random(2);
    for length in 0..=64 {
        let mut payoffs: Vec<f64> = (0..length).map(|_| random.finite()).collect();
        compare(&payoffs);
        for place in 0..length {
            for bits in cases::NON_FINITE {
                let kept = std::mem::replace(&mut payoffs[place], f64::from_bits(bits));
                compare(&payoffs);
                payoffs[place] = kept;
            }
        }
    }
    for turn in 0..600 {
        let length = match turn % 3 {
            0 => CELLS + random.below(3),
            1 => random.below(CELLS),
            _ => random.below(2_000),
        };
        let mut payoffs: Vec<f64> = (0..length).map(|_| random.finite()).collect();
        for _ in 0..(turn % 4).min(length) {
            let place = random.below(length);
            payoffs[place] = random.non_finite();
        }
        compare(&payoffs);
    }
    tally
}

fn spaces() -> Tally {
    let mut tally = Tally::new("StrategySpace::from_counts");
    let mut compare = |counts: &[usize]| {
        let (by, judge) = if document::in_domain(counts) {
            (Judge::Rust, rust::space(counts))
        } else {
            (Judge::Outside, Err(document::space_refusal(counts)))
        };
        let judge = judge.map(|space| rust::space_of(&space));
        let input = || numbers("counts", counts);
        tally.compare(by, input, judge.into(), library::from_counts(counts));
    };
    for length in 0..=3 {
        cases::lists(&cases::EDGES, length).for_each(|counts| compare(&counts));
    }
    for length in 0..=PLAYERS {
        cases::lists(&[0, 1, 2], length).for_each(|counts| compare(&counts));
    }
    for length in PLAYERS + 1..=PLAYERS + 2 {
        cases::lists(&[0, 1], length).for_each(|counts| compare(&counts));
    }
    for shape in cases::large_shapes() {
        cases::neighbours(&shape)
            .iter()
            .for_each(|counts| compare(counts));
    }
    let mut random = Random(3);
    for _ in 0..30_000 {
        compare(&random.counts());
        let shape = random.shape(CELLS, STRATEGIES);
        compare(&shape);
        for counts in cases::neighbours(&shape) {
            compare(&counts);
        }
    }
    tally
}

fn matrices() -> Tally {
    let mut tally = Tally::new("payoff_matrix");
    let mut random = Random(4);
    for shape in cases::large_shapes() {
        for counts in cases::neighbours(&shape) {
            lengths(&mut tally, &mut random, &counts);
        }
        places(&mut tally, &mut random, &shape);
    }
    for turn in 0..4_000 {
        let cells = if turn % 40 == 0 { CELLS } else { 64 };
        let shape = random.shape(cells, STRATEGIES);
        lengths(&mut tally, &mut random, &shape);
        places(&mut tally, &mut random, &shape);
        let counts = random.counts();
        lengths(&mut tally, &mut random, &counts);
    }
    tally
}

/// Counts with as many payoffs as they have cells, one less, one more and none; all finite, and with one that isn't.
fn lengths(tally: &mut Tally, random: &mut Random, counts: &[usize]) {
    let cells = document::cells(counts).min(CELLS as u128) as usize;
    let mut payoffs: Vec<f64> = (0..cells + 1).map(|_| random.finite()).collect();
    for length in [cells, cells.saturating_sub(1), cells + 1, 0] {
        matrix(tally, counts, &payoffs[..length]);
        if length > 0 {
            let place = random.below(length);
            let kept = std::mem::replace(&mut payoffs[place], random.non_finite());
            matrix(tally, counts, &payoffs[..length]);
            payoffs[place] = kept;
        }
    }
}

/// A table with a value that isn't finite in the first place, the middle one, the last one.
fn places(tally: &mut Tally, random: &mut Random, counts: &[usize]) {
    let cells = document::cells(counts) as usize;
    let mut payoffs: Vec<f64> = (0..cells).map(|_| random.finite()).collect();
    for place in [0, cells / 2, cells - 1] {
        let kept = std::mem::replace(&mut payoffs[place], random.non_finite());
        matrix(tally, counts, &payoffs);
        payoffs[place] = kept;
    }
}

fn matrix(tally: &mut Tally, counts: &[usize], payoffs: &[f64]) {
    let judged = Judged::new(counts, payoffs);
    tally.compare(
        judged.by,
        || numbers("counts", counts) + &floats("payoffs", payoffs),
        judged.space(),
        library::payoff_matrix_new(counts, payoffs),
    );
}

/// The calls that take a table and a profile.
struct Calls {
    payoff: Tally,
    offset: Tally,
    profile_payoffs: Tally,
}

impl Calls {
    /// The three calls on one profile, `payoff` for each of the players.
    fn compare(
        &mut self,
        judged: &Judged,
        profile: &[usize],
        players: impl IntoIterator<Item = usize>,
    ) {
        let (counts, payoffs) = (judged.counts, judged.payoffs);
        let input = || {
            numbers("counts", counts) + &floats("payoffs", payoffs) + &numbers("profile", profile)
        };
        for player in players {
            self.payoff.compare(
                judged.by,
                || input() + &numbers("player", &[player]),
                judged.payoff(profile, player),
                library::payoff(counts, payoffs, profile, player),
            );
        }
        self.offset.compare(
            judged.by,
            input,
            judged.offset(profile),
            library::offset(counts, payoffs, profile),
        );
        self.profile_payoffs.compare(
            judged.by,
            input,
            judged.profile_payoffs(profile),
            library::profile_payoffs(counts, payoffs, profile),
        );
    }
}

fn calls() -> Calls {
    let mut calls = Calls {
        payoff: Tally::new("payoff"),
        offset: Tally::new("offset"),
        profile_payoffs: Tally::new("profile_payoffs"),
    };
    for shape in cases::small_shapes(8) {
        every_table(&mut calls, &shape);
    }
    let mut random = Random(5);
    for shape in cases::large_shapes() {
        random_table(&mut calls, &mut random, &shape, 200);
    }
    for turn in 0..8_000 {
        let cells = if turn % 80 == 0 { CELLS } else { 256 };
        let shape = random.shape(cells, STRATEGIES);
        random_table(&mut calls, &mut random, &shape, 20);
        refused_table(&mut calls, &mut random, &shape);
    }
    for _ in 0..100_000 {
        junk(&mut calls, &mut random);
    }
    every_offset(&mut calls);
    calls
}

/// Every offset of a table with the most profiles, so that the greatest of any table is among them,
/// and each profile with one choice more than 32 bits hold, of which the low 32 are a strategy.
fn every_offset(calls: &mut Calls) {
    let counts = &MOST_PROFILES;
    let payoffs = vec![0.0; document::cells(counts) as usize];
    let judged = Judged::new(counts, &payoffs);
    let most = counts.iter().product::<usize>();
    assert_eq!(most, cases::most_profiles(), "no table has more profiles");
    for (place, mut profile) in cases::profiles(counts).enumerate() {
        calls.compare(&judged, &profile, []);
        profile[place % counts.len()] += 1 << 32;
        calls.compare(&judged, &profile, []);
    }
}

/// Every table of a shape over four values, with every profile and player, one choice or the player one past its
/// count, one choice too few and one too many.
fn every_table(calls: &mut Calls, counts: &[usize]) {
    let players = counts.len();
    let choices: Vec<usize> = (0..=*counts.iter().max().unwrap()).collect();
    let mut profiles: Vec<Vec<usize>> = cases::lists(&choices, players)
        .filter(|profile| {
            let pairs = profile.iter().zip(counts);
            let past = pairs.map(|(choice, count)| (choice + 1).saturating_sub(*count));
            past.sum::<usize>() <= 1
        })
        .collect();
    profiles.push(vec![0; players - 1]);
    profiles.push(vec![0; players + 1]);
    let cells = document::cells(counts) as usize;
    let mut payoffs = vec![0.0; cells];
    for number in 0..cases::VALUES.len().pow(cells as u32) {
        for (place, payoff) in payoffs.iter_mut().enumerate() {
            *payoff = cases::VALUES[number >> (2 * place) & 3];
        }
        let judged = Judged::new(counts, &payoffs);
        for profile in &profiles {
            calls.compare(&judged, profile, 0..=players);
        }
    }
}

/// Profiles and players of a random table, good and bad.
fn random_table(calls: &mut Calls, random: &mut Random, counts: &[usize], turns: usize) {
    let cells = document::cells(counts) as usize;
    let payoffs: Vec<f64> = (0..cells).map(|_| random.finite()).collect();
    let judged = Judged::new(counts, &payoffs);
    let last: Vec<usize> = counts.iter().map(|count| count - 1).collect();
    calls.compare(&judged, &vec![0; counts.len()], 0..=counts.len());
    calls.compare(&judged, &last, 0..=counts.len());
    for turn in 0..turns {
        let profile = match turn % 4 {
            0 => random.bad_profile(counts),
            _ => random.profile(counts),
        };
        let player = match turn % 8 {
            7 => random.number(),
            _ => random.below(counts.len()),
        };
        calls.compare(&judged, &profile, [player]);
    }
}

/// A table that is refused, and a profile and player, good and bad.
fn refused_table(calls: &mut Calls, random: &mut Random, shape: &[usize]) {
    let cells = document::cells(shape) as usize;
    let mut payoffs: Vec<f64> = (0..cells).map(|_| random.finite()).collect();
    let mut counts = shape.to_vec();
    match random.below(4) {
        0 => drop(payoffs.pop()),
        1 => payoffs.push(0.0),
        2 => {
            let place = random.below(cells);
            payoffs[place] = random.non_finite();
        }
        _ => {
            let player = random.below(counts.len());
            counts[player] = random.pick(&[0, STRATEGIES + 1, usize::MAX]);
        }
    }
    let judged = Judged::new(&counts, &payoffs);
    calls.compare(&judged, &random.profile(shape), [random.below(shape.len())]);
    calls.compare(&judged, &random.bad_profile(shape), [random.number()]);
}

/// Anything for counts, payoffs, profile and player.
fn junk(calls: &mut Calls, random: &mut Random) {
    let (counts, payoffs, profile) = random.junk();
    let judged = Judged::new(&counts, &payoffs);
    calls.compare(&judged, &profile, [random.number(), random.below(PLAYERS)]);
}
