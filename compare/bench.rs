//! The times of both sides in one run: each the least of many, taken in turns. A line for each is
//! handed to `bench_tables`: its part and its names, then what was measured.

use crate::candidate_cases;
use crate::cases::{self, Random, MOST_PROFILES};
use crate::catalogue::{self, COUNTS};
use crate::document::{ACTIONS, CELLS, PLAYERS, STRATEGIES};
use crate::library::{
    self, Answer, Bits, Claim, Entry, Equilibria, File, Held, Listed, Listing, Lists, Records,
    StrikeLists, Sweep, Swept,
};
use crate::plain;
use crate::report_bench;
use crate::rust;
use crate::survivors::{self, Game, Left};
use std::hint::black_box;
use std::time::{Duration, Instant};

/// The time for one row, after which no further run is begun.
const TIME: Duration = Duration::from_millis(800);
/// The same for an elimination, of which some take long.
const ELIMINATION: Duration = Duration::from_millis(2_500);

/// The shapes of tables; eliminations leave the first one out.
const SHAPES: [&[usize]; 6] = [
    &[2, 2],
    &[STRATEGIES; 2],
    &[8, 8, 16, 16],
    &[16, 16, 16],
    &[4; 6],
    &[2; PLAYERS],
];

/// The parts of a run, in the order in which they run.
pub const PARTS: [(&str, fn()); 9] = [
    ("checks", checks),
    ("offsets", offsets),
    ("solvers", || every_table(solvers)),
    ("marks", || every_table(marks)),
    ("elimination", eliminations),
    ("candidates", candidates),
    ("deposits", deposits),
    ("catalogue", catalogue),
    ("report", reports),
];

/// The part of this name, or all.
pub fn run(name: &str) {
    for (part, run) in PARTS {
        if name == part || name == "all" {
            run();
        }
    }
}

/// Hands a line on.
fn tell(names: &[&str], measured: &[f64]) {
    let measured: Vec<String> = measured.iter().map(f64::to_string).collect();
    println!("{}\t{}", names.join("\t"), measured.join(" "));
}

/// As many payoffs of random bits as the largest table has.
fn payoffs() -> Vec<f64> {
    let mut random = Random(7);
    (0..CELLS).map(|_| random.finite()).collect()
}

fn checks() {
    let mut payoffs = payoffs();
    for (length, name) in [
        (64, "64 values"),
        (1_024, "1,024"),
        (8_192, "8,192"),
        (CELLS, "65,536"),
    ] {
        finite(name, &payoffs[..length]);
    }
    let kept = std::mem::replace(&mut payoffs[CELLS / 2], f64::NAN);
    finite("65,536 with a NaN in the middle", &payoffs);
    payoffs[CELLS / 2] = kept;
    for counts in [SHAPES[1], SHAPES[2], SHAPES[5]] {
        matrix(counts, &payoffs);
    }
}

/// The Rust's loop stands at four places, and the fastest counts.
fn finite(name: &str, payoffs: &[f64]) {
    let payoffs = || black_box(payoffs);
    let timed: [Timed; 5] = [
        &mut |calls| time(&mut || library::all_finite(payoffs()), calls),
        &mut |calls| time(&mut || plain::all_finite::<0>(payoffs()), calls),
        &mut |calls| time(&mut || plain::all_finite::<16>(payoffs()), calls),
        &mut |calls| time(&mut || plain::all_finite::<32>(payoffs()), calls),
        &mut |calls| time(&mut || plain::all_finite::<48>(payoffs()), calls),
    ];
    let [library, rust @ ..] = least(timed, TIME);
    let rust = rust.into_iter().fold(f64::INFINITY, f64::min);
    tell(
        &["checks", &format!("`all_finite`, {name}")],
        &[library, rust],
    );
}

/// From raw slices to the checked table; the Rust's holds a copy, which is dropped.
fn matrix(counts: &[usize], payoffs: &[f64]) {
    let payoffs = &payoffs[..cells(counts)];
    row(
        &["checks", &format!("`payoff_matrix`, {}", shape(counts))],
        || library::payoff_matrix_new(black_box(counts), black_box(payoffs)),
        || rust::table(black_box(counts), black_box(payoffs)),
    );
}

/// The offset of the last profile, from raw slices. Beside the library stand the Rust, whose table is
/// built and dropped, and plain Rust.
fn offsets() {
    let payoffs = payoffs();
    for counts in SHAPES.into_iter().chain([&MOST_PROFILES[..]]) {
        let profile: Vec<usize> = counts.iter().map(|count| count - 1).collect();
        offset(counts, &payoffs[..cells(counts)], &profile);
    }
}

fn offset(counts: &[usize], payoffs: &[f64], profile: &[usize]) {
    let input = || (black_box(counts), black_box(payoffs), black_box(profile));
    let mut told = 0;
    let mut library = || {
        let (counts, payoffs, profile) = input();
        library::offset_into(counts, payoffs, profile, &mut told)
    };
    let mut rust = || {
        let (counts, payoffs, profile) = input();
        rust::table(counts, payoffs).map(|matrix| rust::offset(&matrix, profile))
    };
    let mut plain = || {
        let (counts, payoffs, profile) = input();
        plain::offset(counts, payoffs, profile)
    };
    let same = rust().ok().flatten();
    assert!(plain().ok() == same, "two offsets");
    let timed: [Timed; 3] = [
        &mut |calls| time(&mut library, calls),
        &mut |calls| time(&mut rust, calls),
        &mut |calls| time(&mut plain, calls),
    ];
    tell(&["offsets", &shape(counts)], &least(timed, TIME));
    assert!(Some(told) == same, "two offsets");
}

fn cells(counts: &[usize]) -> usize {
    counts.len() * counts.iter().product::<usize>()
}

/// The counts, by a power where there are many and all are the same.
pub fn shape(counts: &[usize]) -> String {
    let [first, rest @ ..] = counts else {
        return String::new();
    };
    if rest.len() > 3 && rest.iter().all(|count| count == first) {
        return format!("{first}^{}", counts.len());
    }
    let counts: Vec<String> = counts.iter().map(usize::to_string).collect();
    counts.join(" × ")
}

/// A part's calls on three tables of each shape, told its kind, its counts and its payoffs.
fn every_table(calls: fn(&str, &[usize], &[f64])) {
    let payoffs = payoffs();
    for counts in SHAPES {
        let dominated = cases::own_choices(counts);
        calls("random", counts, &payoffs[..dominated.len()]);
        calls("constant", counts, &vec![1.0; dominated.len()]);
        calls("dominated", counts, &dominated);
    }
}

/// From raw slices to the answer: the library's outputs are there beforehand, the Rust's table and answer are dropped.
fn solvers(kind: &str, counts: &[usize], payoffs: &[f64]) {
    let shape = shape(counts);
    let names = |call| ["solvers", &shape, kind, call];
    let input = || (black_box(counts), black_box(payoffs));
    let table = || {
        let (counts, payoffs) = input();
        rust::table(counts, payoffs)
    };
    for (call, length) in [
        ("`equilibria`", payoffs.len()),
        ("`equilibria`, empty outputs", 0),
    ] {
        let mut outputs = Equilibria::fresh([length; 2]);
        row(
            &names(call),
            || {
                let (counts, payoffs) = input();
                library::equilibria_into(counts, payoffs, &mut outputs)
            },
            || table().map(|matrix| rust::equilibria(&matrix)),
        );
    }
    let mut lists = Lists::fresh([payoffs.len(); 2]);
    for (call, player) in [
        ("dominance, first player", 0),
        ("dominance, last player", counts.len() - 1),
    ] {
        row(
            &names(call),
            || {
                let (counts, payoffs) = input();
                library::strictly_dominated_strategies(counts, payoffs, player, &mut lists)
            },
            || table().map(|matrix| rust::dominated(&matrix, player)),
        );
    }
    let opponents = vec![0; counts.len() - 1];
    row(
        &names("`best_responses`, first player"),
        || {
            let (counts, payoffs) = input();
            library::best_responses(counts, payoffs, 0, &opponents, &mut lists)
        },
        || table().map(|matrix| rust::best_responses(&matrix, 0, &opponents)),
    );
    let mut records = Records::fresh(STRATEGIES);
    row(
        &names("as records"),
        || {
            let (counts, payoffs) = input();
            library::best_response_records(counts, payoffs, 0, &opponents, &mut records)
        },
        || table().map(|matrix| rust::best_responses(&matrix, 0, &opponents)),
    );
}

/// The sweep of best responses, the equilibria, and the listing from the sweep's marks; beside the
/// library stands plain Rust. The outputs, and the bytes in which the plain listing marks, are there
/// beforehand.
fn marks(kind: &str, counts: &[usize], payoffs: &[f64]) {
    let shape = shape(counts);
    let names = |call| ["marks", &shape, kind, call];
    let input = || (black_box(counts), black_box(payoffs));
    let mut bytes = vec![0; payoffs.len()];
    let mut sweep = Sweep::of(&bytes);
    let mut plain = || {
        let (counts, payoffs) = input();
        plain::best_response_marks(counts, payoffs, black_box(&mut bytes))
    };
    let (library, rust) = best(
        || {
            let (counts, payoffs) = input();
            library::best_response_marks_into(counts, payoffs, &mut sweep)
        },
        &mut plain,
    );
    let number = plain().unwrap();
    tell(
        &names("`best_response_marks`"),
        &[library, rust, payoffs.len() as f64],
    );
    let marks = bytes.clone();
    let swept = Swept { number, bytes };
    assert!(
        sweep.answer(0, &[]) == Answer::Accepted(swept),
        "two sweeps"
    );
    let mut lent = marks.clone();
    listing(
        &names("`equilibria`"),
        [counts.len(), payoffs.len()],
        |outputs| {
            let (counts, payoffs) = input();
            library::equilibria_into(counts, payoffs, outputs)
        },
        |choices, utilities| {
            let (counts, payoffs) = input();
            plain::equilibria(counts, payoffs, black_box(&mut lent), choices, utilities)
        },
    );
    listing(
        &names("`marked_profiles`"),
        [counts.len(), payoffs.len()],
        |outputs| {
            let (counts, payoffs) = input();
            library::marked_profiles_into(counts, payoffs, black_box(&marks), outputs)
        },
        |choices, utilities| {
            let (counts, payoffs) = input();
            plain::marked_profiles(counts, payoffs, black_box(&marks), choices, utilities)
        },
    );
}

/// A listing on a table of so many players and cells, into outputs that hold all.
fn listing(
    names: &[&str],
    [players, cells]: [usize; 2],
    library: impl Fn(&mut Equilibria) -> u32,
    mut plain: impl FnMut(&mut [usize], &mut [f64]) -> Result<[usize; 2], u32>,
) {
    let mut outputs = Equilibria::fresh([cells; 2]);
    let (mut choices, mut utilities) = (vec![0; cells], vec![0.0; cells]);
    row(
        names,
        || library(&mut outputs),
        || plain(black_box(&mut choices), black_box(&mut utilities)),
    );
    let [total, number] = plain(&mut choices, &mut utilities).unwrap();
    choices.truncate(number * players);
    utilities.truncate(number * players);
    let listed = Listed {
        total,
        written: Listing {
            number,
            first: choices,
            second: utilities.into_iter().map(Bits::of).collect(),
        },
    };
    let told = outputs.answer(0, players);
    assert!(told == Answer::Accepted(listed), "two listings");
}

/// The candidate checks at their limit, and the gain on 2 × 2. Payoffs are from 0 up to 1, so that
/// every expectation is within the claim.
fn candidates() {
    let n = ACTIONS;
    let mut random = Random(16);
    let mut table = || -> Vec<f64> { (0..n * n).map(|_| random.unit()).collect() };
    let (mut u1, u2) = (table(), table());
    let weights = candidate_cases::distribution(&mut random, n * n);
    gain(
        "`verify_correlated_equilibrium_incentives`, random payoffs, \
         weights that are a distribution",
        n,
        [&u1, &u2, &weights],
    );
    let zeros = vec![0.0; n * n];
    gain("the same payoffs, all weights 0", n, [&u1, &u2, &zeros]);
    let kept = [u1[0], u1[n]];
    [u1[0], u1[n]] = [-f64::MAX, f64::MAX];
    gain(
        "the same weights, two payoffs changed so that the first gain is infinite",
        n,
        [&u1, &u2, &weights],
    );
    [u1[0], u1[n]] = kept;
    gain(
        "the same call, 2 × 2: the prisoner's dilemma, all weights 1/4",
        2,
        [&[2.0, 0.0, 3.0, 1.0], &[2.0, 3.0, 0.0, 1.0], &[0.25; 4]],
    );
    let [p1, p2] = [(); 2].map(|()| candidate_cases::distribution(&mut random, n));
    minimax(
        "`verify_minimax_residuals`, random payoffs and distributions, a claim that holds",
        [&u1, &p1, &p2],
    );
    u1[n * n - n..].fill(8.0);
    minimax(
        "the same, a claim that the last row denies",
        [&u1, &p1, &p2],
    );
}

/// As many rows as columns. The Rust's rows are there beforehand.
fn gain(name: &str, n: usize, lists: [&[f64]; 3]) {
    let [u1, u2, weights] = lists.map(|list| rust::rows(list, n));
    row(
        &["candidates", name],
        || {
            let lists = black_box(lists);
            library::verify_correlated_equilibrium_incentives(n, n, lists)
        },
        || rust::incentives(black_box(&u1), black_box(&u2), black_box(&weights)),
    );
}

/// The Rust's rows and its record are there beforehand.
fn minimax(name: &str, lists: [&[f64]; 3]) {
    let claim = Claim {
        value: 0.5,
        tolerance: 1.0,
    };
    let payoffs = rust::rows(lists[0], ACTIONS);
    let record = rust::record(lists[1], lists[2], claim.value);
    row(
        &["candidates", name],
        || {
            let (lists, claim) = black_box((lists, claim));
            library::verify_minimax_residuals(ACTIONS, ACTIONS, lists, claim)
        },
        || {
            rust::minimax(
                black_box(&payoffs),
                black_box(&record),
                black_box(claim.tolerance),
            )
        },
    );
}

/// Full eliminations: sweeps of strikes, players then strategies ascending, until one strikes
/// nothing; and what each single strike checks.
fn eliminations() {
    let payoffs = payoffs();
    for counts in &SHAPES[1..] {
        strike_checks(counts, &payoffs[..cells(counts)]);
        let dominated = cases::own_choices(counts);
        elimination("random", counts, &payoffs[..dominated.len()]);
        elimination("constant", counts, &vec![1.0; dominated.len()]);
        elimination("dominated", counts, &dominated);
        elimination("chain", counts, &cases::chain(counts));
    }
}

/// What a strike spends before it looks at its strategy: the check of the table is that of
/// `payoff_matrix_new`; a strike refused by 16 for another P takes the survivors over besides, and
/// one refused by 8 goes through all their marks too.
fn strike_checks(counts: &[usize], payoffs: &[f64]) {
    let input = || (black_box(counts), black_box(payoffs));
    let fresh = survivors::record(counts, &survivors::all(counts));
    let mut other = fresh.clone();
    other.players += 1;
    let [mut fresh, mut other] = [Held::of(&fresh), Held::of(&other)];
    let refused = |held: &mut Held, status: u32| {
        let (counts, payoffs) = input();
        let answer = library::strike_on(counts, payoffs, held, usize::MAX, 0);
        assert_eq!(answer, status);
    };
    let mut table = || {
        let (counts, payoffs) = input();
        library::payoff_matrix_new(counts, payoffs)
    };
    let timed: [Timed; 3] = [
        &mut |calls| time(&mut table, calls),
        &mut |calls| time(&mut || refused(&mut other, 16), calls),
        &mut |calls| time(&mut || refused(&mut fresh, 8), calls),
    ];
    tell(&["strike", &shape(counts)], &least(timed, TIME));
}

/// One elimination by single strikes, by one list of the same strikes, and by the Rust.
fn elimination(kind: &str, counts: &[usize], payoffs: &[f64]) {
    let input = || (black_box(counts), black_box(payoffs));
    let mut calls = [Vec::new(), Vec::new()];
    let (held, accepted) = by_strikes(counts, payoffs, |player, strategy| {
        calls[0].push(player);
        calls[1].push(strategy);
    });
    let named = [&calls[0][..], &calls[1][..]];
    let number = named[0].len();
    let mut lists = StrikeLists::fresh([number; 2]);
    library::strikes_into(counts, payoffs, named, &mut lists);
    let left = survivors::record(counts, &by_rust(counts, payoffs));
    assert!(
        held.survivors() == left && lists.survivors() == left,
        "eliminations end in different survivors"
    );
    let mut strikes = || {
        let (counts, payoffs) = input();
        by_strikes(counts, payoffs, |_, _| ())
    };
    let mut list = || {
        let (counts, payoffs) = input();
        library::strikes_into(counts, payoffs, black_box(named), &mut lists)
    };
    let mut rust = || {
        let (counts, payoffs) = input();
        by_rust(counts, payoffs)
    };
    let timed: [Timed; 3] = [
        &mut |calls| time(&mut strikes, calls),
        &mut |calls| time(&mut list, calls),
        &mut |calls| time(&mut rust, calls),
    ];
    let [strikes, list, rust] = least(timed, ELIMINATION);
    tell(
        &["elimination", &shape(counts), kind],
        &[number as f64, accepted as f64, strikes, list, rust],
    );
}

/// The survivors after an elimination by single strikes, and how many were accepted; each strike is told first.
fn by_strikes(
    counts: &[usize],
    payoffs: &[f64],
    mut tell: impl FnMut(usize, usize),
) -> (Held, usize) {
    let mut held = Held::fresh();
    library::fresh_into(counts, payoffs, &mut held);
    let mut accepted = 0;
    loop {
        let before = accepted;
        for (player, count) in counts.iter().enumerate() {
            for strategy in 0..*count {
                tell(player, strategy);
                if library::strike_on(counts, payoffs, &mut held, player, strategy) == 0 {
                    accepted += 1;
                }
            }
        }
        if accepted == before {
            return (held, accepted);
        }
    }
}

/// What the Rust leaves: its list of every player, then the table of what no list names, until none names anything.
fn by_rust(counts: &[usize], payoffs: &[f64]) -> Left {
    let game = Game { counts, payoffs };
    let mut left = survivors::all(counts);
    let mut matrix = rust::table(counts, payoffs).unwrap();
    loop {
        let mut struck = false;
        for (player, own) in left.iter_mut().enumerate() {
            for entry in rust::dominated(&matrix, player).unwrap().iter().rev() {
                own.remove(entry.strategy);
                struck = true;
            }
        }
        if !struck {
            return left;
        }
        let (counts, payoffs) = game.reduced(&left);
        matrix = rust::table(&counts, &payoffs).unwrap();
    }
}

/// The largest table's file, read and written; beside the library stands plain Rust. The outputs
/// are there beforehand.
fn deposits() {
    let (counts, payoffs) = (SHAPES[2], &payoffs()[..]);
    let mut bytes = vec![0; 4 * (2 + counts.len() + 3 * payoffs.len())];
    let mut file = File::fresh(bytes.len());
    let table = || (black_box(counts), black_box(payoffs));
    let times = best(
        || {
            let (counts, payoffs) = table();
            library::write(counts, payoffs, &mut file)
        },
        || {
            let (counts, payoffs) = table();
            plain::write(counts, payoffs, black_box(&mut bytes))
        },
    );
    let written = file.answer(0);
    assert!(written == Answer::Accepted(bytes.clone()), "two files");
    speeds("`write`", bytes.len(), times);
    let mut lists = Lists::fresh([counts.len(), payoffs.len()]);
    let mut read = (vec![0; counts.len()], vec![0.0; payoffs.len()]);
    let times = best(
        || library::read(black_box(&bytes), &mut lists),
        || plain::read(black_box(&bytes), &mut read.0, black_box(&mut read.1)),
    );
    let table = lists.answer_table(0);
    let plain = Listing {
        number: counts.len(),
        first: read.0,
        second: read.1.into_iter().map(Bits::of).collect(),
    };
    assert!(table == Answer::Accepted(plain), "two tables");
    speeds("`read`", bytes.len(), times);
}

fn speeds(call: &str, bytes: usize, (library, rust): (f64, f64)) {
    tell(&["deposits", call], &[library, rust, bytes as f64]);
}

/// A table's number; beside the library stands plain Rust. The outputs and the Rust's keys are
/// there beforehand.
fn catalogue() {
    let keys = catalogue::least_keys().into_iter();
    let keys: Vec<u16> = keys.map(|key| key as u16).collect();
    let keys = keys.try_into().unwrap();
    let ranked = [2.0, 2.0, 0.0, 3.0, 3.0, 0.0, 1.0, 1.0];
    let mut tied = ranked;
    tied[7] = 2.0;
    let mut entry = Entry::fresh();
    for (kind, payoffs) in [("strictly ranked", ranked), ("a tie", tied)] {
        let table = || (black_box(&COUNTS), black_box(&payoffs));
        let plain = || {
            let (counts, payoffs) = table();
            plain::number(black_box(&keys), counts, payoffs)
        };
        row(
            &["catalogue", &format!("`number`, {kind}")],
            || {
                let (counts, payoffs) = table();
                library::number(counts, payoffs, &mut entry)
            },
            plain,
        );
        let number = plain().unwrap();
        let told = (number.is_some(), number.unwrap_or(0));
        assert!(entry.answer(0) == Answer::Accepted(told), "two numbers");
    }
}

/// The report program on some of the deposits that are kept.
fn reports() {
    for name in report_bench::DEPOSITS {
        tell(&["report", name], &[report_bench::milliseconds(name)]);
    }
}

fn row<A, B>(names: &[&str], library: impl FnMut() -> A, rust: impl FnMut() -> B) {
    let (library, rust) = best(library, rust);
    tell(names, &[library, rust]);
}

/// The least time of one call of each, in nanoseconds.
fn best<A, B>(mut library: impl FnMut() -> A, mut rust: impl FnMut() -> B) -> (f64, f64) {
    let timed: [Timed; 2] = [&mut |calls| time(&mut library, calls), &mut |calls| {
        time(&mut rust, calls)
    }];
    let [library, rust] = least(timed, TIME);
    (library, rust)
}

/// The time of one of so many calls.
type Timed<'a> = &'a mut dyn FnMut(u32) -> f64;

/// The least time of each, over runs of some 20 microseconds or more, taken in turns.
fn least<const N: usize>(mut timed: [Timed; N], limit: Duration) -> [f64; N] {
    let calls = timed.each_mut().map(|timed| calls(timed));
    let mut least = [f64::INFINITY; N];
    let start = Instant::now();
    for _ in 0..1_000 {
        for place in 0..N {
            least[place] = least[place].min(timed[place](calls[place]));
        }
        if start.elapsed() > limit {
            break;
        }
    }
    least
}

fn calls(timed: Timed) -> u32 {
    let mut calls = 1;
    while timed(calls) * f64::from(calls) < 20_000.0 {
        calls *= 2;
    }
    calls
}

fn time<A>(call: &mut impl FnMut() -> A, calls: u32) -> f64 {
    let start = Instant::now();
    for _ in 0..calls {
        black_box(call());
    }
    start.elapsed().as_nanos() as f64 / f64::from(calls)
}
