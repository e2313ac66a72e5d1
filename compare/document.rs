//! Document 01's limits, refusals and candidate checks, written from its text alone, and the step as the library states
//! it: the judge where the Rust is none.

use crate::library::Claim;

pub const PLAYERS: usize = 8;
pub const STRATEGIES: usize = 64;
pub const CELLS: usize = 65_536;
/// The most rows and the most columns of a candidate check.
pub const ACTIONS: usize = 64;

pub const NO_PLAYERS: u32 = 1;
pub const MANY_PLAYERS: u32 = 2;
pub const NO_STRATEGIES: u32 = 3;
pub const MANY_STRATEGIES: u32 = 4;
pub const MANY_CELLS: u32 = 5;
pub const PAYOFF_COUNT: u32 = 6;
pub const NON_FINITE: u32 = 7;
pub const PLAYER: u32 = 8;
pub const OPPONENT_COUNT: u32 = 9;
pub const OPPONENT: u32 = 10;
pub const CHOICE_COUNT: u32 = 11;
pub const CHOICE: u32 = 12;
pub const SHORT: u32 = 13;
pub const GONE: u32 = 14;
pub const NOT_DOMINATED: u32 = 15;
pub const FOREIGN: u32 = 16;

/// The refusals of a table, in their order.
pub const TABLE_FAULTS: [u32; 7] = [
    NO_PLAYERS,
    MANY_PLAYERS,
    NO_STRATEGIES,
    MANY_STRATEGIES,
    MANY_CELLS,
    PAYOFF_COUNT,
    NON_FINITE,
];

/// Profiles × P, or the largest number where that is larger.
pub fn cells(counts: &[usize]) -> u128 {
    counts.iter().fold(counts.len() as u128, |product, count| {
        product.saturating_mul(*count as u128)
    })
}

/// The refusal of counts, of 1 to 5; 0 where there is none.
pub fn space_refusal(counts: &[usize]) -> u32 {
    if counts.is_empty() {
        return NO_PLAYERS;
    }
    if counts.len() > PLAYERS {
        return MANY_PLAYERS;
    }
    for count in counts {
        if *count == 0 {
            return NO_STRATEGIES;
        }
        if *count > STRATEGIES {
            return MANY_STRATEGIES;
        }
    }
    if cells(counts) > CELLS as u128 {
        return MANY_CELLS;
    }
    0
}

/// The refusal of a table, of 1 to 7; 0 where there is none.
pub fn table_refusal(counts: &[usize], payoffs: &[f64]) -> u32 {
    let refusal = space_refusal(counts);
    if refusal != 0 {
        refusal
    } else if wrong_count(counts, payoffs) {
        PAYOFF_COUNT
    } else if some_non_finite(payoffs) {
        NON_FINITE
    } else {
        0
    }
}

/// The refusal of a profile on a table that is accepted: 11, then 12; 0 where there is none.
pub fn profile_refusal(counts: &[usize], profile: &[usize]) -> u32 {
    if profile.len() != counts.len() {
        CHOICE_COUNT
    } else if profile
        .iter()
        .zip(counts)
        .any(|(choice, count)| choice >= count)
    {
        CHOICE
    } else {
        0
    }
}

/// The refusal of a profile and a player on a table that is accepted: 8, then the profile's.
pub fn payoff_refusal(counts: &[usize], profile: &[usize], player: usize) -> u32 {
    if player >= counts.len() {
        PLAYER
    } else {
        profile_refusal(counts, profile)
    }
}

/// Whether an output is shorter than the result needs, of the two that a list goes into: refusal 13, the last.
pub fn too_short(needed: [usize; 2], lengths: [usize; 2]) -> bool {
    lengths[0] < needed[0] || lengths[1] < needed[1]
}

/// Whether the Rust judges counts: players, strategies and cells are within the limits.
pub fn in_domain(counts: &[usize]) -> bool {
    counts.len() <= PLAYERS
        && counts.iter().all(|count| *count <= STRATEGIES)
        && cells(counts) <= CELLS as u128
}

/// Whether a table has both 6 and 7, which the Rust meets in the other order.
pub fn both_six_and_seven(counts: &[usize], payoffs: &[f64]) -> bool {
    space_refusal(counts) == 0 && wrong_count(counts, payoffs) && some_non_finite(payoffs)
}

fn wrong_count(counts: &[usize], payoffs: &[f64]) -> bool {
    payoffs.len() as u128 != cells(counts)
}

/// An exponent of ones is a NaN or an infinity (IEEE 754).
pub fn some_non_finite(payoffs: &[f64]) -> bool {
    payoffs
        .iter()
        .any(|payoff| payoff.to_bits() >> 52 & 0x7ff == 0x7ff)
}

/// The step of a profile as the library states it: a choice that is not below its count minus one becomes 0 and the
/// player before it advances; players past the limit have no place, and places from P on are unchanged.
pub fn advance(counts: &[usize], profile: &mut [usize; PLAYERS]) -> bool {
    for player in (0..counts.len().min(PLAYERS)).rev() {
        if (profile[player] as u128) + 1 < counts[player] as u128 {
            profile[player] += 1;
            return true;
        }
        profile[player] = 0;
    }
    false
}

/// What the answer of a candidate check rests on: the first of these that applies.
#[derive(Clone, Copy)]
pub enum Ground {
    Sizes,
    Lengths,
    NonFinite,
    NegativeTolerance,
    NegativeWeight,
    InfiniteGain1,
    InfiniteGain2,
    NoGain,
    Gain1,
    Gain2,
    Over,
    Entry1,
    Entry2,
    Sum1,
    Sum2,
    Column,
    Row,
    InfiniteColumn,
    InfiniteRow,
    Yes,
}

impl Ground {
    pub const TITLES: [&'static str; Self::Yes as usize + 1] = [
        "sizes",
        "lengths",
        "a number not finite",
        "a negative tolerance",
        "a negative weight",
        "a gain of player 1 not finite",
        "a gain of player 2 not finite",
        "no gain",
        "player 1's gain",
        "player 2's gain",
        "over the tolerance",
        "an entry of p1",
        "an entry of p2",
        "the sum of p1",
        "the sum of p2",
        "a column",
        "a row",
        "a column not finite",
        "a row not finite",
        "yes",
    ];
}

/// The greatest gain: two tables and weights, flat by rows.
pub fn incentives(m: usize, n: usize, [u1, u2, weights]: [&[f64]; 3]) -> (Ground, f64) {
    let infinity = |ground| (ground, f64::INFINITY);
    let lists = [u1, u2, weights];
    if wrong_sizes(m, n) {
        return infinity(Ground::Sizes);
    }
    if lists.iter().any(|list| list.len() != m * n) {
        return infinity(Ground::Lengths);
    }
    if lists.iter().any(|list| some_non_finite(list)) {
        return infinity(Ground::NonFinite);
    }
    if weights.iter().any(|weight| *weight < 0.0) {
        return infinity(Ground::NegativeWeight);
    }
    let at = |i: usize, j: usize| i * n + j;
    let rows = gains(m, n, |i, k, j| {
        weights[at(i, j)] * (u1[at(k, j)] - u1[at(i, j)])
    });
    let columns = gains(n, m, |j, k, i| {
        weights[at(i, j)] * (u2[at(i, k)] - u2[at(i, j)])
    });
    if some_non_finite(&rows) {
        return infinity(Ground::InfiniteGain1);
    }
    if some_non_finite(&columns) {
        return infinity(Ground::InfiniteGain2);
    }
    match [greatest(&rows), greatest(&columns)] {
        [Some(first), second] if Some(first) >= second => (Ground::Gain1, first),
        [_, Some(second)] => (Ground::Gain2, second),
        _ => (Ground::NoGain, 0.0),
    }
}

/// For each strategy and each other one in its place: from 0.0, a term for each of the others' choices, ascending.
fn gains(own: usize, others: usize, term: impl Fn(usize, usize, usize) -> f64) -> Vec<f64> {
    pairs(own)
        .map(|(from, to)| sum((0..others).map(|other| term(from, to, other))))
        .collect()
}

/// Each of so many strategies with each other one.
pub fn pairs(own: usize) -> impl Iterator<Item = (usize, usize)> {
    let pairs = (0..own).flat_map(move |from| (0..own).map(move |to| (from, to)));
    pairs.filter(|(from, to)| from != to)
}

/// The greatest of the gains that are above 0.
fn greatest(gains: &[f64]) -> Option<f64> {
    let above = gains.iter().copied().filter(|gain| *gain > 0.0);
    above.reduce(f64::max)
}

/// The verdict on an answer of the gain and what that rests on.
pub fn verdict((ground, gain): (Ground, f64), tolerance: f64) -> (Ground, bool) {
    if some_non_finite(&[tolerance]) {
        (Ground::NonFinite, false)
    } else if tolerance < 0.0 {
        (Ground::NegativeTolerance, false)
    } else if gain == f64::INFINITY {
        (ground, false)
    } else if gain > tolerance {
        (Ground::Over, false)
    } else {
        (Ground::Yes, true)
    }
}

/// The minimax check: a table, flat by rows, and two vectors.
pub fn minimax(m: usize, n: usize, lists: [&[f64]; 3], claim: Claim) -> (Ground, bool) {
    let ground = minimax_ground(m, n, lists, claim);
    (ground, matches!(ground, Ground::Yes))
}

fn minimax_ground(m: usize, n: usize, lists: [&[f64]; 3], claim: Claim) -> Ground {
    let Claim { value, tolerance } = claim;
    if wrong_sizes(m, n) {
        return Ground::Sizes;
    }
    if lists.map(<[f64]>::len) != [m * n, m, n] {
        return Ground::Lengths;
    }
    if lists.iter().any(|list| some_non_finite(list)) || some_non_finite(&[value, tolerance]) {
        return Ground::NonFinite;
    }
    if tolerance < 0.0 {
        return Ground::NegativeTolerance;
    }
    let [payoffs, p1, p2] = lists;
    let columns = columns(payoffs, p1, n);
    let rows = rows(payoffs, p2);
    let below = |entry: &f64| *entry < -tolerance;
    let far = |vector| off_one(vector) > tolerance;
    let grounds = [
        (Ground::Entry1, p1.iter().any(below)),
        (Ground::Entry2, p2.iter().any(below)),
        (Ground::Sum1, far(p1)),
        (Ground::Sum2, far(p2)),
        (
            Ground::Column,
            columns.iter().any(|column| *column < value - tolerance),
        ),
        (Ground::Row, rows.iter().any(|row| *row > value + tolerance)),
        (Ground::InfiniteColumn, some_non_finite(&columns)),
        (Ground::InfiniteRow, some_non_finite(&rows)),
        (Ground::Yes, true),
    ];
    let first = grounds.into_iter().find(|(_, applies)| *applies);
    first.unwrap().0
}

/// How far a vector's sum, less 1.0, is from 0.
pub fn off_one(vector: &[f64]) -> f64 {
    (sum(vector.iter().copied()) - 1.0).abs()
}

/// The expectation of each of n columns.
pub fn columns(payoffs: &[f64], p1: &[f64], n: usize) -> Vec<f64> {
    (0..n)
        .map(|j| sum(p1.iter().enumerate().map(|(i, p)| p * payoffs[i * n + j])))
        .collect()
}

/// The expectation of each row.
pub fn rows(payoffs: &[f64], p2: &[f64]) -> Vec<f64> {
    payoffs
        .chunks(p2.len())
        .map(|row| sum(std::iter::zip(row, p2).map(|(payoff, p)| payoff * p)))
        .collect()
}

/// From 0.0, in the given order.
pub fn sum(terms: impl Iterator<Item = f64>) -> f64 {
    terms.fold(0.0, |sum, term| sum + term)
}

fn wrong_sizes(m: usize, n: usize) -> bool {
    [m, n].iter().any(|size| *size == 0 || *size > ACTIONS)
}
