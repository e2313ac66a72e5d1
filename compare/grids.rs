//! The comparison of the gain on whole-number grids with sums in integers: payoffs are whole
//! numbers and weights whole parts of 1/65,536, so that the answer, times 65,536, is the greatest
//! of the sums, or 0. Where it is 0, no strictly dominated strategy has weight.

use crate::candidates::Candidate;
use crate::cases::Random;
use crate::document::{self, ACTIONS};
use crate::grid_cases::{self, Grid, END, ONE};
use crate::library::{self, Answer, Bits, Listing, Lists};
use crate::rust::Judged;
use crate::solvers;
use crate::tally::{agreed, end, numbers, sure, Tally};
use std::iter::zip;

/// The cases that each ground and most features have at least.
const LEAST: usize = 2_000;

/// What an answer rests on: the first that applies, and from `ONE_GAIN` on that of a gain alone.
const GROUNDS: [&str; ONE_GAIN + 2] = [
    "0, all weights 0:",
    "0, a dominated strategy without weight:",
    "0, none dominated:",
    "above 0, weight on a dominated strategy:",
    "above 0, a change of rows:",
    "above 0, a change of columns:",
    "one gain alone, above 0:",
    "one gain alone, not above 0:",
];
const ONE_GAIN: usize = 6;

/// How many dominated strategies a player has.
const LISTED: [&str; 2] = ["none", "some"];

/// What a grid is also counted under, and how often that comes at least.
const FEATURES: [(&str, usize); 5] = [
    ("at 64 x 64", 200),
    ("0 at 64 x 64, not all weights 0", 50),
    ("an end of the range among the payoffs", LEAST),
    ("weights that sum to 1", LEAST),
    ("0 though some term is above 0", LEAST),
];

/// Player 1's gain by row k in place of row i, times 65,536.
fn gain(grid: &Grid, i: usize, k: usize) -> i64 {
    let [here, there] = [i, k].map(|row| grid.row(&grid.payoffs[0], row));
    let parts = grid.row(&grid.parts, i);
    let terms = (0..grid.counts[1]).map(|j| parts[j] * (there[j] - here[j]));
    terms.sum()
}

/// Player 1's greatest gain, times 65,536, or 0.
fn greatest(grid: &Grid) -> i64 {
    let gains = document::pairs(grid.counts[0]).map(|(i, k)| gain(grid, i, k));
    gains.fold(0, i64::max)
}

/// The strictly dominated rows, each with the first one that dominates it.
fn dominated(grid: &Grid) -> Listing<usize> {
    let rows: Vec<&[i64]> = grid.payoffs[0].chunks(grid.counts[1]).collect();
    let dominates = |k: &[i64], i: &[i64]| zip(k, i).all(|(k, i)| k > i);
    let dominator = |i: usize| rows.iter().position(|k| dominates(k, rows[i]));
    let found = (0..rows.len()).filter_map(|i| Some((i, dominator(i)?)));
    let (first, second): (Vec<usize>, Vec<usize>) = found.unzip();
    Listing {
        number: first.len(),
        first,
        second,
    }
}

pub struct Grids {
    pub gain: Tally,
    pub dominated: Tally,
    features: [usize; FEATURES.len()],
}

impl Grids {
    pub const GAIN: [u32; GROUNDS.len()] = [0, 1, 2, 3, 4, 5, 6, 7];
    pub const DOMINATED: [u32; LISTED.len()] = [0, 1];

    /// The Rust's answer and the library's, times 65,536, are the number told.
    fn gain(&mut self, class: usize, candidate: &Candidate, answer: i64) {
        sure(answer < 1 << 53, "a grid's answer is no f64");
        let answer = Bits::of(answer as f64 / ONE as f64);
        let (by, _, gain) = candidate.gain();
        agreed(Bits::of(gain), answer, || candidate.input());
        let Candidate { m, n, .. } = *candidate;
        self.gain.compare_as(
            class as u32,
            by,
            || candidate.input(),
            Answer::Accepted(answer),
            library::verify_correlated_equilibrium_incentives(m, n, candidate.lists()),
        );
    }

    /// The Rust's list of a player's dominated strategies and the library's are the one told.
    fn dominated(&mut self, judged: &Judged, player: usize, listing: &Listing<usize>) {
        let input = || solvers::table(judged) + &numbers("player", &[player]);
        agreed(judged.dominated(player), Ok(listing.clone()), input);
        let mut lists = Lists::fresh(listing.needed());
        let (counts, payoffs) = (judged.counts, judged.payoffs);
        let status = library::strictly_dominated_strategies(counts, payoffs, player, &mut lists);
        self.dominated.compare_as(
            u32::from(listing.number > 0),
            judged.by,
            input,
            Answer::Accepted(listing.clone()),
            lists.answer(status, 1, |word| word as usize),
        );
    }

    /// A grid; its answer, times 65,536, is handed back.
    pub fn compare(&mut self, random: &mut Random, grid: &Grid) -> i64 {
        let candidate = grid.candidate(random);
        let [u1, u2, _] = candidate.lists();
        let payoffs: Vec<f64> = zip(u1, u2).flat_map(|(u1, u2)| [*u1, *u2]).collect();
        let judged = Judged::new(&grid.counts, &payoffs);
        let sides = [grid, &grid.transposed()];
        let [mut some, mut weighted] = [false; 2];
        for (player, side) in sides.iter().enumerate() {
            let listing = dominated(side);
            self.dominated(&judged, player, &listing);
            some |= listing.number > 0;
            let parts = |row: &usize| side.row(&side.parts, *row).iter().sum::<i64>();
            weighted |= listing.first.iter().any(|row| parts(row) > 0);
        }
        let [rows, columns] = sides.map(greatest);
        let answer = rows.max(columns);
        if answer == 0 && weighted {
            let input = candidate.input();
            end(&format!("0 with weight on a dominated strategy\n{input}"));
        }
        let weights: i64 = grid.parts.iter().sum();
        let grounds = [
            weights == 0,
            answer == 0 && some,
            answer == 0,
            weighted,
            rows == answer,
            true,
        ];
        let ground = grounds.iter().position(|applies| *applies);
        self.gain(ground.unwrap(), &candidate, answer);
        let largest = grid.counts == [ACTIONS; 2];
        let mut payoffs = grid.payoffs.iter().flatten();
        let more = |side: &&Grid| side.settled().payoffs != side.payoffs;
        let features = [
            largest,
            largest && answer == 0 && weights > 0,
            payoffs.any(|payoff| payoff.abs() == END),
            weights == ONE,
            answer == 0 && sides.iter().any(more),
        ];
        for (times, has) in zip(&mut self.features, features) {
            *times += usize::from(has);
        }
        answer
    }

    /// Each gain by a change of rows alone, and its negative; both as a gain of columns too.
    pub fn each_gain(&mut self, random: &mut Random, grid: &Grid) {
        for (i, k) in document::pairs(grid.counts[0]) {
            for sign in [1, -1] {
                let gain = sign * gain(grid, i, k);
                let class = ONE_GAIN + usize::from(gain <= 0);
                let rows = grid.alone(i, k, sign);
                for alone in [rows.transposed(), rows] {
                    self.gain(class, &alone.candidate(random), gain.max(0));
                }
            }
        }
    }

    /// The line of the features; one that came too rarely ends the run.
    pub fn report_features(&self) {
        let features = || zip(FEATURES, self.features);
        let line = features().map(|((title, _), times)| format!("{title}: {times}"));
        let line: Vec<String> = line.collect();
        println!("whole-number grids: {}", line.join(", "));
        sure(
            features().all(|((_, least), times)| times >= least),
            "whole-number grids have too few of a feature",
        );
    }
}

pub fn grids() -> Grids {
    let gain = "verify_correlated_equilibrium_incentives on whole-number grids";
    let dominated = "strictly_dominated_strategies on whole-number grids";
    let mut grids = Grids {
        gain: Tally::of(gain, &GROUNDS, LEAST),
        dominated: Tally::of(dominated, &LISTED, LEAST),
        features: [0; FEATURES.len()],
    };
    grid_cases::run(&mut grids);
    grids
}
