//! The comparison of the step from a profile to the next one.

use crate::cases::{self, Random};
use crate::document::{self, PLAYERS, STRATEGIES};
use crate::library::{self, Answer};
use crate::reference;
use crate::rust;
use crate::tally::{numbers, Judge, Tally};

pub fn steps() -> Tally {
    let mut tally = Tally::new("advance_profile");
    let mut random = Random(6);
    for shape in cases::small_shapes(64) {
        walk(&mut tally, &mut random, &shape);
    }
    for shape in cases::large_shapes() {
        walk(&mut tally, &mut random, &shape);
    }
    for _ in 0..5_000 {
        let players = 1 + random.below(PLAYERS);
        let counts: Vec<usize> = (0..players)
            .map(|_| match random.below(2) {
                0 => 1 + random.below(4),
                _ => 1 + random.below(STRATEGIES),
            })
            .collect();
        let space = rust::space(&counts).unwrap();
        for _ in 0..20 {
            let profile: Vec<usize> = counts
                .iter()
                .map(|count| match random.below(6) {
                    0 => random.below(*count),
                    1 => count + random.below(3),
                    2 => random.number().min(usize::MAX - 1),
                    _ => count - 1,
                })
                .collect();
            let lent = lend(&mut random, &profile);
            step(&mut tally, &space, &counts, &lent);
        }
    }
    for _ in 0..200_000 {
        free_step(&mut tally, &mut random);
    }
    tally
}

/// A list in the first places, with anything in those after it.
fn lend(random: &mut Random, list: &[usize]) -> [usize; PLAYERS] {
    let mut lent = [0; PLAYERS].map(|_| random.number());
    lent[..list.len()].copy_from_slice(list);
    lent
}

/// One step beside the Rust's, and the profile after it.
fn step(
    tally: &mut Tally,
    space: &reference::StrategySpace,
    counts: &[usize],
    profile: &[usize; PLAYERS],
) -> (bool, [usize; PLAYERS]) {
    let mut after = *profile;
    let more = reference::advance(space, &mut after[..counts.len()]);
    compare_step(tally, Judge::Rust, counts, profile, (more, after));
    (more, after)
}

fn compare_step(
    tally: &mut Tally,
    by: Judge,
    counts: &[usize],
    profile: &[usize; PLAYERS],
    judge: (bool, [usize; PLAYERS]),
) {
    let input = || numbers("counts", counts) + &numbers("profile", profile);
    let library = library::advance_profile(counts, profile);
    tally.compare(by, input, Answer::Accepted(judge), library);
}

/// A whole space from its first profile to its last.
fn walk(tally: &mut Tally, random: &mut Random, counts: &[usize]) {
    let space = rust::space(counts).unwrap();
    let mut profile = lend(random, &vec![0; counts.len()]);
    loop {
        let (more, after) = step(tally, &space, counts, &profile);
        profile = after;
        if !more {
            break;
        }
    }
}

/// A step where the Rust is no judge: the largest number as a choice, counts of 0, no players, or too many.
fn free_step(tally: &mut Tally, random: &mut Random) {
    let players = random.below(PLAYERS + 3);
    let counts: Vec<usize> = (0..players)
        .map(|_| match random.below(2) {
            0 => random.below(3),
            _ => random.number(),
        })
        .collect();
    let mut profile = lend(random, &[]);
    for (choice, count) in profile.iter_mut().zip(&counts) {
        *choice = match random.below(4) {
            0 => usize::MAX,
            1 => random.number(),
            _ => count.wrapping_sub(1 + random.below(2)),
        };
    }
    let mut after = profile;
    let more = document::advance(&counts, &mut after);
    compare_step(tally, Judge::Outside, &counts, &profile, (more, after));
}
