//! The recorded lines of `test_candidates`. The gain and the minimax check are the Rust's where it
//! can be asked, the others document 01's.

use crate::candidate_cases;
use crate::candidates::{Candidate, Candidates};
use crate::cases::Random;
use crate::document::{self, Ground};
use crate::library::{Bits, Claim};
use crate::record::{self, Lines};

const CALLS: [&str; 3] = [
    "verify_correlated_equilibrium_incentives",
    "verdict",
    "verify_minimax_residuals",
];

/// How many lines a call has of a ground: more where nothing is wrong, and where several lists may
/// be.
fn due(ground: Ground) -> usize {
    match ground {
        Ground::Yes | Ground::NoGain | Ground::Gain1 | Ground::Gain2 => 14,
        Ground::Over | Ground::Column | Ground::Row => 8,
        Ground::Sizes | Ground::Lengths | Ground::NonFinite => 8,
        _ => 4,
    }
}

pub fn sample() -> Lines {
    let mut sample = Sample {
        lines: Lines::new(),
        cases: [[0; Ground::TITLES.len()]; CALLS.len()],
    };
    for (candidate, gain) in candidate_cases::known_gains() {
        sample.gain(&candidate, gain);
    }
    for (candidate, claim, _) in candidate_cases::known_claims() {
        sample.minimax(&candidate, claim);
    }
    let mut random = Random(11);
    for turn in 0..2_000 {
        let mut sizes = [1 + random.below(4), 1 + random.below(3)];
        sizes.rotate_left(random.below(2));
        let faulty = turn % 4 == 0;
        let mut candidate = match turn % 2 {
            0 => candidate_cases::settled(&mut random, sizes),
            _ => candidate_cases::game(&mut random, sizes),
        };
        if faulty {
            candidate_cases::fault(&mut random, &mut candidate);
        }
        let (_, _, gain) = candidate.gain();
        let anywhere = candidate_cases::tolerance(&mut random);
        sample.gain(&candidate, random.pick(&[gain, gain.next_down(), anywhere]));
        let (mut candidate, mut claim) = minimax(&mut random, sizes, turn % 3);
        if faulty {
            candidate_cases::fault(&mut random, &mut candidate);
        } else if turn % 16 == 1 {
            claim.value = random.non_finite();
        }
        sample.minimax(&candidate, claim);
    }
    sample.whole();
    sample.lines
}

/// A loose candidate, or a solved game moved by about the tolerance: one that it needs, the one
/// below, or any.
fn minimax(random: &mut Random, sizes: [usize; 2], style: usize) -> (Candidate, Claim) {
    if style == 0 {
        return candidate_cases::loose(random, sizes);
    }
    let (candidate, value) = candidate_cases::solved(random, sizes);
    let needed = candidate_cases::needed(&candidate, value);
    let tolerance = match style {
        1 => random.pick(&[needed, needed.next_down()]),
        _ => candidate_cases::tolerance(random),
    };
    candidate_cases::moved(random, &candidate, value, tolerance)
}

struct Sample {
    lines: Lines,
    /// How many lines there are, by call and ground.
    cases: [[usize; Ground::TITLES.len()]; CALLS.len()],
}

impl Sample {
    /// The gain, and the verdict with a tolerance.
    fn gain(&mut self, candidate: &Candidate, tolerance: f64) {
        let (_, ground, gain) = candidate.gain();
        let told = record::printed(&Bits::of(gain));
        self.push(0, ground, candidate, &[], told);
        let (ground, yes) = document::verdict((ground, gain), tolerance);
        let told = record::yes_or_no(&yes);
        self.push(1, ground, candidate, &[tolerance], told);
    }

    fn minimax(&mut self, candidate: &Candidate, claim: Claim) {
        let (_, ground, yes) = candidate.minimax(claim);
        let Claim { value, tolerance } = claim;
        let told = record::yes_or_no(&yes);
        self.push(2, ground, candidate, &[value, tolerance], told);
    }

    /// Every call has its lines of every ground.
    fn whole(&self) {
        let grounds: [&[Ground]; 3] = [
            &Candidates::GAIN,
            &Candidates::VERDICT,
            &Candidates::MINIMAX,
        ];
        for (cases, grounds) in std::iter::zip(&self.cases, grounds) {
            for ground in grounds.iter().chain(&[Ground::Sizes]) {
                let title = Ground::TITLES[*ground as usize];
                let cases = cases[*ground as usize];
                assert!(cases == due(*ground), "{cases} lines of: {title}");
            }
        }
    }

    fn push(
        &mut self,
        call: usize,
        ground: Ground,
        candidate: &Candidate,
        rest: &[f64],
        told: String,
    ) {
        let cases = &mut self.cases[call][ground as usize];
        if *cases == due(ground) {
            return;
        }
        *cases += 1;
        let sizes = [candidate.m, candidate.n].map(|size| record::numbers(&[size]));
        let lists = candidate.lists().map(record::floats);
        let rest = rest.iter().map(|float| record::floats(&[*float]));
        let arguments = sizes.into_iter().chain(lists).chain(rest);
        self.lines.push(CALLS[call], arguments.collect(), told);
    }
}
