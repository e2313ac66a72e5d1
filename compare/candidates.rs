//! The comparison of the candidate checks: the gain, the verdict and the minimax check.

use crate::candidate_cases;
use crate::cases::Random;
use crate::document::{self, Ground, ACTIONS};
use crate::library::{self, Answer, Bits, Claim};
use crate::rust;
use crate::tally::{agreed, floats, numbers, sure, Judge, Tally};

/// The cases that each ground of an answer has at least.
const LEAST: usize = 4_000;

/// Sizes whose product wraps to 0, 1 or 2.
const WRAPPED: [[usize; 2]; 8] = [
    [1 << 63, 2],
    [2, 1 << 63],
    [1 << 32, 1 << 32],
    [(1 << 63) + 1, 2],
    [2, (1 << 63) + 1],
    [3, usize::MAX / 3 * 2 + 1],
    [usize::MAX / 3 * 2 + 1, 3],
    [usize::MAX, usize::MAX],
];

/// What a check is handed beside a tolerance or a claim: the sizes, and u1, u2 and the weights, or the payoffs, p1 and
/// p2.
#[derive(Clone)]
pub struct Candidate {
    pub m: usize,
    pub n: usize,
    pub lists: [Vec<f64>; 3],
}

impl Candidate {
    pub fn new(m: usize, n: usize, lists: [&[f64]; 3]) -> Self {
        let lists = lists.map(<[f64]>::to_vec);
        Self { m, n, lists }
    }

    /// The greatest gain, what it rests on, and who says so.
    pub fn gain(&self) -> (Judge, Ground, f64) {
        let lists = self.lists();
        let (ground, gain) = document::incentives(self.m, self.n, lists);
        let by = self.judge(|cells| lists.iter().any(|list| list.len() == cells));
        if by == Judge::Rust {
            let [u1, u2, weights] = lists.map(|list| rust::rows(list, self.n));
            let rust = rust::incentives(&u1, &u2, &weights);
            agreed(Bits::of(rust), Bits::of(gain), || self.input());
        }
        (by, ground, gain)
    }

    /// The same of the minimax check.
    pub fn minimax(&self, claim: Claim) -> (Judge, Ground, bool) {
        let lists @ [payoffs, p1, p2] = self.lists();
        let (ground, yes) = document::minimax(self.m, self.n, lists, claim);
        let vectors = [p1.len(), p2.len()] == [self.m, self.n];
        let by = self.judge(|cells| payoffs.len() == cells || vectors);
        if by == Judge::Rust {
            let payoffs = rust::rows(payoffs, self.n);
            let record = rust::record(p1, p2, claim.value);
            let rust = rust::minimax(&payoffs, &record, claim.tolerance);
            agreed(rust, yes, || self.input() + &claim_of(claim));
        }
        (by, ground, yes)
    }

    pub fn lists(&self) -> [&[f64]; 3] {
        self.lists.each_ref().map(Vec::as_slice)
    }

    /// The Rust is told rows of n and no m, so that where no list has its due length it may be told another game.
    fn judge(&self, told: impl FnOnce(usize) -> bool) -> Judge {
        let sizes = [self.m, self.n];
        if sizes.iter().any(|size| *size > ACTIONS) {
            Judge::Outside
        } else if sizes.contains(&0) || !told(self.m * self.n) {
            Judge::Unasked
        } else {
            Judge::Rust
        }
    }

    /// Whether it is at the limit of both sizes, and the Rust judges it.
    fn largest(&self, by: Judge) -> bool {
        by == Judge::Rust && [self.m, self.n] == [ACTIONS; 2]
    }

    pub fn input(&self) -> String {
        let [first, second, third] = self.lists();
        numbers("sizes", &[self.m, self.n])
            + &floats("u1 or payoffs", first)
            + &floats("u2 or p1", second)
            + &floats("weights or p2", third)
    }
}

fn claim_of(claim: Claim) -> String {
    floats("claim", &[claim.value, claim.tolerance])
}

pub struct Candidates {
    pub gain: Tally,
    pub verdict: Tally,
    pub minimax: Tally,
    /// The gains and the minimax checks at the limit that the Rust judges.
    largest: [usize; 2],
}

impl Candidates {
    /// The grounds of each call that have to be met; for the gain and the minimax check, in the domain.
    pub const GAIN: [Ground; 8] = [
        Ground::Lengths,
        Ground::NonFinite,
        Ground::NegativeWeight,
        Ground::InfiniteGain1,
        Ground::InfiniteGain2,
        Ground::NoGain,
        Ground::Gain1,
        Ground::Gain2,
    ];
    pub const VERDICT: [Ground; 9] = [
        Ground::Sizes,
        Ground::Lengths,
        Ground::NonFinite,
        Ground::NegativeTolerance,
        Ground::NegativeWeight,
        Ground::InfiniteGain1,
        Ground::InfiniteGain2,
        Ground::Over,
        Ground::Yes,
    ];
    pub const MINIMAX: [Ground; 12] = [
        Ground::Lengths,
        Ground::NonFinite,
        Ground::NegativeTolerance,
        Ground::Entry1,
        Ground::Entry2,
        Ground::Sum1,
        Ground::Sum2,
        Ground::Column,
        Ground::Row,
        Ground::InfiniteColumn,
        Ground::InfiniteRow,
        Ground::Yes,
    ];

    /// The gain, and the verdict with so many tolerances at the gain, beside it and anywhere.
    fn gain(&mut self, random: &mut Random, candidate: &Candidate, verdicts: usize) -> f64 {
        let Candidate { m, n, .. } = *candidate;
        let lists = candidate.lists();
        let (by, ground, gain) = candidate.gain();
        self.largest[0] += usize::from(candidate.largest(by));
        self.gain.compare_as(
            ground as u32,
            by,
            || candidate.input(),
            Answer::Accepted(Bits::of(gain)),
            library::verify_correlated_equilibrium_incentives(m, n, lists),
        );
        let mut tolerances = [
            gain,
            gain.next_down(),
            gain.next_up(),
            candidate_cases::tolerance(random),
            candidate_cases::tolerance(random),
        ];
        let turn = random.below(tolerances.len());
        tolerances.rotate_left(turn);
        for tolerance in tolerances.into_iter().take(verdicts) {
            let (ground, yes) = document::verdict((ground, gain), tolerance);
            self.verdict.compare_as(
                ground as u32,
                Judge::Unasked,
                || candidate.input() + &floats("tolerance", &[tolerance]),
                Answer::Accepted(yes),
                library::verdict(m, n, lists, tolerance),
            );
        }
        gain
    }

    fn minimax(&mut self, candidate: &Candidate, claim: Claim) -> bool {
        let (by, ground, yes) = candidate.minimax(claim);
        self.largest[1] += usize::from(candidate.largest(by));
        self.minimax.compare_as(
            ground as u32,
            by,
            || candidate.input() + &claim_of(claim),
            Answer::Accepted(yes),
            library::verify_minimax_residuals(candidate.m, candidate.n, candidate.lists(), claim),
        );
        yes
    }

    /// The line of the cases at the limit.
    pub fn report_largest(&self) {
        let [gains, claims] = self.largest;
        println!(
            "candidate checks at {ACTIONS} x {ACTIONS} with the Rust: \
             {gains} gains, {claims} minimax checks"
        );
    }
}

pub fn candidates() -> Candidates {
    let mut candidates = Candidates {
        gain: Tally::by_ground("verify_correlated_equilibrium_incentives", LEAST),
        verdict: Tally::by_ground("verdict", LEAST),
        minimax: Tally::by_ground("verify_minimax_residuals", LEAST),
        largest: [0; 2],
    };
    let mut random = Random(10);
    known(&mut candidates, &mut random);
    for size in 1..=ACTIONS + 1 {
        for (over, none) in [
            ([size, ACTIONS + 1], [size, 0]),
            ([ACTIONS + 1, size], [0, size]),
            ([ACTIONS + 1; 2], [0; 2]),
        ] {
            for _ in 0..10 {
                right(&mut candidates, &mut random, over);
                empty(&mut candidates, &mut random, none);
            }
        }
    }
    for _ in 0..400 {
        for sizes in WRAPPED {
            wrapped(&mut candidates, &mut random, sizes);
        }
    }
    for _ in 0..30_000 {
        junk(&mut candidates, &mut random);
    }
    for turn in 0..200_000 {
        // Large gains take long, so that there are fewer.
        let (sizes, gains, verdicts) = match turn % 16 {
            0 => (candidate_cases::wide_sizes(&mut random), 1, 1),
            _ => (candidate_cases::small_sizes(&mut random), 2, 5),
        };
        for _ in 0..gains {
            let candidate = match random.below(2) {
                0 => candidate_cases::game(&mut random, sizes),
                _ => candidate_cases::settled(&mut random, sizes),
            };
            candidates.gain(&mut random, &candidate, verdicts);
        }
        solutions(&mut candidates, &mut random, sizes);
        let (candidate, claim) = candidate_cases::loose(&mut random, sizes);
        candidates.minimax(&candidate, claim);
        if turn % 2 == 0 {
            faults(&mut candidates, &mut random);
        }
    }
    candidates
}

/// Cases whose answers are known beforehand.
fn known(candidates: &mut Candidates, random: &mut Random) {
    let gains = candidate_cases::known_gains()
        .iter()
        .all(|(candidate, gain)| candidates.gain(random, candidate, 5).to_bits() == gain.to_bits());
    let claims = candidate_cases::known_claims()
        .iter()
        .all(|(candidate, claim, yes)| candidates.minimax(candidate, *claim) == *yes);
    sure(
        gains && claims,
        "a candidate whose answer is known has another one",
    );
}

/// A solved game with tolerances at what it needs, beside it and anywhere, and moved by about the tolerance.
fn solutions(candidates: &mut Candidates, random: &mut Random, sizes: [usize; 2]) {
    let (candidate, value) = candidate_cases::solved(random, sizes);
    let needed = candidate_cases::needed(&candidate, value);
    let beside = random.pick(&[needed.next_down(), needed.next_up()]);
    for tolerance in [needed, beside, candidate_cases::tolerance(random)] {
        candidates.minimax(&candidate, Claim { value, tolerance });
    }
    for _ in 0..3 {
        let tolerance = random.pick(&candidate_cases::TOLERANCES);
        let (candidate, claim) = candidate_cases::moved(random, &candidate, value, tolerance);
        candidates.minimax(&candidate, claim);
    }
}

/// A game that is settled, and a solved one with the tolerance that it needs.
fn right(candidates: &mut Candidates, random: &mut Random, sizes: [usize; 2]) {
    let candidate = candidate_cases::settled(random, sizes);
    candidates.gain(random, &candidate, 5);
    let (candidate, claim) = candidate_cases::passing(random, sizes);
    candidates.minimax(&candidate, claim);
}

/// Candidates that would pass, each with one fault.
fn faults(candidates: &mut Candidates, random: &mut Random) {
    let sizes = match random.below(16) {
        0 => candidate_cases::wide_sizes(random),
        _ => candidate_cases::small_sizes(random),
    };
    let mut candidate = candidate_cases::settled(random, sizes);
    candidate_cases::fault(random, &mut candidate);
    candidates.gain(random, &candidate, 2);
    let (mut candidate, mut claim) = candidate_cases::passing(random, sizes);
    match random.below(8) {
        0 => claim.value = random.non_finite(),
        1 => claim.tolerance = random.non_finite(),
        2 => claim.tolerance = -claim.tolerance,
        _ => candidate_cases::fault(random, &mut candidate),
    }
    candidates.minimax(&candidate, claim);
}

/// Sizes of which one is 0, with no payoffs.
fn empty(candidates: &mut Candidates, random: &mut Random, [m, n]: [usize; 2]) {
    candidates.gain(random, &Candidate::new(m, n, [&[]; 3]), 5);
    let lists = [vec![], vec![1.0; m], vec![1.0; n]];
    let claim = Claim {
        value: 0.0,
        tolerance: 1e9,
    };
    candidates.minimax(&Candidate { m, n, lists }, claim);
}

/// Lists as long as the product of the sizes is where it wraps.
fn wrapped(candidates: &mut Candidates, random: &mut Random, [m, n]: [usize; 2]) {
    let cells = m.wrapping_mul(n);
    let list = |length: usize| vec![1.0 / length as f64; length];
    let lists = [list(cells), list(cells), list(cells)];
    candidates.gain(random, &Candidate { m, n, lists }, 5);
    let lists = [vec![0.0; cells], list(m.min(3)), list(n.min(3))];
    let claim = Claim {
        value: 0.0,
        tolerance: candidate_cases::tolerance(random),
    };
    candidates.minimax(&Candidate { m, n, lists }, claim);
}

/// Anything for sizes, lists and claim.
fn junk(candidates: &mut Candidates, random: &mut Random) {
    let [m, n] = match random.below(3) {
        0 => [random.number(), random.number()],
        1 => [random.below(3), random.below(3)],
        _ => candidate_cases::small_sizes(random),
    };
    let cells = m.wrapping_mul(n);
    let mut candidate = |lengths: [usize; 3]| {
        let lists = lengths.map(|length| {
            let length = match random.below(3) {
                0 => random.below(6),
                _ => length.min(20),
            };
            let mut list = candidate_cases::payoffs(random, length);
            if random.below(8) == 0 && length > 0 {
                list[random.below(length)] = random.non_finite();
            }
            list
        });
        Candidate { m, n, lists }
    };
    let tables = candidate([cells; 3]);
    let vectors = candidate([cells, m, n]);
    candidates.gain(random, &tables, 2);
    let claim = Claim {
        value: random.finite(),
        tolerance: candidate_cases::tolerance(random),
    };
    candidates.minimax(&vectors, claim);
}
