//! The Rust's answers, an error put as document 01's number.

use crate::cases;
use crate::document::{self, PLAYERS};
use crate::library::{Answer, Bits, Listing, Part, Space};
use crate::reference::{
    self, BestResponse, BestResponseSolver, ClarabelConvexSolver, DominatedStrategy,
    NormalFormError, PayoffMatrix, PureNashEquilibrium, PureNashSolver, StrategySpace,
    StrictDominanceSolver, Utility, ZeroSumMinimaxResult,
};
use crate::tally::Judge;
use clarabel::solver::SolverStatus;

/// The number of an error's kind.
fn number(error: NormalFormError) -> u32 {
    match error {
        NormalFormError::NoPlayers => document::NO_PLAYERS,
        NormalFormError::NoStrategies { .. } => document::NO_STRATEGIES,
        NormalFormError::PayoffCount { .. } => document::PAYOFF_COUNT,
        NormalFormError::NonFiniteUtility => document::NON_FINITE,
        NormalFormError::InvalidPlayer { .. } => document::PLAYER,
        NormalFormError::OpponentProfileCount { .. } => document::OPPONENT_COUNT,
        NormalFormError::InvalidOpponentStrategy { .. } => document::OPPONENT,
        other => panic!("no call that is compared gives {other:?}"),
    }
}

pub fn utility(value: f64) -> Result<Utility, u32> {
    Utility::new(value).map_err(number)
}

pub fn space(counts: &[usize]) -> Result<StrategySpace, u32> {
    StrategySpace::from_counts(counts.to_vec()).map_err(number)
}

/// The table as a Rust caller builds it: the space, each utility, the matrix.
pub fn table(counts: &[usize], payoffs: &[f64]) -> Result<PayoffMatrix, u32> {
    let space = space(counts)?;
    let utilities = payoffs
        .iter()
        .map(|payoff| Utility::new(*payoff))
        .collect::<Result<Vec<_>, _>>()
        .map_err(number)?;
    PayoffMatrix::new(space, utilities).map_err(number)
}

pub fn offset(matrix: &PayoffMatrix, profile: &[usize]) -> Option<usize> {
    reference::offset(matrix.strategies(), profile)
}

pub fn best_responses(
    matrix: &PayoffMatrix,
    player: usize,
    opponents: &[usize],
) -> Result<Vec<BestResponse>, u32> {
    BestResponseSolver::best_responses(matrix, player, opponents).map_err(number)
}

/// A mark for each cell: 1 where the profile's choice is among the player's best responses to the others', else 0.
pub fn marks(matrix: &PayoffMatrix) -> Vec<u8> {
    let space = matrix.strategies();
    let counts = space.strategy_counts();
    let players = counts.len();
    let mut marks = vec![0; players * counts.iter().product::<usize>()];
    for player in 0..players {
        for opponents in cases::profiles(&cases::without(&counts, player)) {
            for response in best_responses(matrix, player, &opponents).unwrap() {
                let mut profile = opponents.clone();
                profile.insert(player, response.strategy);
                let offset = offset(matrix, &profile).unwrap();
                marks[offset * players + player] = 1;
            }
        }
    }
    marks
}

pub fn equilibria(matrix: &PayoffMatrix) -> Vec<PureNashEquilibrium> {
    PureNashSolver::equilibria(matrix)
}

/// The same as a list is told.
pub fn listing(matrix: &PayoffMatrix) -> Listing<Bits> {
    let equilibria = equilibria(matrix);
    Listing {
        number: equilibria.len(),
        first: equilibria
            .iter()
            .flat_map(|equilibrium| equilibrium.profile.iter().copied())
            .collect(),
        second: equilibria
            .iter()
            .flat_map(|equilibrium| &equilibrium.payoffs)
            .map(|utility| Bits::of(utility.value()))
            .collect(),
    }
}

pub fn dominated(matrix: &PayoffMatrix, player: usize) -> Result<Vec<DominatedStrategy>, u32> {
    StrictDominanceSolver::strictly_dominated_strategies(matrix, player).map_err(number)
}

/// A table, or its refusal, and who gave it.
pub struct Judged<'a> {
    pub counts: &'a [usize],
    pub payoffs: &'a [f64],
    pub by: Judge,
    pub table: Result<PayoffMatrix, u32>,
}

impl<'a> Judged<'a> {
    pub fn new(counts: &'a [usize], payoffs: &'a [f64]) -> Self {
        let by = if !document::in_domain(counts) {
            Judge::Outside
        } else if document::both_six_and_seven(counts, payoffs) {
            Judge::SixAndSeven
        } else {
            Judge::Rust
        };
        Self {
            counts,
            payoffs,
            by,
            table: match by {
                Judge::Rust => table(counts, payoffs),
                _ => Err(document::table_refusal(counts, payoffs)),
            },
        }
    }

    pub fn space(&self) -> Answer<Space> {
        let space = |matrix: &PayoffMatrix| space_of(matrix.strategies());
        self.matrix().map(space).into()
    }

    /// The Rust says no more than None; document 01 then gives the number.
    pub fn payoff(&self, profile: &[usize], player: usize) -> Answer<Bits> {
        self.ask(
            |matrix| {
                let utility = matrix.payoff(profile, player)?;
                Some(Bits::of(utility.value()))
            },
            || document::payoff_refusal(self.counts, profile, player),
        )
    }

    pub fn offset(&self, profile: &[usize]) -> Answer<usize> {
        self.ask(
            |matrix| offset(matrix, profile),
            || document::profile_refusal(self.counts, profile),
        )
    }

    /// The payoffs are the Rust's of each player; their place is offset × P.
    pub fn profile_payoffs(&self, profile: &[usize]) -> Answer<Part> {
        self.ask(
            |matrix| {
                let players = matrix.strategies().player_count();
                Some(Part {
                    first: offset(matrix, profile)? * players,
                    length: players,
                    payoffs: (0..players)
                        .map(|player| Some(Bits::of(matrix.payoff(profile, player)?.value())))
                        .collect::<Option<_>>()?,
                })
            },
            || document::profile_refusal(self.counts, profile),
        )
    }

    /// The Rust panics where player 0 has no payoff at the profile; document 01 then gives the number.
    pub fn is_equilibrium(&self, profile: &[usize]) -> Answer<bool> {
        self.ask(
            |matrix| {
                matrix.payoff(profile, 0)?;
                Some(reference::is_equilibrium(matrix, profile))
            },
            || document::profile_refusal(self.counts, profile),
        )
    }

    pub fn best_responses(&self, player: usize, opponents: &[usize]) -> Result<Listing<Bits>, u32> {
        let responses = best_responses(self.matrix()?, player, opponents)?;
        Ok(Listing {
            number: responses.len(),
            first: responses.iter().map(|response| response.strategy).collect(),
            second: responses
                .iter()
                .map(|response| Bits::of(response.utility.value()))
                .collect(),
        })
    }

    pub fn equilibria(&self) -> Result<Listing<Bits>, u32> {
        self.matrix().map(listing)
    }

    pub fn dominated(&self, player: usize) -> Result<Listing<usize>, u32> {
        let dominated = dominated(self.matrix()?, player)?;
        Ok(Listing {
            number: dominated.len(),
            first: dominated.iter().map(|entry| entry.strategy).collect(),
            second: dominated.iter().map(|entry| entry.dominated_by).collect(),
        })
    }

    /// The answer of a list into outputs of these lengths, unless it is one of equilibria, and who gives it: that an
    /// output is too short is document 01's to say.
    pub fn lent<T: Clone>(
        &self,
        listing: &Result<Listing<T>, u32>,
        lengths: [usize; 2],
    ) -> (Judge, Answer<Listing<T>>) {
        match listing {
            Err(refusal) => (self.by, Answer::Refused(*refusal)),
            Ok(listing) if document::too_short(listing.needed(), lengths) => {
                (Judge::TooShort, Answer::Refused(document::SHORT))
            }
            Ok(listing) => (self.by, Answer::Accepted(listing.clone())),
        }
    }

    pub fn matrix(&self) -> Result<&PayoffMatrix, u32> {
        self.table.as_ref().map_err(|refusal| *refusal)
    }

    fn ask<T>(
        &self,
        value: impl FnOnce(&PayoffMatrix) -> Option<T>,
        refusal: impl FnOnce() -> u32,
    ) -> Answer<T> {
        let value = |matrix| value(matrix).ok_or_else(refusal);
        self.matrix().and_then(value).into()
    }
}

/// A space as the library hands it out: 0 from P on.
pub fn space_of(space: &StrategySpace) -> Space {
    let mut counts = [0; PLAYERS];
    counts[..space.player_count()].copy_from_slice(&space.strategy_counts());
    Space {
        players: space.player_count(),
        counts,
    }
}

/// A flat table by its rows of n; the last one is shorter where the length is no multiple of n.
pub fn rows(flat: &[f64], n: usize) -> Vec<Vec<f64>> {
    flat.chunks(n).map(<[f64]>::to_vec).collect()
}

pub fn incentives(u1: &[Vec<f64>], u2: &[Vec<f64>], weights: &[Vec<f64>]) -> f64 {
    ClarabelConvexSolver::verify_correlated_equilibrium_incentives(u1, u2, weights)
}

/// The record of a minimax candidate; no check reads its residuals and its status, and they tell of no solution.
pub fn record(p1: &[f64], p2: &[f64], value: f64) -> ZeroSumMinimaxResult {
    ZeroSumMinimaxResult {
        value,
        p1_strategy: p1.to_vec(),
        p2_strategy: p2.to_vec(),
        primal_residual: f64::NAN,
        dual_residual: f64::INFINITY,
        status: SolverStatus::Unsolved,
    }
}

pub fn minimax(payoffs: &[Vec<f64>], record: &ZeroSumMinimaxResult, tolerance: f64) -> bool {
    ClarabelConvexSolver::verify_minimax_residuals(payoffs, record, tolerance)
}
