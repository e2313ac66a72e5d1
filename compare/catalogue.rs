//! Document 01's catalogue, written from its text alone, and the comparison of the call that gives a table's number: the
//! Rust has none.

use crate::cases;
use crate::catalogue_cases;
use crate::document;
use crate::library::{self, Answer, Entry};
use crate::strikes::LEAST;
use crate::tally::{self, floats, numbers, sure, Judge, Tally};

pub const NUMBERS: usize = 144;

/// The counts of a table that may have a number.
pub const COUNTS: [usize; 2] = [2, 2];

/// The ranks of each player's payoffs at the four profiles in order, the least 0.
pub type Ranks = [[usize; 4]; 2];

/// Where each of the four profiles goes when nothing, the rows, the columns or both are swapped.
pub const SWAPS: [[usize; 4]; 4] = [[0, 1, 2, 3], [2, 3, 0, 1], [1, 0, 3, 2], [3, 2, 1, 0]];

/// Why an accepted table has no number.
#[derive(Clone, Copy)]
enum Ground {
    OnePlayer,
    TwoPlayers,
    MorePlayers,
    Ties0,
    Ties1,
    TiesBoth,
    Zeros,
}

const GROUNDS: [&str; Ground::Zeros as usize + 1] = [
    "none, one player:",
    "none, two players with other counts:",
    "none, three or more players:",
    "none, ties of player 0 alone:",
    "none, ties of player 1 alone:",
    "none, ties of both:",
    "none, no ties but of the two zeros:",
];

/// What a case is counted under: that there is a number, each refusal, each ground.
pub const TITLES: [&str; 1 + document::TABLE_FAULTS.len() + GROUNDS.len()] = titles();

const fn titles() -> [&'static str; 1 + document::TABLE_FAULTS.len() + GROUNDS.len()] {
    let mut all = tally::after(&tally::STATUSES, &GROUNDS);
    all[0] = "strictly ranked:";
    all
}

/// What is said of a table.
enum Said {
    Refused(u32),
    None(Ground),
    Number(usize),
}

impl Said {
    fn class(&self) -> u32 {
        match self {
            Said::Number(_) => 0,
            Said::Refused(refusal) => *refusal,
            Said::None(ground) => document::NON_FINITE + 1 + *ground as u32,
        }
    }

    fn answer(&self) -> Answer<(bool, usize)> {
        match self {
            Said::Number(number) => Answer::Accepted((true, *number)),
            Said::Refused(refusal) => Answer::Refused(*refusal),
            Said::None(_) => Answer::Accepted((false, 0)),
        }
    }
}

/// The order key of a payoff, from its bits as a whole number.
fn order_key(payoff: f64) -> i128 {
    let bits = i128::from(payoff.to_bits());
    if bits < 1 << 63 {
        bits
    } else {
        (1 << 63) - bits
    }
}

/// The ranks of a player's payoffs, if their order keys are four.
fn ranks(payoffs: [f64; 4]) -> Option<[usize; 4]> {
    let keys = payoffs.map(order_key);
    let ranks = keys.map(|key| keys.iter().filter(|other| **other < key).count());
    let each = (0..4).all(|rank| ranks.contains(&rank));
    each.then_some(ranks)
}

/// Whether no two of a player's payoffs have the same bits.
fn differ(payoffs: [f64; 4]) -> bool {
    let bits = payoffs.map(f64::to_bits);
    (0..4).all(|place| !bits[..place].contains(&bits[place]))
}

/// The table with its profiles in other places.
pub fn swapped(ranks: &Ranks, swap: [usize; 4]) -> Ranks {
    ranks.map(|own| swap.map(|profile| own[profile]))
}

/// The eight ranks as base-4 digits, the first one highest.
fn key(ranks: Ranks) -> usize {
    ranks.iter().flatten().fold(0, |key, rank| 4 * key + rank)
}

fn least_key(ranks: &Ranks) -> usize {
    let keys = SWAPS.map(|swap| key(swapped(ranks, swap)));
    keys.into_iter().min().unwrap()
}

/// Every strictly ranked table.
pub fn every_ranks() -> Vec<Ranks> {
    let orders: Vec<[usize; 4]> = cases::lists(&[0, 1, 2, 3], 4)
        .filter(|order| (0..4).all(|rank| order.contains(&rank)))
        .map(|order| order.try_into().unwrap())
        .collect();
    let tables = orders
        .iter()
        .flat_map(|first| orders.iter().map(|second| [*first, *second]));
    tables.collect()
}

/// The least keys of all of them, ascending.
pub fn least_keys() -> Vec<usize> {
    let mut keys: Vec<usize> = every_ranks().iter().map(least_key).collect();
    keys.sort_unstable();
    keys.dedup();
    keys
}

fn said(keys: &[usize], counts: &[usize], payoffs: &[f64]) -> Said {
    let refusal = document::table_refusal(counts, payoffs);
    if refusal != 0 {
        return Said::Refused(refusal);
    }
    if counts != COUNTS {
        return Said::None(match counts.len() {
            1 => Ground::OnePlayer,
            2 => Ground::TwoPlayers,
            _ => Ground::MorePlayers,
        });
    }
    let own = [0, 1].map(|player| [0, 1, 2, 3].map(|profile: usize| payoffs[2 * profile + player]));
    match own.map(ranks) {
        [Some(first), Some(second)] => {
            let least = least_key(&[first, second]);
            Said::Number(keys.iter().position(|key| *key == least).unwrap())
        }
        _ if own.into_iter().all(differ) => Said::None(Ground::Zeros),
        [None, Some(_)] => Said::None(Ground::Ties0),
        [Some(_), None] => Said::None(Ground::Ties1),
        [None, None] => Said::None(Ground::TiesBoth),
    }
}

/// The number of a table that has one.
pub fn number(keys: &[usize], counts: &[usize], payoffs: &[f64]) -> Option<usize> {
    match said(keys, counts, payoffs) {
        Said::Number(number) => Some(number),
        _ => None,
    }
}

pub struct Catalogue {
    pub number: Tally,
    pub keys: Vec<usize>,
    /// How often each number is told.
    times: [usize; NUMBERS],
}

impl Catalogue {
    /// A table, and its number where it has one.
    pub fn number(&mut self, counts: &[usize], payoffs: &[f64]) -> Option<usize> {
        let said = said(&self.keys, counts, payoffs);
        let mut entry = Entry::fresh();
        let status = library::number(counts, payoffs, &mut entry);
        self.number.compare_as(
            said.class(),
            Judge::Unasked,
            || numbers("counts", counts) + &floats("payoffs", payoffs),
            said.answer(),
            entry.answer(status),
        );
        match said {
            Said::Number(number) => {
                self.times[number] += 1;
                Some(number)
            }
            _ => None,
        }
    }

    /// The line of the numbers; one that came too rarely ends the run.
    pub fn report_numbers(&self) {
        let least = *self.times.iter().min().unwrap();
        println!("number, each of the {NUMBERS} numbers: at least {least}");
        sure(least >= LEAST, "number has too few of a number");
    }
}

pub fn catalogue() -> Catalogue {
    let mut catalogue = Catalogue {
        number: Tally::of("number", &TITLES, LEAST),
        keys: least_keys(),
        times: [0; NUMBERS],
    };
    catalogue_cases::run(&mut catalogue);
    catalogue
}
