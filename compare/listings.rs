//! The listings of equilibria and of marked profiles: what they answer into outputs of any lengths, by the list of all;
//! the lengths that are tried; and what an answer is counted under.

use crate::cases::Random;
use crate::document;
use crate::library::{Answer, Bits, Listed, Listing};
use crate::survivors;
use crate::tally;
use std::cmp::Ordering;

/// What an accepted listing is counted under, after the grounds of calls on survivors: there is nothing to list, all is
/// written, or some, or none for lack of room; of the last two, which output holds fewer entries than the other.
const NOTHING: u32 = survivors::GROUNDS.len() as u32;
const ALL_WRITTEN: u32 = NOTHING + 1;
const SOME_WRITTEN: u32 = ALL_WRITTEN + 1;
const NONE_WRITTEN: u32 = SOME_WRITTEN + 3;

const OTHERS: [&str; 8] = [
    "accepted, nothing to list:",
    "accepted, all written:",
    "accepted, some written, fewer choices held:",
    "accepted, some written, fewer payoffs held:",
    "accepted, some written, as many held of both:",
    "accepted, none written, no choices held:",
    "accepted, none written, no payoffs held:",
    "accepted, none written, neither held:",
];

pub const GROUNDS: [&str; survivors::GROUNDS.len() + OTHERS.len()] =
    tally::after(&survivors::GROUNDS, &OTHERS);

/// The grounds that a listing has with the Rust: those of what is accepted, and the Rust's refusals of a table.
pub fn with_rust() -> Vec<u32> {
    tally::from(NOTHING, &GROUNDS, &[1, 3, 6, 7])
}

/// The grounds that one from marks has without it: those of what is accepted, and that there are too few marks.
pub fn without_rust() -> Vec<u32> {
    tally::from(NOTHING, &GROUNDS, &[document::SHORT])
}

/// The answer of a listing on a table of so many players into outputs of these lengths, and its ground, by the list of
/// all or the ground of a refusal: the first ones that both outputs hold whole.
pub fn answer(
    listing: Result<&Listing<Bits>, u32>,
    players: usize,
    lengths: [usize; 2],
) -> (u32, Answer<Listed>) {
    let listing = match listing {
        Ok(listing) => listing,
        Err(ground) => return (ground, Answer::Refused(survivors::refusal(ground))),
    };
    let held = lengths.map(|length| length / players);
    let total = listing.number;
    let number = total.min(held[0]).min(held[1]);
    let written = Listing {
        number,
        first: listing.first[..number * players].to_vec(),
        second: listing.second[..number * players].to_vec(),
    };
    let fewer = match held[0].cmp(&held[1]) {
        Ordering::Less => 0,
        Ordering::Greater => 1,
        Ordering::Equal => 2,
    };
    let ground = match number {
        _ if total == 0 => NOTHING,
        _ if number == total => ALL_WRITTEN,
        0 => NONE_WRITTEN + fewer,
        _ => SOME_WRITTEN + fewer,
    };
    (ground, Answer::Accepted(Listed { total, written }))
}

/// How many entries a list has; where it is refused, as many as lengths shall be around.
pub fn total(listing: Result<&Listing<Bits>, u32>) -> usize {
    listing.map_or(1, |listing| listing.number)
}

/// Every pair of lengths next to those that hold no entry, one and all of them: 0, 1, P - 1, P, P + 1, n × P - 1, n × P
/// and n × P + 1; and of others.
pub fn pairs(players: usize, total: usize, others: &[usize]) -> Vec<[usize; 2]> {
    let whole = [0, players, total * players];
    let around = whole.map(|length| [length.saturating_sub(1), length, length + 1]);
    let mut lengths = [&around.concat()[..], others].concat();
    lengths.sort_unstable();
    lengths.dedup();
    let firsts = lengths.iter();
    firsts
        .flat_map(|first| lengths.iter().map(|second| [*first, *second]))
        .collect()
}

/// How many pairs of lengths are tried: all of them, on each small table; some, on larger ones.
pub const EVERY: usize = usize::MAX;
pub const SOME: usize = 6;

/// The lengths that are tried: every pair, with another length drawn, up to more than twice as long as all need; or so
/// many of these pairs drawn, and as many of four: that hold all exactly, one element less in either, and empty.
pub fn drawn(random: &mut Random, players: usize, total: usize, most: usize) -> Vec<[usize; 2]> {
    let other = random.below(2 * (total + 1) * players + 1);
    let pairs = pairs(players, total, &[other]);
    if pairs.len() <= most {
        return pairs;
    }
    let places = random.places(most, pairs.len());
    let drawn = places.iter().map(|place| pairs[*place]);
    let all = total * players;
    let less = all.saturating_sub(1);
    let four = [[all, all], [less, all], [all, less], [0, 0]];
    drawn.chain(four.into_iter().take(most)).collect()
}
