//! Document 01's survivors, strikes and equilibria, and change N3's marks of best responses, written from their text
//! alone: the sets of strategies that are left, and every profile of them. The judge where the Rust is none, and a second
//! one beside it.

use crate::document::{self, PLAYERS, STRATEGIES};
use crate::library::{Bits, Listing, Survivors, MARKS};
use crate::tally::{self, STATUSES};

/// The strategies of each player that are left, ascending.
pub type Left = Vec<Vec<usize>>;

type Profile = [usize; PLAYERS];

/// What an answer rests on: a refusal's number where it has one ground, else one of these.
pub const FOREIGN_PLAYERS: u32 = document::FOREIGN;
pub const FOREIGN_COUNT: u32 = FOREIGN_PLAYERS + 1;
pub const NO_MARK: u32 = FOREIGN_COUNT + PLAYERS as u32;
pub const MARK_PAST: u32 = NO_MARK + 1;
pub const MARK_BEYOND: u32 = MARK_PAST + 1;
pub const SEVERAL: u32 = MARK_BEYOND + 1;
pub const STRUCK: u32 = SEVERAL + 1;

/// What the grounds after those of the statuses are called.
const OTHERS: [&str; STRUCK as usize + 1 - STATUSES.len()] = [
    "refused by 14, not below its count:",
    "refused by 15:",
    "refused by 16, P alone:",
    "refused by 16, count 0 alone:",
    "refused by 16, count 1 alone:",
    "refused by 16, count 2 alone:",
    "refused by 16, count 3 alone:",
    "refused by 16, count 4 alone:",
    "refused by 16, count 5 alone:",
    "refused by 16, count 6 alone:",
    "refused by 16, count 7 alone:",
    "refused by 16, a player without a mark alone:",
    "refused by 16, a mark at or past a count alone:",
    "refused by 16, a mark of a player from P on alone:",
    "refused by 16, several causes:",
    "refused by 14, struck:",
];

pub const GROUNDS: [&str; STATUSES.len() + OTHERS.len()] = tally::after(&STATUSES, &OTHERS);

/// The number of the refusal that has the ground.
pub fn refusal(ground: u32) -> u32 {
    match ground {
        STRUCK => document::GONE,
        FOREIGN_PLAYERS.. => document::FOREIGN,
        _ => ground,
    }
}

/// Every strategy of the counts.
pub fn all(counts: &[usize]) -> Left {
    counts.iter().map(|count| (0..*count).collect()).collect()
}

/// The record of what is left.
pub fn record(counts: &[usize], left: &Left) -> Survivors {
    let mut survivors = Survivors {
        players: counts.len(),
        counts: [0; PLAYERS],
        marks: [0; MARKS],
    };
    survivors.counts[..counts.len()].copy_from_slice(counts);
    for (player, strategies) in left.iter().enumerate() {
        for strategy in strategies {
            survivors.marks[player * STRATEGIES + strategy] = 1;
        }
    }
    survivors
}

/// What is left by a record that is not foreign.
pub fn left(survivors: &Survivors) -> Left {
    (0..survivors.players)
        .map(|player| survivors.marked(player))
        .collect()
}

/// The ground on which survivors are foreign to the counts of a table, if any.
pub fn foreign(counts: &[usize], survivors: &Survivors) -> Option<u32> {
    let mut causes = Vec::new();
    if survivors.players != counts.len() {
        causes.push(FOREIGN_PLAYERS);
    }
    for player in 0..PLAYERS {
        let count = counts.get(player).copied();
        if survivors.counts[player] != count.unwrap_or(0) {
            causes.push(FOREIGN_COUNT + player as u32);
        }
        let last = survivors.marked(player).pop();
        match (count, last) {
            (Some(_), None) => causes.push(NO_MARK),
            (Some(count), Some(last)) if last >= count => causes.push(MARK_PAST),
            (None, Some(_)) => causes.push(MARK_BEYOND),
            _ => (),
        }
    }
    match causes[..] {
        [] => None,
        [cause] => Some(cause),
        _ => Some(SEVERAL),
    }
}

/// A table that is accepted.
#[derive(Clone, Copy)]
pub struct Game<'a> {
    pub counts: &'a [usize],
    pub payoffs: &'a [f64],
}

impl Game<'_> {
    /// The payoffs of a profile.
    pub fn at(&self, profile: &[usize]) -> &[f64] {
        &self.payoffs[self.place(profile)..][..self.counts.len()]
    }

    /// The place of the first one.
    fn place(&self, profile: &[usize]) -> usize {
        let choices = std::iter::zip(self.counts, profile);
        let offset = choices.fold(0, |offset, (count, choice)| offset * count + choice);
        offset * self.counts.len()
    }

    /// The order key of a player's payoff.
    fn key(&self, profile: &Profile, player: usize) -> i64 {
        let bits = self.payoffs[self.place(profile) + player].to_bits();
        match bits.checked_sub(1 << 63) {
            None => bits as i64,
            Some(size) => -(size as i64),
        }
    }

    /// The dominator of a strategy that is struck, or the ground of the refusal: 8, 14 (not below its count, or
    /// struck), 15.
    pub fn strike(&self, left: &Left, player: usize, strategy: usize) -> Result<usize, u32> {
        if player >= self.counts.len() {
            return Err(document::PLAYER);
        }
        if strategy >= self.counts[player] {
            return Err(document::GONE);
        }
        if !left[player].contains(&strategy) {
            return Err(STRUCK);
        }
        let mut against = left.clone();
        against[player] = vec![strategy];
        let dominates = |other: usize| {
            every(&against, |profile| {
                let mut changed = *profile;
                changed[player] = other;
                self.key(&changed, player) > self.key(profile, player)
            })
        };
        let mut others = left[player].iter().filter(|other| **other != strategy);
        let lowest = others.find(|other| dominates(**other));
        lowest.copied().ok_or(document::NOT_DOMINATED)
    }

    /// Whether the player's choice is a best response: no change to what is left gains.
    fn best(&self, left: &Left, profile: &Profile, player: usize) -> bool {
        let key = self.key(profile, player);
        let mut changed = *profile;
        left[player].iter().all(|other| {
            changed[player] = *other;
            self.key(&changed, player) <= key
        })
    }

    /// The profiles of what is left where each choice is a best response.
    pub fn equilibria(&self, left: &Left) -> Listing<Bits> {
        let players = 0..self.counts.len();
        self.listed(left, |profile| {
            players
                .clone()
                .all(|player| self.best(left, profile, player))
        })
    }

    /// The profiles of what is left that pass a test, in order.
    fn listed(&self, left: &Left, test: impl Fn(&Profile) -> bool) -> Listing<Bits> {
        let mut listing = Listing {
            number: 0,
            first: Vec::new(),
            second: Vec::new(),
        };
        every(left, |profile| {
            if test(profile) {
                listing.number += 1;
                listing.first.extend(&profile[..self.counts.len()]);
                let payoffs = self.at(profile).iter().copied();
                listing.second.extend(payoffs.map(Bits::of));
            }
            true
        });
        listing
    }

    /// A mark for each cell: 1 where the profile's choice is a best response of that player, else 0.
    pub fn marks(&self) -> Vec<u8> {
        let every_strategy = all(self.counts);
        let mut marks = Vec::with_capacity(self.payoffs.len());
        every(&every_strategy, |profile| {
            let players = 0..self.counts.len();
            let best = players.map(|player| self.best(&every_strategy, profile, player));
            marks.extend(best.map(u8::from));
            true
        });
        marks
    }

    /// The profiles that have no 0 among their P marks.
    pub fn marked(&self, marks: &[u8]) -> Listing<Bits> {
        self.listed(&all(self.counts), |profile| {
            let own = &marks[self.place(profile)..][..self.counts.len()];
            !own.contains(&0)
        })
    }

    /// The counts and the payoffs of the table that has only what is left.
    pub fn reduced(&self, left: &Left) -> (Vec<usize>, Vec<f64>) {
        let counts: Vec<usize> = left.iter().map(Vec::len).collect();
        let mut payoffs = Vec::with_capacity(counts.iter().product::<usize>() * counts.len());
        every(left, |profile| {
            payoffs.extend_from_slice(self.at(profile));
            true
        });
        (counts, payoffs)
    }
}

/// Whether every profile of the lists, in order, passes a test; it is left at the first that does not.
fn every(lists: &Left, mut test: impl FnMut(&Profile) -> bool) -> bool {
    let mut places = [0; PLAYERS];
    let mut profile = [0; PLAYERS];
    for (choice, list) in profile.iter_mut().zip(lists) {
        *choice = list[0];
    }
    loop {
        if !test(&profile) {
            return false;
        }
        let mut player = lists.len();
        loop {
            if player == 0 {
                return true;
            }
            player -= 1;
            places[player] = (places[player] + 1) % lists[player].len();
            profile[player] = lists[player][places[player]];
            if places[player] != 0 {
                break;
            }
        }
    }
}
