//! Where the cases of the catalogue come from.

use crate::cases::{self, Filling, Random};
use crate::catalogue::{self, Catalogue, Ranks, COUNTS, NUMBERS, SWAPS};
use crate::document::{self, CELLS, PLAYERS, STRATEGIES};
use crate::solvers;
use crate::tally::sure;

/// Shapes that are not 2×2: with fewer or more strategies, with as many cells, with 2×2 and a player of one strategy.
const OTHERS: [&[usize]; 20] = [
    &[2],
    &[4],
    &[8],
    &[1, 1],
    &[1, 2],
    &[2, 1],
    &[1, 4],
    &[4, 1],
    &[2, 3],
    &[3, 2],
    &[3, 3],
    &[2, STRATEGIES],
    &[STRATEGIES, 2],
    &[2, 2, 1],
    &[2, 1, 2],
    &[1, 2, 2],
    &[2, 2, 2],
    &[2, 2, 1, 1],
    &[1, 1, 1, 2],
    &[2, 2, 1, 1, 1, 1, 1, 1],
];

pub fn run(catalogue: &mut Catalogue) {
    let mut random = Random(13);
    known(catalogue);
    for filling in cases::small_fillings(8) {
        every_table(catalogue, &mut random, &filling);
    }
    let ranked = every_ranked(catalogue);
    for _ in 0..800 {
        for (ranks, number) in &ranked {
            drawn(catalogue, &mut random, ranks, *number);
        }
    }
    for _ in 0..200_000 {
        tied(catalogue, &mut random);
        catalogue.number(&COUNTS, &random.payoffs(&COUNTS));
    }
    for _ in 0..100_000 {
        spoiled(catalogue, &mut random);
    }
    for _ in 0..200 {
        for faults in 0..1 << document::TABLE_FAULTS.len() {
            let (counts, payoffs) = solvers::faulty_table(&mut random, faults);
            catalogue.number(&counts, &payoffs);
        }
    }
    for _ in 0..4_000 {
        for counts in OTHERS {
            catalogue.number(counts, &random.payoffs(counts));
        }
    }
    for turn in 0..8_000 {
        let cells = if turn % 80 == 0 { CELLS } else { 256 };
        let shape = random.shape(cells, STRATEGIES);
        table(catalogue, &mut random, &shape);
    }
    for shape in cases::large_shapes() {
        for counts in cases::neighbours(&shape) {
            limit(catalogue, &mut random, &counts);
        }
    }
    for _ in 0..100_000 {
        let (counts, payoffs, _) = random.junk();
        catalogue.number(&counts, &payoffs);
    }
}

/// Document 01's first game.
fn known(catalogue: &mut Catalogue) {
    let payoffs = [2.0, 2.0, 0.0, 3.0, 3.0, 0.0, 1.0, 1.0];
    let number = catalogue.number(&COUNTS, &payoffs);
    sure(
        catalogue.keys.len() == NUMBERS && catalogue.keys[71] == 10_212 && number == Some(71),
        "a game whose number is known has another",
    );
}

/// Every table of a filling.
fn every_table(catalogue: &mut Catalogue, random: &mut Random, filling: &Filling) {
    let mut payoffs = Vec::new();
    for number in 0..filling.number() {
        filling.fill(random, &mut payoffs, number);
        catalogue.number(&filling.counts, &payoffs);
    }
}

/// Every strictly ranked table with its ranks for payoffs, and its number: two have the same one exactly where they are
/// swaps of each other.
fn every_ranked(catalogue: &mut Catalogue) -> Vec<(Ranks, usize)> {
    let ranked: Vec<(Ranks, usize)> = catalogue::every_ranks()
        .into_iter()
        .map(|ranks| {
            let payoffs = ranks.map(|own| own.map(|rank| rank as f64));
            (ranks, catalogue.number(&COUNTS, &cells(payoffs)).unwrap())
        })
        .collect();
    for (ranks, number) in &ranked {
        let swaps = SWAPS.map(|swap| catalogue::swapped(ranks, swap));
        let same = |(other, told): &(Ranks, usize)| (told == number) == swaps.contains(other);
        sure(
            ranked.iter().all(same),
            "swaps have two numbers, or others one",
        );
    }
    ranked
}

/// The table's cells, from each player's payoffs at the four profiles.
pub fn cells([first, second]: [[f64; 4]; 2]) -> Vec<f64> {
    let pairs = std::iter::zip(first, second);
    pairs.flat_map(|(first, second)| [first, second]).collect()
}

/// Payoffs in the order of the ranks.
pub fn ranked(random: &mut Random, ranks: &Ranks) -> [[f64; 4]; 2] {
    ranks.map(|own| {
        let ascending = ascending(random);
        own.map(|rank| ascending[rank])
    })
}

/// A table with payoffs in the order of the ranks, and its swaps: each has the number of the ranks.
fn drawn(catalogue: &mut Catalogue, random: &mut Random, ranks: &Ranks, number: usize) {
    let payoffs = ranked(random, ranks);
    for swap in SWAPS {
        let payoffs = payoffs.map(|own| swap.map(|profile| own[profile]));
        sure(
            catalogue.number(&COUNTS, &cells(payoffs)) == Some(number),
            "a table has another number than its ranks",
        );
    }
}

/// Four different finite numbers, ascending: any, special ones, neighbours, two with both signs.
fn ascending(random: &mut Random) -> [f64; 4] {
    loop {
        let (one, another) = (random.finite(), random.finite());
        let mut four = match random.below(4) {
            0 => [one, another, random.finite(), random.finite()],
            1 => [0; 4].map(|_| f64::from_bits(random.pick(&cases::FINITE))),
            2 => neighbours(random, one),
            _ => {
                let another = random.pick(&[another, one.next_up()]);
                [one, -one, another, -another]
            }
        };
        four.sort_by(f64::total_cmp);
        let finite = four.iter().all(|number| number.is_finite());
        if finite && four.windows(2).all(|pair| pair[0] < pair[1]) {
            return four;
        }
    }
}

/// Numbers a step or two from one another, up or down.
fn neighbours(random: &mut Random, first: f64) -> [f64; 4] {
    let step = random.pick(&[f64::next_up, f64::next_down]);
    let mut next = first;
    [0; 4].map(|_| {
        let number = next;
        next = step(next);
        if random.below(2) == 0 {
            next = step(next);
        }
        number
    })
}

/// A table of which each player's payoffs have no tie, a payoff that comes more than once, or both zeros.
fn tied(catalogue: &mut Catalogue, random: &mut Random) {
    let payoffs = [0; 2].map(|_| {
        let mut own = ascending(random);
        match random.below(3) {
            0 => (),
            1 => {
                for _ in 0..1 + random.below(3) {
                    let place = random.below(4);
                    own[place] = own[(place + 1 + random.below(3)) % 4];
                }
            }
            _ => {
                while own.contains(&0.0) {
                    own = ascending(random);
                }
                own[..2].copy_from_slice(&[0.0, -0.0]);
            }
        }
        let places = random.places(4, 4);
        [0, 1, 2, 3].map(|place: usize| own[places[place]])
    });
    catalogue.number(&COUNTS, &cells(payoffs));
}

/// A strictly ranked table that is refused, by changes of its payoffs, of its counts or of both.
fn spoiled(catalogue: &mut Catalogue, random: &mut Random) {
    let mut payoffs = cells([0; 2].map(|_| ascending(random)));
    let mut counts = COUNTS.to_vec();
    let changes = 1 + random.below(7);
    if changes & 1 != 0 {
        let place = random.below(payoffs.len());
        payoffs[place] = random.non_finite();
    }
    if changes & 2 != 0 {
        let length = random.pick(&[0, 4, 7, 9, 16]);
        payoffs.resize_with(length, || random.finite());
    }
    if changes & 4 != 0 {
        let wrong = random.pick(&[0, STRATEGIES + 1, 2 + (1 << 32), usize::MAX]);
        match random.below(4) {
            0 => counts.clear(),
            1 => counts.resize(PLAYERS + 1, random.pick(&[1, 2, wrong])),
            2 => counts = vec![wrong, random.pick(&[0, 2, STRATEGIES + 1])],
            _ => counts[1] = wrong,
        }
    }
    catalogue.number(&counts, &payoffs);
}

/// A random table, and the same with a payoff that isn't finite.
fn table(catalogue: &mut Catalogue, random: &mut Random, counts: &[usize]) {
    let mut payoffs = random.payoffs(counts);
    catalogue.number(counts, &payoffs);
    let place = random.below(payoffs.len());
    payoffs[place] = random.non_finite();
    catalogue.number(counts, &payoffs);
}

/// A table at a limit, or one past it, with all of its payoffs, with one fewer, and with a last one that isn't finite.
fn limit(catalogue: &mut Catalogue, random: &mut Random, counts: &[usize]) {
    let cells = document::cells(counts).min(2 * CELLS as u128) as usize;
    let mut payoffs: Vec<f64> = (0..cells).map(|_| random.finite()).collect();
    catalogue.number(counts, &payoffs);
    catalogue.number(counts, &payoffs[..cells.saturating_sub(1)]);
    if let Some(last) = payoffs.last_mut() {
        *last = random.non_finite();
        catalogue.number(counts, &payoffs);
    }
}
