//! Where the cases come from: a generator with a fixed seed, values of every class, shapes around every limit.

use crate::document::{self, CELLS, PLAYERS, STRATEGIES};

/// Finite values by their bits: both zeros, subnormals, the smallest and the largest normal, ones and their neighbours.
pub const FINITE: [u64; 16] = [
    0x0000_0000_0000_0000,
    0x8000_0000_0000_0000,
    0x0000_0000_0000_0001,
    0x8000_0000_0000_0001,
    0x000f_ffff_ffff_ffff,
    0x800f_ffff_ffff_ffff,
    0x0010_0000_0000_0000,
    0x8010_0000_0000_0000,
    0x7fef_ffff_ffff_ffff,
    0xffef_ffff_ffff_ffff,
    0x3ff0_0000_0000_0000,
    0xbff0_0000_0000_0000,
    0x3fef_ffff_ffff_ffff,
    0x3ff0_0000_0000_0001,
    0x4330_0000_0000_0000,
    0xc008_0000_0000_0000,
];

/// Both infinities, and NaNs of both kinds and several payloads.
pub const NON_FINITE: [u64; 10] = [
    0x7ff0_0000_0000_0000,
    0xfff0_0000_0000_0000,
    0x7ff8_0000_0000_0000,
    0xfff8_0000_0000_0000,
    0x7ff0_0000_0000_0001,
    0xfff0_0000_0000_0001,
    0x7fff_ffff_ffff_ffff,
    0xffff_ffff_ffff_ffff,
    0x7ff7_ffff_ffff_ffff,
    0xfff8_0000_dead_beef,
];

/// Few values, with both zeros.
pub const VALUES: [f64; 4] = [-1.0, -0.0, 0.0, 1.0];

/// splitmix64.
pub struct Random(pub u64);

impl Random {
    pub fn word(&mut self) -> u64 {
        self.0 = self.0.wrapping_add(0x9e37_79b9_7f4a_7c15);
        let mut word = self.0;
        word = (word ^ word >> 30).wrapping_mul(0xbf58_476d_1ce4_e5b9);
        word = (word ^ word >> 27).wrapping_mul(0x94d0_49bb_1331_11eb);
        word ^ word >> 31
    }

    pub fn below(&mut self, limit: usize) -> usize {
        (self.word() % limit as u64) as usize
    }

    pub fn pick<T: Copy>(&mut self, values: &[T]) -> T {
        values[self.below(values.len())]
    }

    pub fn finite(&mut self) -> f64 {
        let word = self.word();
        f64::from_bits(match self.below(4) {
            0 => self.pick(&FINITE),
            1 => (self.below(9) as f64 - 4.0).to_bits(),
            2 => word & 0x800f_ffff_ffff_ffff,
            _ if word >> 52 & 0x7ff == 0x7ff => word & !(1 << 62),
            _ => word,
        })
    }

    /// A number from 0 up to 1, which it isn't.
    pub fn unit(&mut self) -> f64 {
        (self.word() >> 11) as f64 / (1u64 << 53) as f64
    }

    /// So many different numbers below a limit.
    pub fn places(&mut self, number: usize, limit: usize) -> Vec<usize> {
        let mut places: Vec<usize> = (0..limit).collect();
        for place in 0..number {
            places.swap(place, place + self.below(limit - place));
        }
        places.truncate(number);
        places
    }

    pub fn non_finite(&mut self) -> f64 {
        f64::from_bits(match self.below(2) {
            0 => self.pick(&NON_FINITE),
            _ => self.word() | 0x7ff0_0000_0000_0000,
        })
    }

    /// Counts that are accepted, of at most so many cells: from all of 1 to as large as there is room for.
    pub fn shape(&mut self, cells: usize, strategies: usize) -> Vec<usize> {
        let players = 1 + self.below(PLAYERS.min(cells));
        let mut room = cells / players;
        let mut counts = vec![1; players];
        let first = self.below(players);
        for step in 0..players {
            let largest = room.min(strategies);
            let count = match self.below(5) {
                0 => 1,
                1 => largest,
                2 => 1 + self.below(largest),
                _ => 1 + self.below(largest.min(4)),
            };
            counts[(first + step) % players] = count;
            room /= count;
        }
        counts
    }

    /// Any counts: 0, small, around the limits, or any number, and up to two more of them than players allowed.
    pub fn counts(&mut self) -> Vec<usize> {
        let length = self.below(PLAYERS + 3);
        let style = self.below(4);
        (0..length)
            .map(|_| match style {
                0 => self.below(3),
                1 => 1 + self.below(STRATEGIES + 1),
                2 => self.number(),
                _ => match self.below(12) {
                    0 => self.number(),
                    _ => 1 + self.below(3),
                },
            })
            .collect()
    }

    /// A number that is 0, small, around a limit, or anything.
    pub fn number(&mut self) -> usize {
        match self.below(4) {
            0 => self.below(4),
            1 => self.pick(&EDGES),
            2 => self.word() as usize >> self.below(64),
            _ => self.word() as usize,
        }
    }

    /// A profile of the counts.
    pub fn profile(&mut self, counts: &[usize]) -> Vec<usize> {
        counts
            .iter()
            .map(|count| match self.below(4) {
                0 => 0,
                1 => count - 1,
                _ => self.below(*count),
            })
            .collect()
    }

    /// A profile to refuse: one choice too few or too many, a choice at or past its count, or anything.
    pub fn bad_profile(&mut self, counts: &[usize]) -> Vec<usize> {
        let mut profile = self.profile(counts);
        match self.below(6) {
            0 => drop(profile.pop()),
            1 => profile.push(0),
            2 => {
                profile = (0..self.below(PLAYERS + 3))
                    .map(|_| self.word() as usize >> self.below(64))
                    .collect()
            }
            wild => {
                let player = self.below(counts.len());
                profile[player] = if wild == 3 {
                    usize::MAX
                } else {
                    counts[player]
                };
            }
        }
        profile
    }

    /// Anything for counts, payoffs and profile.
    pub fn junk(&mut self) -> (Vec<usize>, Vec<f64>, Vec<usize>) {
        let counts = self.counts();
        let length = match self.below(3) {
            0 => self.below(40),
            _ => document::cells(&counts).min(600) as usize,
        };
        let mut payoffs: Vec<f64> = (0..length).map(|_| self.finite()).collect();
        if length > 0 && self.below(4) == 0 {
            let place = self.below(length);
            payoffs[place] = self.non_finite();
        }
        let places = match self.below(3) {
            0 => self.below(PLAYERS + 3),
            _ => counts.len(),
        };
        let profile = (0..places).map(|_| self.number()).collect();
        (counts, payoffs, profile)
    }

    /// Payoffs of accepted counts with something to find in them: few values; specials; any; neighbours of one value,
    /// of either sign; one value; a player's own choice, alone or with anything below it, up or down, and one cell of
    /// another value.
    pub fn payoffs(&mut self, counts: &[usize]) -> Vec<f64> {
        let cells = document::cells(counts) as usize;
        let style = self.below(8);
        let one = self.finite();
        if style < 5 {
            return (0..cells)
                .map(|_| match style {
                    0 => self.pick(&VALUES),
                    1 => f64::from_bits(self.pick(&FINITE)),
                    2 => self.finite(),
                    3 => {
                        let size = one.abs().to_bits().saturating_sub(self.word() % 3);
                        f64::from_bits(size | self.word() << 63)
                    }
                    _ => one,
                })
                .collect();
        }
        let mut payoffs = own_choices(counts);
        for payoff in &mut payoffs {
            match style {
                5 => *payoff += self.below(8) as f64 / 8.0,
                6 => *payoff = -*payoff,
                _ => (),
            }
        }
        if self.below(2) == 0 {
            let place = self.below(cells);
            payoffs[place] = self.pick(&VALUES);
        }
        payoffs
    }
}

/// Numbers around every limit.
pub const EDGES: [usize; 18] = [
    0,
    1,
    2,
    3,
    PLAYERS - 1,
    PLAYERS,
    PLAYERS + 1,
    STRATEGIES / 2,
    STRATEGIES - 1,
    STRATEGIES,
    STRATEGIES + 1,
    2 * STRATEGIES,
    CELLS - 1,
    CELLS,
    CELLS + 1,
    1 << 32,
    usize::MAX - 1,
    usize::MAX,
];

/// Every list of so many of the values.
pub fn lists(values: &[usize], length: usize) -> impl Iterator<Item = Vec<usize>> + '_ {
    (0..values.len().pow(length as u32)).map(move |number| {
        let mut rest = number;
        (0..length)
            .map(|_| {
                let value = values[rest % values.len()];
                rest /= values.len();
                value
            })
            .collect()
    })
}

/// Every profile of the counts, the last player's choice running fastest.
pub fn profiles(counts: &[usize]) -> impl Iterator<Item = Vec<usize>> + '_ {
    (0..counts.iter().product()).map(move |place| {
        let mut rest: usize = place;
        let mut profile = counts.to_vec();
        for count in profile.iter_mut().rev() {
            let choice = rest % *count;
            rest /= *count;
            *count = choice;
        }
        profile
    })
}

/// The table that pays each player the number of its own choice: every strategy but the last is dominated by the next.
pub fn own_choices(counts: &[usize]) -> Vec<f64> {
    profiles(counts)
        .flatten()
        .map(|choice| choice as f64)
        .collect()
}

/// The table whose strategies become dominated one after the other: a player's strategy s is a best response until the
/// next player's s is struck, and the last player's until the first player's s - 1 is; then the strategy after it
/// dominates it.
pub fn chain(counts: &[usize]) -> Vec<f64> {
    let payoff = |profile: &[usize], player: usize| {
        let reach = match profile.get(player + 1) {
            Some(next) => *next,
            None => profile[0] + 1,
        };
        if profile[player] <= reach {
            profile[player] as f64
        } else {
            -1.0
        }
    };
    let players = 0..counts.len();
    profiles(counts)
        .flat_map(|profile| players.clone().map(move |player| payoff(&profile, player)))
        .collect()
}

/// Every way to give some cells of a shape a value of one of the classes; the other cells are random.
pub struct Filling {
    pub counts: Vec<usize>,
    cells: Vec<usize>,
    classes: Vec<Vec<f64>>,
}

impl Filling {
    /// How many ways there are.
    pub fn number(&self) -> usize {
        self.classes.len().pow(self.cells.len() as u32)
    }

    pub fn fill(&self, random: &mut Random, payoffs: &mut Vec<f64>, number: usize) {
        payoffs.resize(document::cells(&self.counts) as usize, 0.0);
        payoffs.fill_with(|| random.pick(&VALUES));
        let mut rest = number;
        for cell in &self.cells {
            payoffs[*cell] = random.pick(&self.classes[rest % self.classes.len()]);
            rest /= self.classes.len();
        }
    }
}

/// Every table of every shape of at most so many cells over four values.
pub fn small_fillings(cells: usize) -> Vec<Filling> {
    let classes = VALUES.map(|value| vec![value]).to_vec();
    small_shapes(cells)
        .into_iter()
        .map(|counts| whole_filling(&counts, &classes))
        .collect()
}

/// Every 2×3 and 3×2 table over three values, and every 3×3 table over two, a zero being of either sign. Every 3×3 and
/// 2×2×2 table over four values as far as one player's payoffs go, on which alone its best responses and dominated
/// strategies depend; the others' are random.
pub fn larger_fillings() -> Vec<Filling> {
    let zeros = vec![-0.0, 0.0];
    let three = [vec![-1.0], zeros.clone(), vec![1.0]];
    let mut fillings = vec![
        whole_filling(&[2, 3], &three),
        whole_filling(&[3, 2], &three),
        whole_filling(&[3, 3], &[zeros, vec![1.0]]),
    ];
    for counts in [&[3, 3][..], &[2, 2, 2]] {
        for player in 0..counts.len() {
            let classes = VALUES.map(|value| vec![value]);
            let mut filling = whole_filling(counts, &classes);
            filling.cells.retain(|cell| cell % counts.len() == player);
            fillings.push(filling);
        }
    }
    fillings
}

fn whole_filling(counts: &[usize], classes: &[Vec<f64>]) -> Filling {
    Filling {
        counts: counts.to_vec(),
        cells: (0..document::cells(counts) as usize).collect(),
        classes: classes.to_vec(),
    }
}

/// The list without what stands at one place.
pub fn without(list: &[usize], place: usize) -> Vec<usize> {
    let mut rest = list.to_vec();
    rest.remove(place);
    rest
}

/// Every accepted shape of at most so many cells.
pub fn small_shapes(cells: usize) -> Vec<Vec<usize>> {
    (1..=PLAYERS.min(cells))
        .flat_map(|players| {
            let values: Vec<usize> = (1..=(cells / players).min(STRATEGIES)).collect();
            lists(&values, players)
                .filter(|counts| players * counts.iter().product::<usize>() <= cells)
                .collect::<Vec<_>>()
        })
        .collect()
}

/// Counts of the most profiles that a table can have, 21,840.
pub const MOST_PROFILES: [usize; 3] = [26, 28, 30];

/// The most profiles that a table can have, by trying all counts that ascend.
pub fn most_profiles() -> usize {
    fn most(players: usize, low: usize, profiles: usize, room: usize) -> usize {
        if players == 0 {
            return profiles;
        }
        let counts =
            (low..=STRATEGIES).take_while(|count| profiles * count.pow(players as u32) <= room);
        let each = counts.map(|count| most(players - 1, count, profiles * count, room));
        each.max().unwrap_or(0)
    }
    let each = (1..=PLAYERS).map(|players| most(players, 1, 1, CELLS / players));
    each.max().unwrap_or(0)
}

/// Shapes at the limits: as many players, strategies and cells as can be.
pub fn large_shapes() -> Vec<Vec<usize>> {
    let mut shapes = vec![
        vec![STRATEGIES],
        vec![STRATEGIES; 2],
        vec![1; PLAYERS],
        vec![2; PLAYERS],
        vec![8, 8, 16, 16],
        vec![16, 16, 16],
        vec![4; 6],
    ];
    for players in 1..=PLAYERS {
        let mut room = CELLS / players;
        let mut counts = vec![1; players];
        for count in &mut counts {
            *count = room.min(STRATEGIES);
            room /= *count;
        }
        shapes.push(counts.iter().rev().copied().collect());
        shapes.push(counts);
    }
    shapes
}

/// Shapes of a few cells too many, and no other fault.
pub fn over_shapes() -> Vec<Vec<usize>> {
    large_shapes()
        .iter()
        .flat_map(|shape| neighbours(shape))
        .filter(|counts| document::space_refusal(counts) == document::MANY_CELLS)
        .collect()
}

/// Each shape with one count one less and one more.
pub fn neighbours(shape: &[usize]) -> Vec<Vec<usize>> {
    let mut shapes = vec![shape.to_vec()];
    for player in 0..shape.len() {
        for count in [shape[player] - 1, shape[player] + 1] {
            let mut changed = shape.to_vec();
            changed[player] = count;
            shapes.push(changed);
        }
    }
    shapes
}
