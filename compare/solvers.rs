//! The comparison of best responses, equilibria and strict dominance.

use crate::cases::{self, Filling, Random};
use crate::document::{self, CELLS, PLAYERS, STRATEGIES};
use crate::library::{self, Answer, Bits, Listing, Lists, Records};
use crate::listings;
use crate::rust::Judged;
use crate::strikes::LEAST;
use crate::tally::{floats, numbers, Judge, Tally};

/// The lengths of two outputs, each by how much longer it is than the list needs.
pub type Room = [isize; 2];

pub const EMPTY: isize = isize::MIN;

/// Exactly full and longer.
pub const ENOUGH: [Room; 4] = [[0, 0], [1, 0], [0, 1], [2, 5]];

/// Too short, where anything is listed: either output or both, by one or wholly.
pub const SHORT: [Room; 8] = [
    [-1, 0],
    [0, -1],
    [-1, -1],
    [-1, 4],
    [4, -1],
    [EMPTY, 0],
    [0, EMPTY],
    [EMPTY, EMPTY],
];

pub struct Solvers {
    pub responses: Tally,
    pub records: Tally,
    pub equilibrium: Tally,
    pub equilibria: Tally,
    pub dominated: Tally,
    /// For the lengths of the outputs of equilibria.
    lengths: Random,
}

impl Solvers {
    /// Both lists of best responses: into two outputs, and as records into one of each length that the first one has.
    fn responses(&mut self, judged: &Judged, player: usize, opponents: &[usize], rooms: &[Room]) {
        let listing = judged.best_responses(player, opponents);
        let input = || numbers("player", &[player]) + &numbers("opponents", opponents);
        let (counts, payoffs) = (judged.counts, judged.payoffs);
        lists(
            &mut self.responses,
            judged,
            input,
            &listing,
            rooms,
            |lists| {
                let status = library::best_responses(counts, payoffs, player, opponents, lists);
                lists.answer(status, 1, Bits)
            },
        );
        let of_first = |room: &Room| lengths(&listing, *room)[0];
        let mut lent: Vec<usize> = rooms.iter().map(of_first).collect();
        lent.sort_unstable();
        lent.dedup();
        for length in lent {
            let (by, judge) = judged.lent(&listing, [length; 2]);
            let mut records = Records::fresh(length);
            let status =
                library::best_response_records(counts, payoffs, player, opponents, &mut records);
            let input = || table(judged) + &input() + &numbers("length", &[length]);
            self.records
                .compare(by, input, judge, records.answer(status));
        }
    }

    fn equilibrium(&mut self, judged: &Judged, profile: &[usize]) {
        let judge = judged.is_equilibrium(profile);
        let by = match judge {
            Answer::Refused(document::CHOICE_COUNT | document::CHOICE) => Judge::Panics,
            _ => judged.by,
        };
        self.equilibrium.compare(
            by,
            || table(judged) + &numbers("profile", profile),
            judge,
            library::is_equilibrium(judged.counts, judged.payoffs, profile),
        );
    }

    /// The listing into outputs of so many pairs of lengths, or of each; the list is handed back.
    fn equilibria(&mut self, judged: &Judged, most: usize) -> Vec<usize> {
        let listing = judged.equilibria();
        let told = listing.as_ref().map_err(|refusal| *refusal);
        let players = judged.counts.len();
        for lengths in listings::drawn(&mut self.lengths, players, listings::total(told), most) {
            let (ground, judge) = listings::answer(told, players, lengths);
            self.equilibria.compare_as(
                ground,
                judged.by,
                || table(judged) + &numbers("lengths", &lengths),
                judge,
                library::equilibria(judged.counts, judged.payoffs, lengths),
            );
        }
        listing.map_or_else(|_| Vec::new(), |listing| listing.first)
    }

    fn dominated(&mut self, judged: &Judged, player: usize, rooms: &[Room]) {
        lists(
            &mut self.dominated,
            judged,
            || numbers("player", &[player]),
            &judged.dominated(player),
            rooms,
            |lists| {
                let (counts, payoffs) = (judged.counts, judged.payoffs);
                let status = library::strictly_dominated_strategies(counts, payoffs, player, lists);
                lists.answer(status, 1, |word| word as usize)
            },
        );
    }
}

pub fn table(judged: &Judged) -> String {
    numbers("counts", judged.counts) + &floats("payoffs", judged.payoffs)
}

/// The lengths of a list's outputs. A list that is refused needs none, and the lengths are then around some.
pub fn lengths<T>(listing: &Result<Listing<T>, u32>, room: Room) -> [usize; 2] {
    lengthened(listing.as_ref().map_or([3, 3], Listing::needed), room)
}

pub fn lengthened(needed: [usize; 2], room: Room) -> [usize; 2] {
    [0, 1].map(|output| needed[output].saturating_add_signed(room[output]))
}

/// One list into outputs of each of the lengths.
fn lists<T: Clone + std::fmt::Debug + PartialEq>(
    tally: &mut Tally,
    judged: &Judged,
    input: impl Fn() -> String,
    listing: &Result<Listing<T>, u32>,
    rooms: &[Room],
    mut call: impl FnMut(&mut Lists) -> Answer<Listing<T>>,
) {
    for room in rooms {
        let lengths = lengths(listing, *room);
        let (by, judge) = judged.lent(listing, lengths);
        let input = || table(judged) + &input() + &numbers("lengths", &lengths);
        tally.compare(by, input, judge, call(&mut Lists::fresh(lengths)));
    }
}

pub fn solvers() -> Solvers {
    let mut solvers = Solvers {
        responses: Tally::new("best_responses"),
        records: Tally::new("best_response_records"),
        equilibrium: Tally::new("is_equilibrium"),
        equilibria: Tally::of("equilibria", &listings::GROUNDS, LEAST),
        dominated: Tally::new("strictly_dominated_strategies"),
        lengths: Random(17),
    };
    let mut random = Random(9);
    for _ in 0..6 {
        for faults in 0..1 << document::SHORT {
            faulty(&mut solvers, &mut random, faults << 1);
        }
    }
    for _ in 0..100_000 {
        junk(&mut solvers, &mut random);
    }
    for filling in cases::small_fillings(8) {
        every_filling(&mut solvers, &mut random, &filling, listings::EVERY);
    }
    for filling in cases::larger_fillings() {
        every_filling(&mut solvers, &mut random, &filling, listings::SOME);
    }
    let every = [&ENOUGH[..], &SHORT].concat();
    for shape in cases::large_shapes() {
        for _ in 0..12 {
            random_table(&mut solvers, &mut random, &shape, 100, &every[..]);
        }
    }
    for turn in 0..30_000 {
        let cells = if turn % 300 == 0 { CELLS } else { 256 };
        let shape = random.shape(cells, STRATEGIES);
        random_table(&mut solvers, &mut random, &shape, 6, &every[..]);
    }
    solvers
}

/// Every table of a filling, with every player, every choice of the others and every profile, so many pairs of lengths
/// for the equilibria, and some to refuse.
fn every_filling(solvers: &mut Solvers, random: &mut Random, filling: &Filling, most: usize) {
    let counts = &filling.counts[..];
    let players = counts.len();
    let profiles: Vec<Vec<usize>> = cases::profiles(counts).collect();
    let others: Vec<(usize, Vec<usize>)> = (0..players)
        .flat_map(|player| {
            let counts = cases::without(counts, player);
            let profiles: Vec<_> = cases::profiles(&counts).collect();
            profiles.into_iter().map(move |profile| (player, profile))
        })
        .collect();
    let mut payoffs = Vec::new();
    for number in 0..filling.number() {
        filling.fill(random, &mut payoffs, number);
        let rooms = [random.pick(&ENOUGH), random.pick(&SHORT)];
        let judged = Judged::new(counts, &payoffs);
        for (player, opponents) in &others {
            solvers.responses(&judged, *player, opponents, &rooms[..1 + random.below(2)]);
        }
        for profile in &profiles {
            solvers.equilibrium(&judged, profile);
        }
        solvers.equilibria(&judged, most);
        for player in 0..players {
            solvers.dominated(&judged, player, &rooms);
        }
        wrong(solvers, random, &judged, counts, &rooms[..1]);
    }
}

/// A player, choices of the others and a profile that are refused.
fn wrong(
    solvers: &mut Solvers,
    random: &mut Random,
    judged: &Judged,
    shape: &[usize],
    rooms: &[Room],
) {
    let player = random.below(shape.len());
    let past = random.pick(&[shape.len(), shape.len() + 1, usize::MAX]);
    let others = cases::without(shape, player);
    let bad = match others[..] {
        [] => vec![0; 1 + random.below(2)],
        _ => random.bad_profile(&others),
    };
    match random.below(3) {
        0 => solvers.responses(judged, past, &bad, rooms),
        1 => solvers.responses(judged, past, &random.profile(&others), rooms),
        _ => solvers.responses(judged, player, &bad, rooms),
    }
    solvers.dominated(judged, past, rooms);
    solvers.equilibrium(judged, &random.bad_profile(shape));
}

/// A table with something to find in it: its equilibria and profiles beside them, random profiles and players.
fn random_table(
    solvers: &mut Solvers,
    random: &mut Random,
    counts: &[usize],
    turns: usize,
    rooms: &[Room],
) {
    let payoffs = random.payoffs(counts);
    let judged = Judged::new(counts, &payoffs);
    let choices = solvers.equilibria(&judged, rooms.len());
    let found: Vec<&[usize]> = choices.chunks(counts.len()).collect();
    let chosen = random.below(counts.len());
    for player in [0, counts.len() - 1, chosen] {
        solvers.dominated(&judged, player, rooms);
    }
    for _ in 0..turns {
        let mut profile = match found[..] {
            [] => random.profile(counts),
            _ => random.pick(&found).to_vec(),
        };
        solvers.equilibrium(&judged, &profile);
        let player = random.below(counts.len());
        profile[player] = random.below(counts[player]);
        solvers.equilibrium(&judged, &profile);
        let profile = random.profile(counts);
        solvers.equilibrium(&judged, &profile);
        let opponents = cases::without(&profile, player);
        solvers.responses(&judged, player, &opponents, rooms);
        wrong(solvers, random, &judged, counts, &rooms[..1]);
    }
}

/// An input with the faults of a set, the refusals' numbers as its bits, and no others, as far as they go together: so
/// each refusal comes with every later fault present too.
fn faulty(solvers: &mut Solvers, random: &mut Random, faults: u32) {
    let has = |refusal: u32| faults >> refusal & 1 == 1;
    let counts = faulty_counts(random, has);
    let payoffs = faulty_payoffs(random, has, &counts);
    let players = counts.len();
    let player = if has(document::PLAYER) || players == 0 {
        random.pick(&[players, players + 1, usize::MAX])
    } else {
        random.below(players)
    };
    let others = if player < players {
        cases::without(&counts, player)
    } else {
        counts[..players.saturating_sub(1)].to_vec()
    };
    let few = has(document::OPPONENT_COUNT);
    let opponents = faulty_choices(random, &others, few, has(document::OPPONENT));
    let few = has(document::CHOICE_COUNT);
    let profile = faulty_choices(random, &counts, few, has(document::CHOICE));
    let room = if has(document::SHORT) {
        random.pick(&SHORT)
    } else {
        random.pick(&ENOUGH)
    };
    let judged = Judged::new(&counts, &payoffs);
    solvers.responses(&judged, player, &opponents, &[room]);
    solvers.equilibrium(&judged, &profile);
    solvers.equilibria(&judged, 1);
    solvers.dominated(&judged, player, &[room]);
}

/// Whether a set has the fault. It has a bit for each refusal of a table, and then for each of the call's own.
pub fn has_fault(own: &[u32], set: u32, refusal: u32) -> bool {
    let mut faults = document::TABLE_FAULTS.iter().chain(own);
    let place = faults.position(|fault| *fault == refusal);
    place.is_some_and(|place| set >> place & 1 == 1)
}

/// A table with the faults of a set, which has a bit for each refusal of a table, and no others, as far as they go
/// together.
pub fn faulty_table(random: &mut Random, faults: u32) -> (Vec<usize>, Vec<f64>) {
    let has = |refusal: u32| has_fault(&[], faults, refusal);
    let counts = faulty_counts(random, has);
    let payoffs = faulty_payoffs(random, has, &counts);
    (counts, payoffs)
}

pub fn faulty_counts(random: &mut Random, has: impl Fn(u32) -> bool) -> Vec<usize> {
    if has(document::NO_PLAYERS) {
        return Vec::new();
    }
    let mut counts = random.shape(64, STRATEGIES);
    if has(document::MANY_CELLS) {
        let mut shapes = cases::over_shapes();
        counts = shapes.swap_remove(random.below(shapes.len()));
    }
    let least = if has(document::MANY_PLAYERS) {
        PLAYERS + 1
    } else {
        2 // so that 3 and 4 go together
    };
    while counts.len() < least {
        counts.insert(random.below(counts.len() + 1), 1);
    }
    let players = counts.len();
    let many = random.below(players);
    let none = (many + 1 + random.below(players - 1)) % players;
    if has(document::MANY_STRATEGIES) {
        counts[many] = random.pick(&[STRATEGIES + 1, usize::MAX]);
    }
    if has(document::NO_STRATEGIES) {
        counts[none] = 0;
    }
    counts
}

pub fn faulty_payoffs(
    random: &mut Random,
    has: impl Fn(u32) -> bool,
    counts: &[usize],
) -> Vec<f64> {
    let cells = match document::cells(counts) {
        cells if cells <= 2 * CELLS as u128 => cells as usize,
        _ => 64,
    };
    let mut payoffs = vec![0.0; cells];
    payoffs
        .iter_mut()
        .take(64)
        .for_each(|payoff| *payoff = random.finite());
    if has(document::PAYOFF_COUNT) {
        match random.below(3) {
            0 if cells > 0 => payoffs.truncate(cells - 1),
            1 if cells > 0 => payoffs.clear(),
            _ => payoffs.push(1.0),
        }
    }
    if has(document::NON_FINITE) && !payoffs.is_empty() {
        let place = random.below(payoffs.len());
        payoffs[place] = random.non_finite();
    }
    payoffs
}

/// A choice of each player; one at its count or past it; one choice too few or too many.
fn faulty_choices(random: &mut Random, counts: &[usize], few: bool, past: bool) -> Vec<usize> {
    let mut choices: Vec<usize> = counts
        .iter()
        .map(|count| random.below((*count).max(1)))
        .collect();
    if past && !choices.is_empty() {
        let place = random.below(choices.len());
        choices[place] = random.pick(&[counts[place], usize::MAX]);
    }
    if few {
        match random.below(2) {
            0 if !choices.is_empty() => drop(choices.pop()),
            _ => choices.push(0),
        }
    }
    choices
}

/// Anything for counts, payoffs, choices and player.
fn junk(solvers: &mut Solvers, random: &mut Random) {
    let (counts, payoffs, choices) = random.junk();
    let judged = Judged::new(&counts, &payoffs);
    let room = [random.pick(&ENOUGH), random.pick(&SHORT)];
    let player = match random.below(2) {
        0 => random.number(),
        _ => random.below(PLAYERS),
    };
    solvers.responses(&judged, player, &choices, &room);
    solvers.responses(&judged, player, &choices[choices.len().min(1)..], &room);
    solvers.equilibrium(&judged, &choices);
    solvers.equilibria(&judged, room.len());
    solvers.dominated(&judged, player, &room);
}
