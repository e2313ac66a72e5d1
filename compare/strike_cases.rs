//! Where the cases of survivors and strikes come from.

use crate::cases::{self, Filling, Random};
use crate::document::{self, CELLS, PLAYERS, STRATEGIES};
use crate::library::{Survivors, MARKS};
use crate::listings::{EVERY, SOME};
use crate::solvers::{self, Room, ENOUGH, SHORT};
use crate::strikes::{Case, State, Strikes, Table, LARGE};
use crate::survivors;
use crate::tally::sure;

/// The bytes of marks, 1 the most often.
const BYTES: [u8; 8] = [1, 1, 1, 1, 2, 3, 128, 255];

/// A shape in which a strategy meets as many choices of the others as can be.
const WIDE: [usize; 4] = [2, 2, 64, 64];

/// Of the larger fillings one table in so many.
const SAMPLE: usize = 8;

pub fn run(strikes: &mut Strikes) {
    let mut random = Random(11);
    known(strikes);
    for _ in 0..40 {
        for faults in 0..1 << (document::TABLE_FAULTS.len() + FAULTS.len()) {
            faulty(strikes, &mut random, faults);
        }
    }
    for _ in 0..60_000 {
        junk(strikes, &mut random);
    }
    for turn in 0..6_000 {
        let cells = if turn % 100 == 0 { LARGE } else { 128 };
        let shape = random.shape(cells, STRATEGIES);
        let payoffs = payoffs(&mut random, &shape, turn);
        walk(strikes, &mut random, &shape, &payoffs);
    }
    for filling in cases::small_fillings(8) {
        every_table(strikes, &mut random, &filling, 1);
    }
    for filling in cases::larger_fillings() {
        every_table(strikes, &mut random, &filling, SAMPLE);
    }
    for shape in cases::large_shapes() {
        for turn in 0..3 {
            let payoffs = payoffs(&mut random, &shape, turn);
            walk(strikes, &mut random, &shape, &payoffs);
        }
    }
    for shape in cases::large_shapes().iter().chain(&[WIDE.to_vec()]) {
        for _ in 0..12 {
            denied(strikes, &mut random, shape);
        }
    }
}

/// Document 01's games with strikes, which say what both judges say.
fn known(strikes: &mut Strikes) {
    let mut told = |state: State, player: usize, strategy: usize| {
        let case = state.case();
        strikes.strike(&case, player, strategy);
        case.state().strike(player, strategy).2
    };
    let one = Table::new(&[3], &[1.0, 5.0, 5.0]);
    let two = Table::new(&[2, 2], &[1.0, 1.0, 0.0, 0.0, 0.0, 1.0, 1.0, 0.0]);
    let stands = told(one.fresh(), 0, 0) == Ok(1)
        && told(one.fresh(), 0, 1) == Err(document::NOT_DOMINATED)
        && told(one.fresh().without(0, 0), 0, 0) == Err(document::GONE)
        && told(two.fresh(), 0, 1) == Err(document::NOT_DOMINATED)
        && told(two.fresh(), 1, 1) == Ok(0)
        && told(two.fresh().without(1, 1), 0, 1) == Ok(0);
    sure(stands, "a game whose strikes are known has others");
}

/// One table in so many of a filling, or each: the fresh survivors and their listing, of each table into outputs of
/// every pair of lengths; every strike from them and one of a strategy past each count, the listing after each; for
/// some a full elimination in two orders; of the smallest every list of two strikes.
fn every_table(strikes: &mut Strikes, random: &mut Random, filling: &Filling, sample: usize) {
    let counts = &filling.counts[..];
    let named: Vec<[usize; 2]> = (0..counts.len())
        .flat_map(|player| (0..=counts[player]).map(move |strategy| [player, strategy]))
        .collect();
    let smallest = document::cells(counts) <= 6 || counts == [2, 2];
    let mut payoffs = Vec::new();
    let mut number = random.below(sample);
    while number < filling.number() {
        filling.fill(random, &mut payoffs, number);
        number += 1 + random.below(2 * sample - 1);
        let table = Table::new(counts, &payoffs);
        strikes.fresh(&table);
        let fresh = table.fresh().case();
        strikes.listing(&fresh, [SOME, EVERY][usize::from(sample == 1)]);
        for [player, strategy] in &named {
            if let Some(after) = strikes.strike(&fresh, *player, *strategy) {
                strikes.listing(&after.case(), 2);
            }
        }
        if smallest {
            twos(strikes, &table, random.pick(&ENOUGH));
        }
        if random.below(8) == 0 {
            orders(strikes, random, &table);
        }
    }
}

fn twos(strikes: &mut Strikes, table: &Table, room: Room) {
    let named = strategies(table.judged.counts);
    for [player, strategy] in &named {
        for [next_player, next_strategy] in &named {
            let players = [*player, *next_player];
            let strategies = [*strategy, *next_strategy];
            strikes.list(table, [&players, &strategies], &[room]);
        }
    }
}

/// Every strategy as a strike: its player and its number.
fn strategies(counts: &[usize]) -> Vec<[usize; 2]> {
    (0..counts.len())
        .flat_map(|player| (0..counts[player]).map(move |strategy| [player, strategy]))
        .collect()
}

/// A table with something to strike, with ties, or with nothing to strike.
pub fn payoffs(random: &mut Random, counts: &[usize], turn: usize) -> Vec<f64> {
    let mut payoffs = match turn % 3 {
        0 => return random.payoffs(counts),
        1 => cases::chain(counts),
        _ => cases::own_choices(counts),
    };
    if random.below(2) == 0 {
        payoffs = relabelled(random, counts, &payoffs);
    }
    for _ in 0..random.below(3) {
        let place = random.below(payoffs.len());
        payoffs[place] = random.pick(&cases::VALUES);
    }
    payoffs
}

/// The table with each player's strategies in another order.
fn relabelled(random: &mut Random, counts: &[usize], payoffs: &[f64]) -> Vec<f64> {
    let orders: Vec<Vec<usize>> = counts
        .iter()
        .map(|count| random.places(*count, *count))
        .collect();
    let table = Table::new(counts, payoffs);
    let moved = |profile: Vec<usize>| -> Vec<usize> {
        let choices = std::iter::zip(&orders, profile);
        choices.map(|(order, choice)| order[choice]).collect()
    };
    cases::profiles(counts)
        .flat_map(|profile| table.game().at(&moved(profile)).to_vec())
        .collect()
}

/// Two eliminations of a table, all kinds of lists of their strikes, survivors that a caller made, and foreign ones.
fn walk(strikes: &mut Strikes, random: &mut Random, counts: &[usize], payoffs: &[f64]) {
    let table = Table::new(counts, payoffs);
    strikes.fresh(&table);
    let calls = orders(strikes, random, &table);
    lists(strikes, random, &table, &calls);
    for _ in 0..3 {
        made(strikes, random, &table);
    }
    let causes: Vec<u32> = (survivors::FOREIGN_PLAYERS..survivors::SEVERAL).collect();
    for cause in &causes {
        foreign(strikes, random, &table, &[*cause]);
    }
    let two = [random.pick(&causes), random.pick(&causes)];
    foreign(strikes, random, &table, &two);
}

/// The sweeps of a table's strategies, ascending and in random orders: both end in the same marks. The calls of both.
fn orders(strikes: &mut Strikes, random: &mut Random, table: &Table) -> Vec<[usize; 2]> {
    let (mut calls, first) = eliminate(strikes, random, table, false);
    let (others, second) = eliminate(strikes, random, table, true);
    sure(
        first.survivors() == second.survivors(),
        "two orders of elimination end in different marks",
    );
    calls.extend(others);
    calls
}

/// Sweeps of strikes from fresh survivors until one strikes nothing; the calls and what is left.
fn eliminate<'t, 'a>(
    strikes: &mut Strikes,
    random: &mut Random,
    table: &'t Table<'a>,
    shuffled: bool,
) -> (Vec<[usize; 2]>, State<'t, 'a>) {
    let counts = table.judged.counts;
    let mut sweep = strategies(counts);
    let mut case = table.fresh().case();
    let (mut calls, mut accepted) = (Vec::new(), 0);
    loop {
        if shuffled {
            let order = random.places(sweep.len(), sweep.len());
            sweep = order.iter().map(|place| sweep[*place]).collect();
        }
        let before = accepted;
        for [player, strategy] in &sweep {
            calls.push([*player, *strategy]);
            if let Some(after) = strikes.strike(&case, *player, *strategy) {
                case = after.case();
                accepted += 1;
                listed(strikes, random, &case);
            }
        }
        if accepted == before {
            break;
        }
    }
    let state = case.into_state();
    sure(
        accepted + state.marks() == counts.iter().sum::<usize>(),
        "accepted strikes and marks are not all strategies",
    );
    (calls, state)
}

/// The listing of a case, more rarely of a large one.
fn listed(strikes: &mut Strikes, random: &mut Random, case: &Case) {
    let cells = document::cells(case.counts()) as usize;
    if random.below(1 + cells / 512) == 0 {
        strikes.listing(case, 2);
    }
}

/// Strikes of a player's last strategies where each is dominated by those after it, but for one cell, which stands
/// among the first profiles, the last or anywhere.
fn denied(strikes: &mut Strikes, random: &mut Random, counts: &[usize]) {
    let mut payoffs = cases::own_choices(counts);
    let profile = place_in(random, 0, payoffs.len() / counts.len());
    let player = random.below(counts.len());
    payoffs[profile * counts.len() + player] = -1.0;
    let table = Table::new(counts, &payoffs);
    for case in [table.fresh().case(), table.made(chosen(random, counts))] {
        for strategy in counts[player].saturating_sub(3)..counts[player] {
            strikes.strike(&case, player, strategy);
        }
    }
}

/// A strike to refuse by 8 or 14: numbers at the limits and past them; or any numbers.
fn wild(random: &mut Random, counts: &[usize]) -> [usize; 2] {
    let player = random.below(counts.len());
    let strategy = random.below(counts[player]);
    let past_players = past(random, player, counts.len());
    let past_count = past(random, strategy, counts[player]);
    match random.below(4) {
        0 => [past_players, strategy],
        1 => [past_players, past_count],
        2 => [player, past_count],
        _ => [random.number(), random.number()],
    }
}

/// A number that is not below a limit, given one that is.
fn past(random: &mut Random, number: usize, limit: usize) -> usize {
    let cut = number + random.pick(&CUT);
    random.pick(&[limit, limit + 1, STRATEGIES.max(limit), cut, usize::MAX])
}

/// Lists of strikes: those that were made and some to refuse, in part, twice, of unequal lengths and empty, with the
/// listing after each.
fn lists(strikes: &mut Strikes, random: &mut Random, table: &Table, calls: &[[usize; 2]]) {
    let counts = table.judged.counts;
    let large = document::cells(counts) > LARGE as u128;
    let mut calls = calls.to_vec();
    for _ in 0..3 {
        calls.insert(random.below(calls.len() + 1), wild(random, counts));
    }
    for turn in 0..if large { 2 } else { 5 } {
        let length = match turn {
            0 => calls.len(),
            1 => random.below(calls.len() + 1),
            2 => 0,
            _ => {
                let order = random.places(calls.len(), calls.len());
                calls = order.iter().map(|place| calls[*place]).collect();
                random.below(1 + counts.iter().sum::<usize>())
            }
        };
        let [mut players, mut strategies] = [0, 1].map(|place| -> Vec<usize> {
            calls[..length].iter().map(|call| call[place]).collect()
        });
        match random.below(4) {
            0 => players.extend([random.number(), 0]),
            1 => strategies.extend([0, 1, random.number()]),
            2 => players.truncate(length.saturating_sub(random.below(3))),
            _ => (),
        }
        let rooms = [random.pick(&ENOUGH), random.pick(&SHORT)];
        let state = strikes.list(table, [&players, &strategies], &rooms);
        listed(strikes, random, &state.unwrap().case());
    }
}

/// Survivors of the counts that no strikes need lead to: some of each player's strategies, by any bytes.
fn chosen(random: &mut Random, counts: &[usize]) -> Survivors {
    let left = counts
        .iter()
        .map(|count| {
            let number = match random.below(3) {
                0 => *count,
                _ => 1 + random.below(*count),
            };
            random.places(number, *count)
        })
        .collect();
    let mut survivors = survivors::record(counts, &left);
    for mark in &mut survivors.marks {
        *mark *= random.pick(&BYTES);
    }
    survivors
}

/// Survivors that a caller made, and strikes from there: of anything, and of what is wild.
fn made(strikes: &mut Strikes, random: &mut Random, table: &Table) {
    let counts = table.judged.counts;
    let mut case = table.made(chosen(random, counts));
    listed(strikes, random, &case);
    for _ in 0..8 {
        let player = random.below(counts.len());
        let after = strikes.strike(&case, player, random.below(counts[player]));
        let [player, strategy] = wild(random, counts);
        strikes.strike(&case, player, strategy);
        if let Some(state) = after {
            case = state.case();
            listed(strikes, random, &case);
        }
    }
}

/// Survivors that are foreign by one cause alone, or by two, if the table can have such: every call refuses them.
fn foreign(strikes: &mut Strikes, random: &mut Random, table: &Table, causes: &[u32]) {
    let counts = table.judged.counts;
    let mut survivors = match random.below(2) {
        0 => table.fresh().survivors(),
        _ => chosen(random, counts),
    };
    for cause in causes {
        if !damage(random, counts, &mut survivors, *cause) {
            return;
        }
    }
    let ground = survivors::foreign(counts, &survivors);
    sure(
        causes.len() > 1 || ground == Some(causes[0]),
        "survivors are foreign by another cause",
    );
    let case = table.made(survivors);
    let player = random.below(counts.len());
    strikes.strike(&case, player, random.below(counts[player]));
    let [player, strategy] = wild(random, counts);
    strikes.strike(&case, player, strategy);
    strikes.listing(&case, 2);
}

/// Makes survivors that are not foreign to the counts so by one cause alone; false where no player can have it.
fn damage(random: &mut Random, counts: &[usize], survivors: &mut Survivors, cause: u32) -> bool {
    let players = counts.len();
    let byte = random.pick(&BYTES);
    match cause {
        survivors::FOREIGN_PLAYERS => survivors.players = other(random, players),
        survivors::NO_MARK => {
            let player = random.below(players);
            survivors.marks[player * STRATEGIES..][..STRATEGIES].fill(0);
        }
        survivors::MARK_PAST => {
            let room = |player: &usize| counts[*player] < STRATEGIES;
            let free: Vec<usize> = (0..players).filter(room).collect();
            if free.is_empty() {
                return false;
            }
            let player = random.pick(&free);
            let strategy = place_in(random, counts[player], STRATEGIES);
            survivors.marks[player * STRATEGIES + strategy] = byte;
        }
        survivors::MARK_BEYOND => {
            if players == PLAYERS {
                return false;
            }
            survivors.marks[place_in(random, players * STRATEGIES, MARKS)] = byte;
        }
        _ => {
            let player = (cause - survivors::FOREIGN_COUNT) as usize;
            survivors.counts[player] = other(random, survivors.counts[player]);
        }
    }
    true
}

/// What is added to a number, and is lost where only its low 8 or 32 bits are read.
const CUT: [usize; 2] = [1 << 8, 1 << 32];

/// A number that is another one, the next ones often.
fn other(random: &mut Random, number: usize) -> usize {
    let near = [usize::MAX, 1, CUT[0], CUT[1]].map(|step| number.wrapping_add(step));
    match random.below(2) {
        0 => random.pick(&near),
        _ => match random.number() {
            same if same == number => near[1],
            another => another,
        },
    }
}

/// A place from one on and below another, the first and the last often.
fn place_in(random: &mut Random, from: usize, limit: usize) -> usize {
    match random.below(3) {
        0 => from,
        1 => limit - 1,
        _ => from + random.below(limit - from),
    }
}

/// The refusals that the calls have beside a table's.
const FAULTS: [u32; 5] = [
    document::FOREIGN,
    document::PLAYER,
    document::GONE,
    document::NOT_DOMINATED,
    document::SHORT,
];

/// An input with the faults of a set and no others, as far as they go together: so each refusal comes with every later
/// fault present too.
fn faulty(strikes: &mut Strikes, random: &mut Random, faults: u32) {
    let has = |refusal: u32| solvers::has_fault(&FAULTS, faults, refusal);
    let counts = solvers::faulty_counts(random, has);
    let payoffs = faulty_payoffs(random, has, &counts);
    let (survivors, [player, strategy]) = faulty_strike(random, has, &counts);
    let rooms: &[Room] = if has(document::SHORT) {
        &SHORT
    } else {
        &ENOUGH
    };
    let room = [random.pick(rooms)];
    let table = Table::new(&counts, &payoffs);
    let case = table.made(survivors);
    strikes.fresh(&table);
    strikes.strike(&case, player, strategy);
    strikes.listing(&case, 1);
    strikes.list(&table, [&[player, 0], &[strategy, 0]], &room);
}

/// Every strategy but the last is dominated, or none is.
fn faulty_payoffs(random: &mut Random, has: impl Fn(u32) -> bool, counts: &[usize]) -> Vec<f64> {
    let mut payoffs = solvers::faulty_payoffs(random, &has, counts);
    if document::cells(counts) <= CELLS as u128 {
        for (payoff, own) in std::iter::zip(&mut payoffs, cases::own_choices(counts)) {
            *payoff = match (payoff.is_finite(), has(document::NOT_DOMINATED)) {
                (false, _) => *payoff,
                (true, true) => 0.0,
                (true, false) => own,
            };
        }
    }
    payoffs
}

/// Survivors, and a strike of the first strategy of a player, or of one that is gone.
fn faulty_strike(
    random: &mut Random,
    has: impl Fn(u32) -> bool,
    counts: &[usize],
) -> (Survivors, [usize; 2]) {
    let mut survivors = roughly(counts);
    let clipped = clipped(counts);
    let mut player = random.below(clipped.len().max(1));
    let count = clipped.get(player).copied().unwrap_or(1);
    let mut strategy = 0;
    if has(document::GONE) {
        strategy = random.pick(&[count, usize::MAX]);
        if count > 1 && random.below(2) == 0 {
            strategy = random.below(count);
            survivors.marks[player * STRATEGIES + strategy] = 0;
        }
    }
    if has(document::FOREIGN) && !clipped.is_empty() {
        let causes = survivors::FOREIGN_PLAYERS..survivors::SEVERAL;
        let cause = random.pick(&causes.collect::<Vec<_>>());
        damage(random, &clipped, &mut survivors, cause);
    }
    if has(document::PLAYER) {
        player = random.pick(&[counts.len(), counts.len() + 1, usize::MAX]);
    }
    (survivors, [player, strategy])
}

/// Counts that are not accepted made so, for a record of survivors: those of at most eight players, each within the
/// limits.
fn clipped(counts: &[usize]) -> Vec<usize> {
    let counts = counts.iter().take(PLAYERS);
    counts.map(|count| (*count).clamp(1, STRATEGIES)).collect()
}

/// The survivors that a caller of any counts would take for fresh ones.
fn roughly(counts: &[usize]) -> Survivors {
    let clipped = clipped(counts);
    let mut survivors = survivors::record(&clipped, &survivors::all(&clipped));
    survivors.players = counts.len();
    for (held, count) in survivors.counts.iter_mut().zip(counts) {
        *held = *count;
    }
    survivors
}

/// Anything for counts, payoffs, survivors, strikes and lists.
fn junk(strikes: &mut Strikes, random: &mut Random) {
    let (counts, payoffs, numbers) = random.junk();
    let table = Table::new(&counts, &payoffs);
    let mut survivors = roughly(&counts);
    for _ in 0..random.below(3) {
        match random.below(4) {
            0 => survivors.players = random.number(),
            1 => survivors.counts[random.below(PLAYERS)] = random.number(),
            2 => survivors.marks[random.below(MARKS)] = random.word() as u8,
            _ => survivors.marks[random.below(PLAYERS) * STRATEGIES] = 0,
        }
    }
    strikes.fresh(&table);
    let case = table.made(survivors);
    let player = match random.below(2) {
        0 => random.number(),
        _ => random.below(PLAYERS),
    };
    let strategy = match random.below(2) {
        0 => random.number(),
        _ => random.below(4),
    };
    let rooms = [random.pick(&ENOUGH), random.pick(&SHORT)];
    strikes.strike(&case, player, strategy);
    strikes.listing(&case, rooms.len());
    let players: Vec<usize> = numbers.iter().map(|_| random.below(4)).collect();
    strikes.list(&table, [&players, &numbers], &rooms);
    strikes.list(&table, [&numbers, &players[players.len().min(1)..]], &rooms);
}
