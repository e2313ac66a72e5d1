//! The comparison of survivors and strikes. Document 01 judges, and beside it the Rust, on the table that has only what
//! is left: a strike by its list of dominated strategies, a listing by its equilibria, the numbers put back to the
//! whole table's.

use crate::cases::Random;
use crate::document;
use crate::library::{self, Answer, Bits, Listed, Listing, Struck, Survivors};
use crate::listings;
use crate::reference::PayoffMatrix;
use crate::rust::{self, Judged};
use crate::solvers::{self, Room};
use crate::strike_cases;
use crate::survivors::{self, Game, Left};
use crate::tally::{agreed, end, numbers, sure, Judge, Tally};
use std::cell::OnceCell;

/// The cases that each ground of an answer has at least.
pub const LEAST: usize = 2_000;

/// The most cells of a table that is not large.
pub const LARGE: usize = 4_096;

/// A table and the Rust's equilibria of the whole of it.
pub struct Table<'a> {
    pub judged: Judged<'a>,
    whole: OnceCell<Listing<Bits>>,
}

impl<'a> Table<'a> {
    pub fn new(counts: &'a [usize], payoffs: &'a [f64]) -> Self {
        Self {
            judged: Judged::new(counts, payoffs),
            whole: OnceCell::new(),
        }
    }

    pub fn game(&self) -> Game<'a> {
        Game {
            counts: self.judged.counts,
            payoffs: self.judged.payoffs,
        }
    }

    /// The fresh survivors; the table is accepted.
    pub fn fresh(&self) -> State<'_, 'a> {
        State::new(self, survivors::all(self.judged.counts), true)
    }

    /// Survivors that a caller made.
    pub fn made(&self, survivors: Survivors) -> Case<'_, 'a> {
        let standing = match self.judged.table {
            Err(refusal) => Err((self.judged.by, refusal)),
            Ok(_) => match survivors::foreign(self.judged.counts, &survivors) {
                Some(ground) => Err((Judge::Unasked, ground)),
                None => Ok(State::new(self, survivors::left(&survivors), false)),
            },
        };
        Case {
            table: self,
            survivors,
            standing,
        }
    }
}

/// What is left of a table, and the Rust's table that has only that.
pub struct State<'t, 'a> {
    table: &'t Table<'a>,
    left: Left,
    /// Whether strikes led here from the fresh survivors, so that the listing is the whole table's.
    reached: bool,
    reduced: OnceCell<PayoffMatrix>,
    /// For each player the Rust's list: the dominated strategies and the lowest dominators.
    dominated: Vec<OnceCell<Vec<(usize, usize)>>>,
    listing: OnceCell<Listing<Bits>>,
}

/// A judge, the ground and the answer.
type Judgement<T> = (Judge, u32, Result<T, u32>);

impl<'t, 'a> State<'t, 'a> {
    fn new(table: &'t Table<'a>, left: Left, reached: bool) -> Self {
        Self {
            table,
            reached,
            reduced: OnceCell::new(),
            dominated: left.iter().map(|_| OnceCell::new()).collect(),
            left,
            listing: OnceCell::new(),
        }
    }

    pub fn survivors(&self) -> Survivors {
        survivors::record(self.table.judged.counts, &self.left)
    }

    pub fn marks(&self) -> usize {
        self.left.iter().map(Vec::len).sum()
    }

    /// The case of these survivors as a call hands them out.
    pub fn case(self) -> Case<'t, 'a> {
        Case {
            table: self.table,
            survivors: self.survivors(),
            standing: Ok(self),
        }
    }

    /// What is left after a strike that is accepted.
    pub fn without(&self, player: usize, strategy: usize) -> Self {
        let mut left = self.left.clone();
        left[player].retain(|other| *other != strategy);
        Self::new(self.table, left, self.reached)
    }

    /// The Rust's table of what is left: the whole one where everything is.
    fn matrix(&self) -> &PayoffMatrix {
        if self.marks() == self.table.judged.counts.iter().sum() {
            return self.table.judged.matrix().unwrap();
        }
        self.reduced.get_or_init(|| {
            let (counts, payoffs) = self.table.game().reduced(&self.left);
            rust::table(&counts, &payoffs).unwrap()
        })
    }

    /// Whether the Rust is asked: of a large table, for which its lists take long, with one set of survivors in eight.
    fn asks(&self) -> bool {
        document::cells(self.table.judged.counts) <= LARGE as u128 || self.marks() % 8 == 0
    }

    pub fn strike(&self, player: usize, strategy: usize) -> Judgement<usize> {
        let document = self.table.game().strike(&self.left, player, strategy);
        let ground = document.err().unwrap_or(0);
        let document = document.map_err(survivors::refusal);
        if document == Err(document::GONE) || !self.asks() {
            return (Judge::Unasked, ground, document);
        }
        let input = || self.input() + &numbers("strike", &[player, strategy]);
        agreed(self.rust_strike(player, strategy), document, input);
        (Judge::Rust, ground, document)
    }

    /// The Rust's answer to a strike of a strategy that is left, or of a player that is none.
    fn rust_strike(&self, player: usize, strategy: usize) -> Result<usize, u32> {
        let Some(list) = self.dominated.get(player) else {
            return rust::dominated(self.matrix(), player).map(|_| unreachable!());
        };
        let list = list.get_or_init(|| {
            let own = &self.left[player];
            let dominated = rust::dominated(self.matrix(), player).unwrap();
            let entries = dominated.iter();
            entries
                .map(|entry| (own[entry.strategy], own[entry.dominated_by]))
                .collect()
        });
        let entry = list.iter().find(|entry| entry.0 == strategy);
        entry.map(|entry| entry.1).ok_or(document::NOT_DOMINATED)
    }

    /// Both judges' equilibria of what is left; and after strikes from fresh survivors, those of the whole table.
    fn listing(&self) -> &Listing<Bits> {
        self.listing.get_or_init(|| {
            let listing = self.table.game().equilibria(&self.left);
            if !self.reached || self.asks() {
                agreed(&self.rust_listing(), &listing, || self.input());
            }
            if self.reached {
                let whole = || self.table.judged.equilibria().unwrap();
                let whole = self.table.whole.get_or_init(whole);
                agreed(whole, &listing, || self.input());
            }
            listing
        })
    }

    fn rust_listing(&self) -> Listing<Bits> {
        let mut listing = rust::listing(self.matrix());
        for profile in listing.first.chunks_mut(self.left.len()) {
            for (choice, own) in profile.iter_mut().zip(&self.left) {
                *choice = own[*choice];
            }
        }
        listing
    }

    fn input(&self) -> String {
        solvers::table(&self.table.judged) + &format!("  left {:?}\n", self.left)
    }
}

/// A table, survivors that are handed in with it, and how they stand to it.
pub struct Case<'t, 'a> {
    table: &'t Table<'a>,
    survivors: Survivors,
    standing: Result<State<'t, 'a>, (Judge, u32)>,
}

impl<'t, 'a> Case<'t, 'a> {
    /// What is left; the survivors are not foreign.
    pub fn state(&self) -> &State<'t, 'a> {
        self.standing.as_ref().ok().unwrap()
    }

    pub fn into_state(self) -> State<'t, 'a> {
        self.standing.ok().unwrap()
    }

    pub fn counts(&self) -> &'a [usize] {
        self.table.judged.counts
    }

    /// The library's listing into outputs of these lengths.
    fn listed(&self, lengths: [usize; 2]) -> Answer<Listed> {
        let Judged {
            counts, payoffs, ..
        } = self.table.judged;
        library::surviving_equilibria(counts, payoffs, &self.survivors, lengths)
    }

    fn input(&self) -> String {
        solvers::table(&self.table.judged) + &format!("  survivors {:?}\n", self.survivors)
    }
}

pub struct Strikes {
    pub fresh: Tally,
    pub strike: Tally,
    pub surviving: Tally,
    pub strikes: Tally,
    /// How often each answer is told in a list of strikes.
    answers: [usize; document::NOT_DOMINATED as usize + 1],
    /// How often the two listings were held to each other, by their lengths.
    beside: [usize; Strikes::BESIDE.len()],
    /// For the lengths of the outputs of equilibria.
    lengths: Random,
}

impl Strikes {
    /// The grounds that have to be met where the Rust cannot be asked.
    pub const GONE: [u32; 2] = [document::GONE, survivors::STRUCK];
    pub const FOREIGN: [u32; 13] = {
        let mut grounds = [0; 13];
        let mut place = 0;
        while place < grounds.len() {
            grounds[place] = survivors::FOREIGN_PLAYERS + place as u32;
            place += 1;
        }
        grounds
    };

    pub fn fresh(&mut self, table: &Table) {
        let judged = &table.judged;
        let judge = match judged.space() {
            Answer::Accepted(space) => {
                let counts = &space.counts[..space.players];
                Answer::Accepted(survivors::record(counts, &survivors::all(counts)))
            }
            _ => Answer::Refused(*judged.table.as_ref().err().unwrap()),
        };
        let library = library::fresh(judged.counts, judged.payoffs);
        self.fresh
            .compare(judged.by, || solvers::table(judged), judge, library);
    }

    /// A strike on survivors, and what is left where it is accepted.
    pub fn strike<'t, 'a>(
        &mut self,
        case: &Case<'t, 'a>,
        player: usize,
        strategy: usize,
    ) -> Option<State<'t, 'a>> {
        let (by, ground, answer) = match &case.standing {
            Err((by, ground)) => (*by, *ground, Err(survivors::refusal(*ground))),
            Ok(state) => state.strike(player, strategy),
        };
        let after = answer.ok().map(|_| case.state().without(player, strategy));
        let judge = match (answer, &after) {
            (Ok(dominator), Some(state)) => Answer::Accepted((dominator, state.survivors())),
            (refusal, _) => Answer::Refused(refusal.err().unwrap()),
        };
        let Judged {
            counts, payoffs, ..
        } = case.table.judged;
        self.strike.compare_as(
            ground,
            by,
            || case.input() + &numbers("strike", &[player, strategy]),
            judge,
            library::strike(counts, payoffs, &case.survivors, player, strategy),
        );
        after
    }

    /// The survivors' listing into outputs of so many pairs of lengths, or of each; and after strikes from fresh
    /// survivors beside the whole table's.
    pub fn listing(&mut self, case: &Case, most: usize) {
        let judged = &case.table.judged;
        let (by, listing) = match &case.standing {
            Err((by, ground)) => (*by, Err(*ground)),
            Ok(state) => (judged.by, Ok(state.listing())),
        };
        let players = judged.counts.len();
        let pairs = listings::drawn(&mut self.lengths, players, listings::total(listing), most);
        for lengths in &pairs {
            let (ground, judge) = listings::answer(listing, players, *lengths);
            let input = || case.input() + &numbers("lengths", lengths);
            let library = case.listed(*lengths);
            self.surviving.compare_as(ground, by, input, judge, library);
        }
        if case.standing.as_ref().is_ok_and(|state| state.reached) {
            self.beside(case, &pairs);
        }
    }

    const BESIDE: [&'static str; 4] = [
        "equal lengths, all written:",
        "equal lengths, not all written:",
        "other lengths, all written by both:",
        "other lengths, not all written by both:",
    ];

    /// The library's two listings, into outputs of equal lengths and of others that are drawn: the totals are the same,
    /// and what is written where the lengths are equal or both wrote all.
    fn beside(&mut self, case: &Case, pairs: &[[usize; 2]]) {
        let Judged {
            counts, payoffs, ..
        } = case.table.judged;
        let lengths = self.lengths.pick(pairs);
        let here = case.listed(lengths).accepted().unwrap();
        for others in [lengths, self.lengths.pick(pairs)] {
            let Some(there) = library::equilibria(counts, payoffs, others).accepted() else {
                end("the listing of a table that is accepted is refused");
            };
            let all = [&here, &there].map(|listed| listed.written.number == listed.total);
            let (equal, all) = (lengths == others, all == [true; 2]);
            if here.total != there.total || ((equal || all) && here != there) {
                let input = case.input() + &numbers("lengths", &[lengths, others].concat());
                end(&format!(
                    "the two listings differ\n{input}  {here:?}\n  {there:?}"
                ));
            }
            self.beside[2 * usize::from(!equal) + usize::from(!all)] += 1;
        }
    }

    /// The line of the two listings beside each other; a kind of lengths that came too rarely ends the run.
    pub fn report_beside(&self) {
        let kinds = std::iter::zip(Self::BESIDE, self.beside);
        let kinds: Vec<String> = kinds
            .map(|(kind, times)| format!("{kind} {times}"))
            .collect();
        println!(
            "surviving_equilibria after strikes beside equilibria: {}",
            kinds.join(", ")
        );
        sure(
            self.beside.iter().all(|times| *times >= LEAST),
            "the two listings were held to each other too rarely",
        );
    }

    /// The line of the answers in lists; one that came too rarely ends the run.
    pub fn report_answers(&self) {
        let told = [0, document::PLAYER, document::GONE, document::NOT_DOMINATED];
        let times = told.map(|answer| self.answers[answer as usize]);
        let line = std::iter::zip(told, times).map(|(answer, times)| format!("{answer}: {times}"));
        let line: Vec<String> = line.collect();
        println!("strikes, the answers in its lists: {}", line.join(", "));
        sure(
            times.iter().all(|times| *times >= LEAST),
            "strikes has too few of an answer",
        );
    }

    /// A list of strikes into outputs of each of the lengths, and what is left after it, unless the table is refused.
    pub fn list<'t, 'a>(
        &mut self,
        table: &'t Table<'a>,
        named: [&[usize]; 2],
        rooms: &[Room],
    ) -> Option<State<'t, 'a>> {
        let judged = &table.judged;
        let machine = judged.matrix().ok().map(|_| machine(table, named));
        let number = named[0].len().min(named[1].len());
        for room in rooms {
            let lengths = solvers::lengthened([number; 2], *room);
            let (by, judge) = match (&machine, &judged.table) {
                (Some(_), _) if document::too_short([number; 2], lengths) => {
                    (Judge::TooShort, Answer::Refused(document::SHORT))
                }
                (Some((by, struck, _)), _) => {
                    for answer in &struck.answers {
                        self.answers[*answer as usize] += 1;
                    }
                    (*by, Answer::Accepted(struck.clone()))
                }
                (None, table) => (judged.by, Answer::Refused(*table.as_ref().err().unwrap())),
            };
            let input = || {
                let [players, strategies] = named;
                solvers::table(judged)
                    + &numbers("players", players)
                    + &numbers("strategies", strategies)
                    + &numbers("lengths", &lengths)
            };
            let library = library::strikes(judged.counts, judged.payoffs, named, lengths);
            self.strikes.compare(by, input, judge, library);
        }
        machine.map(|(_, _, state)| state)
    }
}

/// Document 01's plain machine: it starts with every strategy, and a call takes out the one that it names where the
/// rule accepts that among those left. The Rust judges a list where it was asked for every strike but those by 14.
fn machine<'t, 'a>(
    table: &'t Table<'a>,
    [players, strategies]: [&[usize]; 2],
) -> (Judge, Struck, State<'t, 'a>) {
    let mut state = table.fresh();
    let mut judge = Judge::Rust;
    let (mut answers, mut dominators) = (Vec::new(), Vec::new());
    for (player, strategy) in std::iter::zip(players, strategies) {
        let (by, _, answer) = state.strike(*player, *strategy);
        if answer != Err(document::GONE) && by != Judge::Rust {
            judge = by;
        }
        if answer.is_ok() {
            state = state.without(*player, *strategy);
        }
        answers.push(answer.err().unwrap_or(0));
        dominators.push(answer.unwrap_or(0));
    }
    let number = answers.iter().filter(|answer| **answer == 0).count();
    let survivors = state.survivors();
    let struck = Struck {
        number,
        answers,
        dominators,
        survivors,
    };
    (judge, struck, state)
}

pub fn strikes() -> Strikes {
    let mut strikes = Strikes {
        fresh: Tally::of("fresh", &survivors::GROUNDS, LEAST),
        strike: Tally::of("strike", &survivors::GROUNDS, LEAST),
        surviving: Tally::of("surviving_equilibria", &listings::GROUNDS, LEAST),
        strikes: Tally::of("strikes", &survivors::GROUNDS, LEAST),
        answers: [0; document::NOT_DOMINATED as usize + 1],
        beside: [0; Strikes::BESIDE.len()],
        lengths: Random(18),
    };
    strike_cases::run(&mut strikes);
    strikes
}
