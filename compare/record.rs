//! The recorded sample of the Rust's answers: lines of `test_tables` and of `test_candidates`, and
//! what is expected of them, in the form of docs/TESTING.md. Here are those of `test_tables`.
//!
//! Element i of an output is 7 + i before the call. In `utility`, `from_counts`, `payoff_matrix`
//! and `payoff` every input is in the comparison's domain; elsewhere document 01 judges where the
//! Rust does not.

use crate::candidate_record;
use crate::cases::{self, Random};
use crate::document;
use crate::library::{Answer, Bits, Listing, Space};
use crate::listings;
use crate::rust::{self, Judged};
use crate::solvers::{self, Room};
use crate::tally::{end, sure, Judge};

/// The line before the recorded ones, and what their names begin with.
const REMARK: &str = "# recorded from the Rust";
const NAME: &str = "rust ";
/// The largest count of a recorded shape, below the limit so that the sample outlives a lower one.
const COUNT: usize = 40;
/// The most elements of an output: so many are printed whole.
const ELEMENTS: usize = 64;
/// What stands in an output's first element before the call.
const FILLING: usize = 7;

/// Writes the sample in the place of the recorded lines of each program, which are the last ones of
/// its files; or ends the run where they are not the sample.
pub fn record(write: bool) {
    let programs = [
        ("test_tables", sample()),
        ("test_candidates", candidate_record::sample()),
    ];
    for (program, lines) in programs {
        let [stdin, stdout] = lines.texts();
        for (file, first, recorded) in [("stdin", REMARK, stdin), ("stdout", NAME, stdout)] {
            let file = format!("crates/{program}/{file}");
            let failed = |error| -> ! { end(&format!("{file}: {error}")) };
            let text = std::fs::read_to_string(&file).unwrap_or_else(|error| failed(error));
            let others = text.split_inclusive('\n');
            let others = others.take_while(|line| !line.starts_with(first));
            let whole: String = others.chain([&recorded[..]]).collect();
            if write {
                std::fs::write(&file, whole).unwrap_or_else(|error| failed(error));
            } else {
                let wrong = format!("{file} is not what compare/run --record writes");
                sure(whole == text, &wrong);
            }
        }
        let how = ["as recorded again", "recorded"][usize::from(write)];
        println!("sample: {} cases of {program}, {how}", lines.0.len());
    }
}

fn sample() -> Lines {
    let mut lines = Lines::new();
    let mut random = Random(8);
    utilities(&mut lines, &mut random);
    spaces(&mut lines, &mut random);
    matrices(&mut lines, &mut random);
    payoffs(&mut lines, &mut random);
    games(&mut lines);
    tables(&mut lines, &mut random);
    refusals(&mut lines);
    lines
}

/// An argument of a call; of an output its length.
#[derive(PartialEq)]
pub enum Argument {
    Numbers(Vec<usize>),
    Floats(Vec<Bits>),
    Output(usize),
}

pub fn numbers(list: &[usize]) -> Argument {
    Argument::Numbers(list.to_vec())
}

pub fn floats(list: &[f64]) -> Argument {
    Argument::Floats(list.iter().copied().map(Bits::of).collect())
}

impl Argument {
    /// Its items, each after a space, as the next field of a line.
    fn field(&self) -> String {
        let items: String = match self {
            Self::Numbers(list) => list.iter().map(number).collect(),
            Self::Floats(list) => list.iter().map(float).collect(),
            Self::Output(length) => format!(" {length}*{FILLING}+1"),
        };
        format!(" |{items}")
    }
}

/// A call, its arguments, and what is printed after the name.
#[derive(PartialEq)]
struct Line {
    call: &'static str,
    arguments: Vec<Argument>,
    told: String,
}

/// The lines of a sample, each once, where NaNs of other bits are others.
pub struct Lines(Vec<Line>);

impl Lines {
    pub fn new() -> Self {
        Self(Vec::new())
    }

    pub fn push(&mut self, call: &'static str, arguments: Vec<Argument>, told: String) {
        let line = Line {
            call,
            arguments,
            told,
        };
        if !self.0.contains(&line) {
            self.0.push(line);
        }
    }

    /// The lines after their remark, and the output that is expected of them.
    fn texts(&self) -> [String; 2] {
        let mut texts = [format!("{REMARK}\n"), String::new()];
        for (place, line) in self.0.iter().enumerate() {
            let Line { call, told, .. } = line;
            let so_far = self.0[..=place].iter();
            let number = so_far.filter(|other| other.call == *call).count();
            let name = format!("{NAME}{call} {number}");
            let fields: String = line.arguments.iter().map(Argument::field).collect();
            texts[0] += &format!("{name} | {call}{fields}\n");
            texts[1] += &format!("{name}:{told}\n");
        }
        texts
    }

    fn utility(&mut self, value: f64) {
        let answer = rust::utility(value).map(|utility| utility.value().to_bits());
        let told = told(&answer.into(), |bits| format!(" {bits:016x}"));
        self.push("utility", vec![floats(&[value])], told);
    }

    fn space(&mut self, counts: &[usize]) {
        if document::in_domain(counts) {
            let answer = rust::space(counts).map(|space| rust::space_of(&space));
            let told = told_space(answer.into());
            self.push("from_counts", vec![numbers(counts)], told);
        }
    }

    fn matrix(&mut self, counts: &[usize], payoffs: &[f64]) {
        let judged = Judged::new(counts, payoffs);
        if judged.by == Judge::Rust {
            self.on_table("payoff_matrix", &judged, [], told_space(judged.space()));
        }
    }

    fn payoff(&mut self, counts: &[usize], payoffs: &[f64], profile: &[usize], player: usize) {
        let judged = Judged::new(counts, payoffs);
        if judged.by == Judge::Rust {
            let told = told(&judged.payoff(profile, player), printed);
            let rest = [numbers(profile), numbers(&[player])];
            self.on_table("payoff", &judged, rest, told);
        }
    }

    /// All calls from best_responses on for a case; the equilibria also into outputs of other
    /// lengths, drawn by the number of the lines so far.
    fn solvers(&mut self, case: &Case) {
        let judged = &Judged::new(case.counts, case.payoffs);
        let player = || numbers(&[case.player]);
        let listing = judged.best_responses(case.player, case.opponents);
        let rest = vec![player(), numbers(case.opponents)];
        self.listing("best_responses", judged, rest, case.room, &listing, printed);
        let answer = judged.is_equilibrium(case.profile);
        let rest = [numbers(case.profile)];
        self.on_table("is_equilibrium", judged, rest, told(&answer, yes_or_no));
        let listing = judged.equilibria();
        let all = listing.as_ref().map_err(|refusal| *refusal);
        let pairs = listings::pairs(case.counts.len(), listings::total(all), &[]);
        let other = Random(self.0.len() as u64).pick(&pairs);
        for lengths in [other, solvers::lengths(&listing, case.room)] {
            self.equilibria(judged, all, lengths);
        }
        let listing = judged.dominated(case.player);
        self.listing(
            "strictly_dominated_strategies",
            judged,
            vec![player()],
            case.room,
            &listing,
            number,
        );
    }

    /// A case of a call whose first arguments are a table's.
    fn on_table(
        &mut self,
        call: &'static str,
        judged: &Judged,
        rest: impl IntoIterator<Item = Argument>,
        told: String,
    ) {
        let table = [numbers(judged.counts), floats(judged.payoffs)];
        self.push(call, table.into_iter().chain(rest).collect(), told);
    }

    /// The equilibria into outputs of these lengths, given all of them.
    fn equilibria(
        &mut self,
        judged: &Judged,
        all: Result<&Listing<Bits>, u32>,
        lengths: [usize; 2],
    ) {
        let (_, answer) = listings::answer(all, judged.counts.len(), lengths);
        let told = told(&answer, |listed| {
            number(&listed.total) + &number(&listed.written.number)
        });
        let written = answer.accepted().map(|listed| listed.written);
        let told = told + &outputs(written, lengths, printed);
        self.on_table("equilibria", judged, lengths.map(Argument::Output), told);
    }

    fn listing<T: Clone>(
        &mut self,
        call: &'static str,
        judged: &Judged,
        rest: Vec<Argument>,
        room: Room,
        listing: &Result<Listing<T>, u32>,
        element: impl Fn(&T) -> String,
    ) {
        let lengths = solvers::lengths(listing, room);
        let (_, answer) = judged.lent(listing, lengths);
        let told = told(&answer, |listing| number(&listing.number));
        let told = told + &outputs(answer.accepted(), lengths, element);
        let rest = rest.into_iter().chain(lengths.map(Argument::Output));
        self.on_table(call, judged, rest, told);
    }
}

/// The inputs of the calls from best_responses on.
struct Case<'a> {
    counts: &'a [usize],
    payoffs: &'a [f64],
    player: usize,
    opponents: &'a [usize],
    profile: &'a [usize],
    room: Room,
}

/// A space and the number; so all that is printed stands after a space.
fn number(number: &usize) -> String {
    format!(" {number}")
}

pub fn yes_or_no(yes: &bool) -> String {
    let word = if *yes { " yes" } else { " no" };
    word.to_string()
}

/// A float in decimal, if it is a whole number below 2^64, to which the largest u64 is rounded.
fn whole(value: f64) -> Option<String> {
    let magnitude = value.abs();
    let is_whole = magnitude < u64::MAX as f64 && magnitude.fract() == 0.0;
    is_whole.then(|| format!(" {}{}", sign(value), magnitude as u64))
}

fn sign(value: f64) -> &'static str {
    if value.is_sign_negative() {
        "-"
    } else {
        ""
    }
}

/// A float as it stands in a line.
fn float(bits: &Bits) -> String {
    let value = f64::from_bits(bits.0);
    match whole(value) {
        Some(decimal) => decimal,
        None if value.is_nan() => " NaN".to_string(),
        None => format!(" {bits:?}"),
    }
}

/// A float as a program prints it; no answer is a NaN.
pub fn printed(bits: &Bits) -> String {
    let value = f64::from_bits(bits.0);
    match whole(value) {
        Some(decimal) => decimal,
        None if value.is_infinite() => format!(" {}infinity", sign(value)),
        None => format!(" {}bits {:016x}", sign(value), value.abs().to_bits()),
    }
}

/// What a call tells: the value, or the refusal.
fn told<T>(answer: &Answer<T>, value: impl FnOnce(&T) -> String) -> String {
    match answer {
        Answer::Accepted(accepted) => " ok".to_string() + &value(accepted),
        Answer::Refused(status) => format!(" refused {status}"),
        Answer::Broken(how) => unreachable!("{how}"),
    }
}

/// The same of a space, of which all is 0 where it is refused.
fn told_space(answer: Answer<Space>) -> String {
    let told = told(&answer, |_| String::new());
    let (players, counts) = match answer {
        Answer::Accepted(space) => (space.players, space.counts),
        _ => (0, [0; document::PLAYERS]),
    };
    let counts: String = counts.iter().map(number).collect();
    format!("{told}, players {players}, counts{counts}")
}

/// Both outputs of a list afterwards, into which nothing is written where it is refused.
fn outputs<T>(
    listing: Option<Listing<T>>,
    lengths: [usize; 2],
    element: impl Fn(&T) -> String,
) -> String {
    let listing = listing.map(|listing| (listing.first, listing.second));
    let (first, second) = listing.unwrap_or_default();
    output(&first, lengths[0], number) + &output(&second, lengths[1], element)
}

/// An output afterwards: what was written, then the rest as it was.
fn output<T>(written: &[T], length: usize, element: impl Fn(&T) -> String) -> String {
    assert!(length <= ELEMENTS);
    let rest = (FILLING..).take(length).skip(written.len());
    let written = written.iter().map(element);
    let elements: String = written.chain(rest.map(|rest| number(&rest))).collect();
    format!(",{elements}")
}

fn utilities(lines: &mut Lines, random: &mut Random) {
    for bits in cases::FINITE.into_iter().chain(cases::NON_FINITE) {
        lines.utility(f64::from_bits(bits));
    }
    for _ in 0..70 {
        lines.utility(random.finite());
        lines.utility(random.non_finite());
    }
}

fn spaces(lines: &mut Lines, random: &mut Random) {
    for length in 0..=2 {
        cases::lists(&[0, 1, 2, COUNT - 1, COUNT], length).for_each(|counts| lines.space(&counts));
    }
    lines.space(&[8, 8, 16, 16]);
    lines.space(&[2; document::PLAYERS]);
    lines.space(&[1; document::PLAYERS]);
    for _ in 0..110 {
        let mut counts = random.shape(document::CELLS, COUNT);
        lines.space(&counts);
        let player = random.below(counts.len());
        counts[player] = 0;
        lines.space(&counts);
    }
}

/// Values whose bits have few digits, with specials and any others among them.
fn values(random: &mut Random, length: usize) -> Vec<f64> {
    (0..length)
        .map(|_| match random.below(10) {
            0 => f64::from_bits(random.pick(&cases::FINITE)),
            1 => random.finite(),
            _ => f64::from_bits(random.word() >> (48 + random.below(16))),
        })
        .collect()
}

fn matrices(lines: &mut Lines, random: &mut Random) {
    lines.matrix(&[], &[]);
    lines.matrix(&[], &[0.0]);
    for _ in 0..20 {
        let counts = random.shape(document::CELLS, COUNT);
        let payoffs = values(random, random.0 as usize % 3);
        lines.matrix(&counts, &payoffs);
    }
    for turn in 0..22 {
        let counts = random.shape(if turn < 3 { 48 } else { 14 }, COUNT);
        let cells = document::cells(&counts) as usize;
        let mut payoffs = values(random, cells + 1);
        lines.matrix(&counts, &payoffs[..cells]);
        match turn % 3 {
            0 => lines.matrix(&counts, &payoffs[..cells - 1]),
            1 => lines.matrix(&counts, &payoffs),
            _ => {
                let mut without = counts.clone();
                without[turn % counts.len()] = 0;
                lines.matrix(&without, &payoffs[..turn % 4]);
            }
        }
        let place = [0, cells / 2, cells - 1][turn % 3];
        payoffs[place] = f64::from_bits(cases::NON_FINITE[turn % cases::NON_FINITE.len()]);
        lines.matrix(&counts, &payoffs[..cells]);
    }
}

fn payoffs(lines: &mut Lines, random: &mut Random) {
    lines.payoff(&[], &[], &[], 0);
    for players in 1..=document::PLAYERS {
        let counts = vec![1; players];
        let payoffs = values(random, players);
        lines.payoff(&counts, &payoffs, &vec![0; players], players - 1);
    }
    for turn in 0..132 {
        let counts = random.shape(if turn % 40 == 0 { 48 } else { 8 }, COUNT);
        let cells = document::cells(&counts) as usize;
        let mut payoffs = values(random, cells);
        let player = random.below(counts.len());
        let profile = random.profile(&counts);
        lines.payoff(&counts, &payoffs, &profile, player);
        let bad = random.bad_profile(&counts);
        match turn % 12 {
            0 | 1 | 2 => lines.payoff(&counts, &payoffs, &bad, player),
            3 => lines.payoff(&counts, &payoffs, &profile, counts.len()),
            4 => lines.payoff(&counts, &payoffs, &bad, counts.len()),
            5 => lines.payoff(&counts, &payoffs[1..], &profile, player),
            6 => {
                let place = [0, cells / 2, cells - 1][turn / 12 % 3];
                payoffs[place] = random.non_finite();
                lines.payoff(&counts, &payoffs, &bad, player);
            }
            7 => {
                let mut without = counts.clone();
                without[player] = 0;
                lines.payoff(&without, &payoffs[..1], &profile, player);
            }
            _ => lines.payoff(
                &counts,
                &payoffs,
                &random.profile(&counts),
                random.below(counts.len()),
            ),
        }
    }
}

/// Document 01's games.
fn games(lines: &mut Lines) {
    let games: [(&[usize], &[f64]); 6] = [
        (&[2, 2], &[2.0, 2.0, 0.0, 3.0, 3.0, 0.0, 1.0, 1.0]),
        (&[2, 2], &[1.0, -1.0, -1.0, 1.0, -1.0, 1.0, 1.0, -1.0]),
        (&[2, 2], &[2.0, 2.0, 0.0, 0.0, 0.0, 0.0, 1.0, 1.0]),
        (&[3], &[1.0, 5.0, 5.0]),
        (&[2], &[-0.0, 0.0]),
        (&[2, 2], &[1.0, 1.0, 0.0, 0.0, 0.0, 1.0, 1.0, 0.0]),
    ];
    for (counts, payoffs) in games {
        for player in 0..counts.len() {
            lines.solvers(&Case {
                counts,
                payoffs,
                player,
                opponents: &vec![player; counts.len() - 1],
                profile: &vec![1 - player; counts.len()],
                room: solvers::ENOUGH[player],
            });
        }
    }
}

/// Tables with ties and both zeros, most of them of values whose bits have few digits, and every
/// length of the outputs.
fn tables(lines: &mut Lines, random: &mut Random) {
    let shapes: [&[usize]; 8] = [
        &[2, 2],
        &[3, 2],
        &[2, 3],
        &[3, 3],
        &[2, 2, 2],
        &[1; document::PLAYERS],
        &[2, 1, 3],
        &[COUNT],
    ];
    for turn in 0..50 {
        let counts = match turn % 3 {
            0 => random.shape(ELEMENTS / 3, COUNT),
            _ => shapes[turn / 2 % shapes.len()].to_vec(),
        };
        let room = match turn % 5 {
            4 => solvers::SHORT[turn / 5 % solvers::SHORT.len()],
            _ => solvers::ENOUGH[turn % solvers::ENOUGH.len()],
        };
        let payoffs = few_digits(random, &counts, turn % 4);
        let player = random.below(counts.len());
        let profile = random.profile(&counts);
        lines.solvers(&Case {
            counts: &counts,
            payoffs: &payoffs,
            player,
            opponents: &cases::without(&profile, player),
            profile: &profile,
            room,
        });
    }
}

/// A player's own choice with a cell here and there of another value; both zeros and others, where
/// the cells are few; three values.
fn few_digits(random: &mut Random, counts: &[usize], style: usize) -> Vec<f64> {
    let own = cases::own_choices(counts);
    let few = own.len() < 10;
    own.iter()
        .map(|choice| match style {
            0 if random.below(16) > 0 => f64::from_bits(*choice as u64),
            1 if few => random.pick(&cases::VALUES),
            2 if few => random.pick(&[0.0, -0.0, 5e-324, 1e-323]),
            _ => f64::from_bits(random.word() % 3),
        })
        .collect()
}

/// Each refusal, with every later fault present too.
fn refusals(lines: &mut Lines) {
    let nan = f64::NAN;
    let mut nine = [1; document::PLAYERS + 1];
    nine[document::PLAYERS] = 0;
    let many = document::STRATEGIES + 1;
    let mut case = Case {
        counts: &[],
        payoffs: &[nan],
        player: usize::MAX,
        opponents: &[2, usize::MAX, 0],
        profile: &[2],
        room: [solvers::EMPTY; 2],
    };
    let tables: [(&[usize], &[f64]); 9] = [
        (&[], &[nan]),
        (&nine, &[nan]),
        (&[0, many], &[nan]),
        (&[many, 0], &[nan]),
        (&[COUNT; 3], &[nan]),
        (&[2, 1], &[0.0, nan, 0.0]),
        (&[2, 1], &[0.0; 5]),
        (&[2, 1], &[0.0, 0.0, nan, 0.0]),
        (&[2, 1], &[0.0, 0.0, 0.0, f64::NEG_INFINITY]),
    ];
    for (counts, payoffs) in tables {
        lines.solvers(&Case {
            counts,
            payoffs,
            ..case
        });
    }
    case.counts = &[2, 1];
    case.payoffs = &[0.0, 0.0, 1.0, 0.0];
    lines.solvers(&case);
    case.player = 1;
    case.profile = &[0, 1, 0];
    lines.solvers(&case);
    case.opponents = &[2];
    case.profile = &[2, 0];
    lines.solvers(&case);
    case.opponents = &[1];
    case.profile = &[0, usize::MAX];
    lines.solvers(&case);
    case.player = 0;
    case.opponents = &[0];
    lines.solvers(&case);
    for room in solvers::SHORT {
        lines.solvers(&Case { room, ..case });
    }
}
