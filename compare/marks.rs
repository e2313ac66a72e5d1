//! The comparison of the sweep that marks best responses, and of the listing from marks. The Rust judges a sweep by its
//! best responses of every row, and the listing from a sweep's marks by its equilibria; of other marks it cannot be
//! asked. Change N3's marks stand beside both.

use crate::cases::{self, Random};
use crate::document::{self, CELLS, STRATEGIES};
use crate::library::{self, Answer, Bits, Listing, Swept};
use crate::listings::{self, EVERY, SOME};
use crate::rust::{self, Judged};
use crate::solvers;
use crate::strikes::LEAST;
use crate::survivors::Game;
use crate::tally::{self, agreed, end, numbers, sure, Judge, Tally, STATUSES};

/// What a sweep is counted under, after the refusals of its table: that there are too few bytes; and how many best
/// responses are marked, each without and with bytes past the cells.
const SHORT: u32 = document::NON_FINITE + 1;
const MARKED: u32 = SHORT + 2;

const OTHERS: [&str; 8] = [
    "refused by 13, a byte short:",
    "refused by 13, shorter:",
    "accepted, one best response to a row:",
    "accepted, the same with bytes past the cells:",
    "accepted, some ties:",
    "accepted, the same with bytes past the cells:",
    "accepted, every choice a best response:",
    "accepted, the same with bytes past the cells:",
];

const GROUNDS: [&str; 1 + document::TABLE_FAULTS.len() + OTHERS.len()] =
    tally::after(&STATUSES, &OTHERS);

/// How many bytes past the cells a buffer may have.
const PAST: usize = 9;

/// So many bytes: any; few of them 0; of a few values; or all the same.
fn bytes(random: &mut Random, length: usize) -> Vec<u8> {
    let style = random.below(4);
    let same = random.pick(&[0, 1, 2, 0xa5, 255]);
    let byte = |_| match style {
        0 => random.word() as u8,
        1 if random.below(8) == 0 => 0,
        1 => set(random),
        2 => random.pick(&[0, 1, 2, 255]),
        _ => same,
    };
    (0..length).map(byte).collect()
}

/// A byte that is a mark.
fn set(random: &mut Random) -> u8 {
    match random.below(2) {
        0 => random.pick(&[1, 2, 128, 255]),
        _ => 1 + random.below(255) as u8,
    }
}

pub struct Marks {
    pub sweep: Tally,
    pub listing: Tally,
    /// How often the listing from a sweep's marks was held to that of the equilibria: all written, and not all.
    beside: [usize; 2],
    /// For bytes, and for the lengths of the outputs of a listing.
    random: Random,
}

impl Marks {
    /// What a sweep has to meet where its buffer is too short; and with the Rust.
    pub const SHORT: [u32; 2] = [SHORT, SHORT + 1];

    pub fn with_rust() -> Vec<u32> {
        tally::from(MARKED, &GROUNDS, &[1, 3, 6, 7])
    }

    /// Both calls on a table: the sweep into buffers of every kind of length; and the listing, from as many bytes as
    /// there are cells, or more, and from too few.
    fn table(&mut self, counts: &[usize], payoffs: &[f64], most: usize) {
        let judged = Judged::new(counts, payoffs);
        let marks = judged.matrix().map(rust::marks);
        let cells = payoffs.len();
        let few = [0, cells.saturating_sub(1)];
        for length in [few, [cells, cells + PAST]].concat() {
            self.sweep(&judged, &marks, length);
        }
        let any = bytes(&mut self.random, cells);
        let any = self.lengthened(any);
        let (by, short) = match marks {
            Ok(marks) => {
                self.marked(&judged, marks, &any, most);
                (Judge::Unasked, document::SHORT)
            }
            Err(refusal) => {
                self.listing(&judged, &any, judged.by, Err(refusal), most);
                (judged.by, refusal)
            }
        };
        let length = self.random.pick(&few);
        let few = bytes(&mut self.random, length);
        self.listing(&judged, &few, by, Err(short), 1);
    }

    /// The listing from the marks of the sweep, from the same with any byte for 1, and from any bytes.
    fn marked(&mut self, judged: &Judged, marks: Vec<u8>, any: &[u8], most: usize) {
        let input = || solvers::table(judged);
        let game = Game {
            counts: judged.counts,
            payoffs: judged.payoffs,
        };
        let equilibria = judged.equilibria().unwrap();
        agreed(&marks, &game.marks(), input);
        agreed(&equilibria, &game.marked(&marks), input);
        let mut others = marks.clone();
        for mark in others.iter_mut().filter(|mark| **mark == 1) {
            *mark = set(&mut self.random);
        }
        for marks in [marks, others] {
            let marks = self.lengthened(marks);
            self.listing(judged, &marks, judged.by, Ok(&equilibria), most);
        }
        let listing = game.marked(any);
        self.listing(judged, any, Judge::Unasked, Ok(&listing), most);
    }

    /// The bytes, and others past them in half of the cases.
    fn lengthened(&mut self, mut some: Vec<u8>) -> Vec<u8> {
        let past = self.random.pick(&[0, PAST]);
        some.extend(bytes(&mut self.random, past));
        some
    }

    /// The sweep into a buffer of so many bytes, whatever they are.
    fn sweep(&mut self, judged: &Judged, marks: &Result<Vec<u8>, u32>, length: usize) {
        let old = bytes(&mut self.random, length);
        let (ground, by, judge) = match marks {
            Err(refusal) => (*refusal, judged.by, Answer::Refused(*refusal)),
            Ok(marks) if length < marks.len() => {
                let ground = SHORT + u32::from(length + 1 < marks.len());
                (ground, Judge::TooShort, Answer::Refused(document::SHORT))
            }
            Ok(marks) => {
                let past = &old[marks.len()..];
                let number = marks.iter().filter(|mark| **mark == 1).count();
                let ground = ground(judged.counts, number) + u32::from(!past.is_empty());
                let bytes = [marks, past].concat();
                let swept = Swept { number, bytes };
                (ground, judged.by, Answer::Accepted(swept))
            }
        };
        let input = || solvers::table(judged) + &line("buffer", &old);
        let library = library::best_response_marks(judged.counts, judged.payoffs, &old);
        self.sweep.compare_as(ground, by, input, judge, library);
    }

    /// The listing from marks into outputs of so many pairs of lengths, or of each, given what it lists; where the Rust
    /// judges it, beside that of the equilibria.
    fn listing(
        &mut self,
        judged: &Judged,
        marks: &[u8],
        by: Judge,
        listing: Result<&Listing<Bits>, u32>,
        most: usize,
    ) {
        let Judged {
            counts, payoffs, ..
        } = *judged;
        let total = listings::total(listing);
        for lengths in listings::drawn(&mut self.random, counts.len(), total, most) {
            let (ground, judge) = listings::answer(listing, counts.len(), lengths);
            let input =
                || solvers::table(judged) + &line("marks", marks) + &numbers("lengths", &lengths);
            let library = library::marked_profiles(counts, payoffs, marks, lengths);
            if by == Judge::Rust {
                let whole = library::equilibria(counts, payoffs, lengths);
                if library != whole {
                    let input = input();
                    end(&format!(
                        "the listing from marks is not that of the equilibria\n{input}  {library:?}\n  {whole:?}"
                    ));
                }
                if let Answer::Accepted(listed) = whole {
                    self.beside[usize::from(listed.written.number < listed.total)] += 1;
                }
            }
            self.listing.compare_as(ground, by, input, judge, library);
        }
    }

    /// The line of the listing from a sweep's marks beside that of the equilibria; lengths that came too rarely end the
    /// run.
    pub fn report_beside(&self) {
        let [all, not_all] = self.beside;
        println!("marked_profiles of a sweep beside equilibria: all written: {all}, not all written: {not_all}");
        sure(
            all.min(not_all) >= LEAST,
            "the listing from marks was held to that of the equilibria too rarely",
        );
    }
}

/// What a sweep that marks so many cells is counted under, without bytes past them: at least one is marked in each row,
/// and a player has as many rows as there are profiles, divided by its count.
fn ground(counts: &[usize], number: usize) -> u32 {
    let profiles: usize = counts.iter().product();
    let rows = counts.iter().map(|count| profiles / count).sum();
    sure(number >= rows, "there are fewer marks than rows");
    match number {
        _ if number == rows => MARKED,
        _ if number < profiles * counts.len() => MARKED + 2,
        _ => MARKED + 4,
    }
}

/// An input's line: its name, then its bytes.
fn line(name: &str, bytes: &[u8]) -> String {
    let bytes: Vec<usize> = bytes.iter().copied().map(usize::from).collect();
    numbers(name, &bytes)
}

pub fn marks() -> Marks {
    let mut marks = Marks {
        sweep: Tally::of("best_response_marks", &GROUNDS, LEAST),
        listing: Tally::of("marked_profiles", &listings::GROUNDS, LEAST),
        beside: [0; 2],
        random: Random(19),
    };
    let mut random = Random(20);
    known(&mut marks);
    for _ in 0..120 {
        for faults in 0..1 << document::TABLE_FAULTS.len() {
            let (counts, payoffs) = solvers::faulty_table(&mut random, faults);
            marks.table(&counts, &payoffs, 1);
        }
    }
    for _ in 0..60_000 {
        let (counts, payoffs, _) = random.junk();
        marks.table(&counts, &payoffs, 1);
    }
    let mut payoffs = Vec::new();
    for filling in cases::small_fillings(8) {
        for number in 0..filling.number() {
            filling.fill(&mut random, &mut payoffs, number);
            marks.table(&filling.counts, &payoffs, 1);
        }
    }
    for players in 1..=3 {
        for shape in cases::lists(&[1, 2, 3], players) {
            for _ in 0..400 {
                marks.table(&shape, &random.payoffs(&shape), EVERY);
            }
        }
    }
    for turn in 0..8_000 {
        let cells = if turn % 200 == 0 { CELLS } else { 256 };
        let shape = random.shape(cells, STRATEGIES);
        marks.table(&shape, &random.payoffs(&shape), SOME);
    }
    for shape in cases::large_shapes() {
        for _ in 0..4 {
            marks.table(&shape, &random.payoffs(&shape), SOME);
        }
    }
    marks
}

/// Document 01's games, whose marks are spelled here.
fn known(marks: &mut Marks) {
    let games: [(&[usize], &[f64], &[u8]); 5] = [
        (
            &[2, 2],
            &[2.0, 2.0, 0.0, 3.0, 3.0, 0.0, 1.0, 1.0],
            &[0, 0, 0, 1, 1, 0, 1, 1],
        ),
        (
            &[2, 2],
            &[1.0, -1.0, -1.0, 1.0, -1.0, 1.0, 1.0, -1.0],
            &[1, 0, 0, 1, 0, 1, 1, 0],
        ),
        (
            &[2, 2],
            &[2.0, 2.0, 0.0, 0.0, 0.0, 0.0, 1.0, 1.0],
            &[1, 1, 0, 0, 0, 0, 1, 1],
        ),
        (&[3], &[1.0, 5.0, 5.0], &[0, 1, 1]),
        (&[2], &[-0.0, 0.0], &[1, 1]),
    ];
    for (counts, payoffs, known) in games {
        let game = Game { counts, payoffs };
        sure(
            game.marks() == known,
            "a game whose marks are known has others",
        );
        marks.table(counts, payoffs, EVERY);
    }
}
