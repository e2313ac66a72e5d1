//! Document 01's deposit file, written from its text alone, and the comparison of the calls that read and write it: the
//! Rust has neither.

use crate::deposit_cases;
use crate::document::{self, CELLS, PLAYERS, STRATEGIES};
use crate::library::{self, Answer, Bits, File, Listing, Lists};
use crate::strikes::LEAST;
use crate::tally::{floats, numbers, sure, Judge, Tally, STATUSES};
use std::fmt::Write;

/// The kinds of words.
pub const OPENING: u32 = 0;
pub const COUNT: u32 = 1;
pub const CELL: u32 = 2;
pub const CLOSING: u32 = 3;

/// A word is its kind times this, and its payload.
pub const PAYLOADS: u32 = 1 << 30;

/// What an answer of the reader rests on, in the order in which a file is met.
#[derive(Clone, Copy, PartialEq, PartialOrd)]
pub enum Ground {
    Length,
    NoOpening,
    OpeningKind,
    Edition,
    NoPlayers,
    ManyPlayers,
    NoCount,
    CountKind,
    NoStrategies,
    ManyStrategies,
    ManyCells,
    ShortCounts,
    ShortPayoffs,
    ShortBoth,
    NoCell,
    CellKind,
    FirstOver,
    NonFinite,
    NoClosing,
    ClosingKind,
    ClosingNumber,
    Follows,
    Accepted,
}

/// Each ground with its refusal's number and its title.
pub const GROUNDS: [(Ground, u32, &str); Ground::Accepted as usize + 1] = [
    (Ground::Length, 17, "refused by 17, the length:"),
    (Ground::NoOpening, 17, "refused by 17, no opening word:"),
    (Ground::OpeningKind, 18, "refused by 18, the opening word:"),
    (Ground::Edition, 19, "refused by 19, the edition:"),
    (Ground::NoPlayers, 1, "refused by 1:"),
    (Ground::ManyPlayers, 2, "refused by 2:"),
    (Ground::NoCount, 17, "refused by 17, no count word:"),
    (Ground::CountKind, 18, "refused by 18, a count word:"),
    (Ground::NoStrategies, 3, "refused by 3:"),
    (Ground::ManyStrategies, 4, "refused by 4:"),
    (Ground::ManyCells, 5, "refused by 5:"),
    (Ground::ShortCounts, 13, "refused by 13, the counts alone:"),
    (
        Ground::ShortPayoffs,
        13,
        "refused by 13, the payoffs alone:",
    ),
    (Ground::ShortBoth, 13, "refused by 13, both:"),
    (Ground::NoCell, 17, "refused by 17, no cell word:"),
    (Ground::CellKind, 18, "refused by 18, a cell word:"),
    (
        Ground::FirstOver,
        19,
        "refused by 19, the first of three words:",
    ),
    (Ground::NonFinite, 7, "refused by 7:"),
    (Ground::NoClosing, 17, "refused by 17, no closing word:"),
    (Ground::ClosingKind, 18, "refused by 18, the closing word:"),
    (
        Ground::ClosingNumber,
        19,
        "refused by 19, the closing number:",
    ),
    (Ground::Follows, 20, "refused by 20:"),
    (Ground::Accepted, 0, "accepted"),
];

const TITLES: [&str; GROUNDS.len()] = {
    let mut titles = [""; GROUNDS.len()];
    let mut i = 0;
    while i < titles.len() {
        titles[i] = GROUNDS[i].2;
        i += 1;
    }
    titles
};

/// The words of a table, or of what would be one: a count is cut to a payload.
pub fn words(counts: &[usize], payoffs: &[f64]) -> Vec<u32> {
    let word = |kind: u32, payload: u64| kind * PAYLOADS + (payload % u64::from(PAYLOADS)) as u32;
    let mut words = vec![word(OPENING, 256 + counts.len() as u64)];
    for count in counts {
        words.push(word(COUNT, *count as u64));
    }
    for payoff in payoffs {
        let bits = payoff.to_bits();
        words.push(word(CELL, bits >> 60));
        words.push(word(CELL, bits >> 30));
        words.push(word(CELL, bits));
    }
    words.push(word(CLOSING, words.len() as u64));
    words
}

pub fn bytes(words: &[u32]) -> Vec<u8> {
    words.iter().flat_map(|word| word.to_be_bytes()).collect()
}

/// The words of a file from left to right.
struct Met {
    words: Vec<u32>,
    number: usize,
}

impl Met {
    /// The payload of the next word, which is to be of a kind.
    fn due(&mut self, kind: u32) -> Result<u32, Ground> {
        let [absent, other] = match kind {
            OPENING => [Ground::NoOpening, Ground::OpeningKind],
            COUNT => [Ground::NoCount, Ground::CountKind],
            CELL => [Ground::NoCell, Ground::CellKind],
            _ => [Ground::NoClosing, Ground::ClosingKind],
        };
        let word = *self.words.get(self.number).ok_or(absent)?;
        self.number += 1;
        if word / PAYLOADS == kind {
            Ok(word % PAYLOADS)
        } else {
            Err(other)
        }
    }
}

/// The first fault that applies.
fn first(faults: &[(bool, Ground)]) -> Result<(), Ground> {
    match faults.iter().find(|(applies, _)| *applies) {
        Some((_, ground)) => Err(*ground),
        None => Ok(()),
    }
}

/// What a file says into outputs of these lengths: P, the counts and the payoffs.
pub fn read(bytes: &[u8], lengths: [usize; 2]) -> Result<Listing<Bits>, Ground> {
    first(&[(bytes.len() % 4 != 0, Ground::Length)])?;
    let words = bytes.chunks(4);
    let words = words.map(|word| u32::from_be_bytes(word.try_into().unwrap()));
    let mut met = Met {
        words: words.collect(),
        number: 0,
    };
    let opening = met.due(OPENING)?;
    let players = (opening % 256) as usize;
    first(&[
        (opening / 256 != 1, Ground::Edition),
        (players == 0, Ground::NoPlayers),
        (players > PLAYERS, Ground::ManyPlayers),
    ])?;
    let mut counts = Vec::new();
    for _ in 0..players {
        let count = met.due(COUNT)? as usize;
        first(&[
            (count == 0, Ground::NoStrategies),
            (count > STRATEGIES, Ground::ManyStrategies),
        ])?;
        counts.push(count);
    }
    let cells = document::cells(&counts);
    first(&[(cells > CELLS as u128, Ground::ManyCells)])?;
    let cells = cells as usize;
    let short = [lengths[0] < players, lengths[1] < cells];
    first(&[
        (short == [true, true], Ground::ShortBoth),
        (short[0], Ground::ShortCounts),
        (short[1], Ground::ShortPayoffs),
    ])?;
    let mut payoffs = Vec::new();
    for _ in 0..cells {
        let top = met.due(CELL)?;
        first(&[(top > 15, Ground::FirstOver)])?;
        let next = met.due(CELL)?;
        let last = met.due(CELL)?;
        let bits = (u64::from(top) << 60) + (u64::from(next) << 30) + u64::from(last);
        let payoff = f64::from_bits(bits);
        first(&[(document::some_non_finite(&[payoff]), Ground::NonFinite)])?;
        payoffs.push(Bits(bits));
    }
    let before = met.number;
    let closing = met.due(CLOSING)?;
    first(&[
        (closing as usize != before, Ground::ClosingNumber),
        (met.number < met.words.len(), Ground::Follows),
    ])?;
    Ok(Listing {
        number: players,
        first: counts,
        second: payoffs,
    })
}

/// The file of a table into an output of a length, or the refusal: 1 to 7, then 13.
fn write(counts: &[usize], payoffs: &[f64], length: usize) -> Result<Vec<u8>, u32> {
    let refusal = document::table_refusal(counts, payoffs);
    if refusal != 0 {
        return Err(refusal);
    }
    let bytes = bytes(&words(counts, payoffs));
    if bytes.len() > length {
        return Err(document::SHORT);
    }
    Ok(bytes)
}

pub struct Deposits {
    pub read: Tally,
    pub write: Tally,
}

impl Deposits {
    /// What the writer has to meet; the reader has to meet every ground.
    pub const WRITE: [u32; 9] = [0, 1, 2, 3, 4, 5, 6, 7, document::SHORT];

    /// A file into outputs of these lengths; where it is accepted, writing what was read gives the bytes back.
    pub fn read(&mut self, bytes: &[u8], lengths: [usize; 2]) {
        if let Some(table) = self.compare_read(bytes, lengths) {
            let payoffs: Vec<f64> = table.second.iter().map(|it| f64::from_bits(it.0)).collect();
            let written = self.compare_write(&table.first, &payoffs, bytes.len());
            let same = written.is_some_and(|written| written == bytes);
            sure(same, "writing what was read gives other bytes");
        }
    }

    /// A table into an output of a length; where it is accepted, reading what was written gives the table back.
    pub fn write(&mut self, counts: &[usize], payoffs: &[f64], length: usize) {
        if let Some(bytes) = self.compare_write(counts, payoffs, length) {
            let read = self.compare_read(&bytes, [counts.len(), payoffs.len()]);
            let table = Listing {
                number: counts.len(),
                first: counts.to_vec(),
                second: payoffs.iter().copied().map(Bits::of).collect(),
            };
            let same = read.is_some_and(|read| read == table);
            sure(same, "reading what was written gives another table");
        }
    }

    fn compare_read(&mut self, bytes: &[u8], lengths: [usize; 2]) -> Option<Listing<Bits>> {
        let judge = read(bytes, lengths);
        let ground = *judge.as_ref().err().unwrap_or(&Ground::Accepted);
        let mut lists = Lists::fresh(lengths);
        let status = library::read(bytes, &mut lists);
        self.read.compare_as(
            ground as u32,
            Judge::Unasked,
            || file(bytes) + &numbers("lengths", &lengths),
            Answer::from(judge.clone().map_err(|ground| GROUNDS[ground as usize].1)),
            lists.answer_table(status),
        );
        judge.ok()
    }

    fn compare_write(
        &mut self,
        counts: &[usize],
        payoffs: &[f64],
        length: usize,
    ) -> Option<Vec<u8>> {
        let judge = write(counts, payoffs, length);
        let mut lent = File::fresh(length);
        let status = library::write(counts, payoffs, &mut lent);
        self.write.compare(
            Judge::Unasked,
            || {
                numbers("counts", counts)
                    + &floats("payoffs", payoffs)
                    + &numbers("length", &[length])
            },
            Answer::from(judge.clone()),
            lent.answer(status),
        );
        judge.ok()
    }
}

/// An input's line: the words of a file, and the bytes of its last one.
pub fn file(bytes: &[u8]) -> String {
    let mut line = String::from("  file");
    for word in bytes.chunks(4) {
        line.push(' ');
        for byte in word {
            let _ = write!(line, "{byte:02x}");
        }
    }
    line + "\n"
}

pub fn deposits() -> Deposits {
    let mut deposits = Deposits {
        read: Tally::of("read", &TITLES, LEAST),
        write: Tally::of("write", &STATUSES, LEAST),
    };
    deposit_cases::run(&mut deposits);
    deposits
}
