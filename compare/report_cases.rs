//! Where the cases of the report program come from.

use crate::cases::{self, Random};
use crate::catalogue;
use crate::catalogue_cases;
use crate::deposit::{self, CELL, CLOSING, PAYLOADS};
use crate::deposit_cases;
use crate::document::{self, PLAYERS, STRATEGIES};
use crate::report::{Reports, BYTES, CELLS};
use crate::strike_cases;
use crate::tally::sure;
use std::path::Path;

/// Document 01's game and its report.
const GAME: [f64; 8] = [2.0, 2.0, 0.0, 3.0, 3.0, 0.0, 1.0, 1.0];
const REPORT: &str = "\
players 2
counts 2 2
equilibria 1
1 1 3ff0000000000000 3ff0000000000000
struck 2
0 0 1
1 0 1
catalogue 71
";

/// The folder of the reports that the repository keeps, and where else their deposits stand.
pub const KEPT: &str = "tests/reports";
pub const EXAMPLES: &str = "examples";

pub fn run(reports: &mut Reports) {
    let mut random = Random(14);
    let known = reports.report(&file(&[2, 2], &GAME));
    sure(known == REPORT, "a game whose report is known has another");
    kept(reports);
    for turn in 0..1_000 {
        let cells = if turn % 10 == 0 { CELLS } else { 64 };
        let shape = random.shape(cells, STRATEGIES);
        let payoffs = strike_cases::payoffs(&mut random, &shape, turn);
        reports.report(&file(&shape, &payoffs));
    }
    for _ in 0..150 {
        let several = |shape: &[usize]| shape.iter().all(|count| *count > 1);
        let shape = shape(&mut random, 512, several);
        reports.report(&file(&shape, &cases::chain(&shape)));
    }
    for ranks in catalogue::every_ranks() {
        let payoffs = catalogue_cases::ranked(&mut random, &ranks);
        reports.report(&file(&catalogue::COUNTS, &catalogue_cases::cells(payoffs)));
        if random.below(4) == 0 {
            let payoffs = random.payoffs(&catalogue::COUNTS);
            reports.report(&file(&catalogue::COUNTS, &payoffs));
        }
    }
    for (first, ..) in deposit::GROUNDS {
        for _ in 0..80 {
            let faulty = deposit_cases::faulty(&mut random, first);
            reports.report(&faulty.bytes);
        }
    }
    for _ in 0..200 {
        damaged(reports, &mut random);
    }
    for _ in 0..100 {
        many_cells(reports, &mut random);
        many_bytes(reports, &mut random);
    }
}

/// A shape of at most so many cells that passes a test.
fn shape(random: &mut Random, cells: usize, test: impl Fn(&[usize]) -> bool) -> Vec<usize> {
    loop {
        let shape = random.shape(cells, STRATEGIES);
        if test(&shape) {
            return shape;
        }
    }
}

fn file(counts: &[usize], payoffs: &[f64]) -> Vec<u8> {
    deposit::bytes(&deposit::words(counts, payoffs))
}

/// The deposits that the repository keeps, whose reports it keeps too, in pieces.
fn kept(reports: &mut Reports) {
    let mut number = 0;
    for folder in [EXAMPLES, KEPT] {
        for entry in std::fs::read_dir(folder).expect(folder) {
            let deposit = entry.expect(folder).path();
            if deposit.extension() != Some("deposit".as_ref()) {
                continue;
            }
            let name = Path::new(KEPT).join(deposit.file_name().unwrap());
            let report = std::fs::read(name.with_extension("report"));
            let bytes = std::fs::read(&deposit).unwrap();
            let text = reports.report_in(&bytes, 3);
            let same = report.is_ok_and(|report| report == text.as_bytes());
            sure(same, &format!("{} has another report", deposit.display()));
            number += 1;
        }
    }
    sure(number > 0, "no report is kept");
}

/// A file with a bit turned; cut, at a word's end or anywhere; with bytes or words after it; of any bytes.
fn damaged(reports: &mut Reports, random: &mut Random) {
    let shape = random.shape(24, STRATEGIES);
    let whole = file(&shape, &random.payoffs(&shape));
    let mut bytes = whole.clone();
    let place = random.below(8 * bytes.len());
    bytes[place / 8] ^= 1 << (place % 8);
    reports.report(&bytes);
    let length = random.below(whole.len());
    reports.report(&whole[..length / 4 * 4]);
    reports.report(&whole[..length]);
    let length = random.pick(&[1, 2, 3, 4, 8, 24]);
    let after = any_bytes(random, length);
    reports.report(&[whole, after].concat());
    let length = 4 * random.below(8);
    reports.report(&any_bytes(random, length));
}

fn any_bytes(random: &mut Random, length: usize) -> Vec<u8> {
    (0..length).map(|_| random.word() as u8).collect()
}

/// A file of more cells than are reported and not too many for the reader, of as many bytes as are read: cut after its
/// counts, with a word of another kind there, or with some of its cells.
fn many_cells(reports: &mut Reports, random: &mut Random) {
    let many = |shape: &[usize]| document::cells(shape) > CELLS as u128;
    let shape = shape(random, document::CELLS, many);
    let cells = match random.below(3) {
        0 => 0,
        1 => random.below(8),
        _ => CELLS - PLAYERS,
    };
    let payoffs: Vec<f64> = (0..cells).map(|_| random.finite()).collect();
    let mut words = deposit::words(&shape, &payoffs);
    match random.below(3) {
        0 => words.truncate(1 + shape.len()),
        1 => words[1 + shape.len()] = random.word() as u32,
        _ => (),
    }
    reports.report(&deposit::bytes(&words));
}

/// A file of the most bytes, or nearly so, and some more, up to many times as many; or any bytes, or zeros, as many.
fn many_bytes(reports: &mut Reports, random: &mut Random) {
    let length = BYTES + random.pick(&[1, 1, 2, 3, 4, 8, 1_000, 65_536, 200_000]);
    let mut bytes = match random.below(4) {
        0 => any_bytes(random, length),
        1 => vec![0; length],
        2 => file(&[2; PLAYERS], &random.payoffs(&[2; PLAYERS])),
        _ => deposit::bytes(&deposit::words(&[3, 3], &vec![1.0; CELLS + 2])),
    };
    let words = [CELL * PAYLOADS, CLOSING * PAYLOADS];
    let after = random.pick(&words).to_be_bytes();
    while bytes.len() < length {
        bytes.extend(after);
    }
    bytes.truncate(length);
    reports.report(&bytes);
}
