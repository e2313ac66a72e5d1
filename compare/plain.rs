//! Plain Rust, for the times: the finite check of a slice; a profile's offset; a reader and a writer
//! of deposit files, each a pass that checks and one that writes; a table's catalogue number; and a
//! sweep that marks best responses, with the listings by marks.

use crate::catalogue::{COUNTS, NUMBERS};
use crate::deposit::{CELL, CLOSING, COUNT, OPENING, PAYLOADS};
use crate::document::{CELLS, PLAYERS, STRATEGIES};

/// The payload of the word at a place, which is to be of a kind.
fn due(bytes: &[u8], place: usize, kind: u32) -> Result<u32, u32> {
    let word = bytes.get(4 * place..4 * place + 4).ok_or(17u32)?;
    let word = u32::from_be_bytes(word.try_into().unwrap());
    if word >> 30 == kind {
        Ok(word % PAYLOADS)
    } else {
        Err(18)
    }
}

/// The three words of a cell.
fn cell(bytes: &[u8]) -> [u32; 3] {
    [0, 4, 8].map(|place| u32::from_be_bytes(bytes[place..place + 4].try_into().unwrap()))
}

fn bits([top, next, last]: [u32; 3]) -> u64 {
    u64::from(top) << 60 | u64::from(next % PAYLOADS) << 30 | u64::from(last % PAYLOADS)
}

fn finite(bits: u64) -> bool {
    bits >> 52 & 0x7ff != 0x7ff
}

/// The first fault of the words of some cells, one after the other.
#[cold]
fn fault(bytes: &[u8]) -> u32 {
    for place in 0..3 {
        match due(bytes, place, CELL) {
            Err(fault) => return fault,
            Ok(payload) if place == 0 && payload > 15 => return 19,
            _ => (),
        }
    }
    7
}

fn check_count(count: usize) -> Result<(), u32> {
    match count {
        0 => Err(3),
        1..=STRATEGIES => Ok(()),
        _ => Err(4),
    }
}

/// Whether all values are finite, up to the first that isn't. How long the loop takes depends on
/// where it stands in memory, by a factor of two: so it may stand `PLACE` bytes further on.
#[inline(never)]
pub fn all_finite<const PLACE: usize>(values: &[f64]) -> bool {
    unsafe { std::arch::asm!(".skip {}, 0x90", const PLACE) };
    values.iter().all(|value| value.is_finite())
}

#[inline(never)]
pub fn read(bytes: &[u8], counts: &mut [usize], payoffs: &mut [f64]) -> Result<usize, u32> {
    if bytes.len() % 4 != 0 {
        return Err(17);
    }
    let opening = due(bytes, 0, OPENING)?;
    if opening / 256 != 1 {
        return Err(19);
    }
    let players = opening as usize % 256;
    if players == 0 {
        return Err(1);
    }
    if players > PLAYERS {
        return Err(2);
    }
    let mut cells = players;
    let mut held = [0; PLAYERS];
    for (player, count) in held[..players].iter_mut().enumerate() {
        *count = due(bytes, 1 + player, COUNT)? as usize;
        check_count(*count)?;
        cells *= *count;
    }
    if cells > CELLS {
        return Err(5);
    }
    if counts.len() < players || payoffs.len() < cells {
        return Err(13);
    }
    let body = &bytes[4 * (1 + players)..];
    let body = &body[..body.len().min(12 * cells)];
    let words = body.chunks_exact(12);
    let rest = words.remainder();
    for bytes in words {
        let [top, next, last] = cell(bytes);
        let kinds = top >> 4 == CELL << 26 && next >> 30 == CELL && last >> 30 == CELL;
        if !kinds || !finite(bits([top, next, last])) {
            return Err(fault(bytes));
        }
    }
    if body.len() < 12 * cells {
        return Err(fault(rest));
    }
    let before = 1 + players + 3 * cells;
    if due(bytes, before, CLOSING)? as usize != before {
        return Err(19);
    }
    if bytes.len() > 4 * (before + 1) {
        return Err(20);
    }
    counts[..players].copy_from_slice(&held[..players]);
    for (payoff, bytes) in payoffs.iter_mut().zip(body.chunks_exact(12)) {
        *payoff = f64::from_bits(bits(cell(bytes)));
    }
    Ok(players)
}

/// The cells of a table, whose payoffs are as many.
#[inline(always)]
fn sized(counts: &[usize], payoffs: &[f64]) -> Result<usize, u32> {
    if counts.is_empty() {
        return Err(1);
    }
    if counts.len() > PLAYERS {
        return Err(2);
    }
    let mut cells = counts.len();
    for count in counts {
        check_count(*count)?;
        cells *= *count;
    }
    if cells > CELLS {
        return Err(5);
    }
    if payoffs.len() != cells {
        return Err(6);
    }
    Ok(cells)
}

/// The same, and they are finite.
#[inline(always)]
fn checked(counts: &[usize], payoffs: &[f64]) -> Result<usize, u32> {
    let cells = sized(counts, payoffs)?;
    if !payoffs.iter().all(|payoff| payoff.is_finite()) {
        return Err(7);
    }
    Ok(cells)
}

/// The same, tested in runs without an exit, which are compiled to vector instructions.
#[inline(always)]
fn checked_in_runs(counts: &[usize], payoffs: &[f64]) -> Result<usize, u32> {
    let cells = sized(counts, payoffs)?;
    let finite = |run: &[f64]| {
        run.iter()
            .fold(true, |all, payoff| all & payoff.is_finite())
    };
    if !payoffs.chunks(1_024).all(finite) {
        return Err(7);
    }
    Ok(cells)
}

/// The same, and there is a mark for each.
#[inline(always)]
fn checked_with_marks(counts: &[usize], payoffs: &[f64], marks: &[u8]) -> Result<usize, u32> {
    let cells = checked_in_runs(counts, payoffs)?;
    if marks.len() < cells {
        return Err(13);
    }
    Ok(cells)
}

/// A profile's offset, carried in 32 bits.
#[inline(never)]
pub fn offset(counts: &[usize], payoffs: &[f64], profile: &[usize]) -> Result<usize, u32> {
    checked_in_runs(counts, payoffs)?;
    if profile.len() != counts.len() {
        return Err(11);
    }
    let mut offset: u32 = 0;
    for (choice, count) in profile.iter().zip(counts) {
        if choice >= count {
            return Err(12);
        }
        offset = offset * *count as u32 + *choice as u32;
    }
    Ok(offset as usize)
}

#[inline(never)]
pub fn write(counts: &[usize], payoffs: &[f64], bytes: &mut [u8]) -> Result<usize, u32> {
    let cells = checked(counts, payoffs)?;
    let before = 1 + counts.len() + 3 * cells;
    let length = 4 * (before + 1);
    if bytes.len() < length {
        return Err(13);
    }
    let word = |kind: u32, payload: u32| (kind * PAYLOADS | payload % PAYLOADS).to_be_bytes();
    let (head, body) = bytes[..length].split_at_mut(4 * (1 + counts.len()));
    let (body, closing) = body.split_at_mut(12 * cells);
    head[..4].copy_from_slice(&word(OPENING, 256 + counts.len() as u32));
    for (bytes, count) in head[4..].chunks_exact_mut(4).zip(counts) {
        bytes.copy_from_slice(&word(COUNT, *count as u32));
    }
    for (bytes, payoff) in body.chunks_exact_mut(12).zip(payoffs) {
        let bits = payoff.to_bits();
        bytes[..4].copy_from_slice(&word(CELL, (bits >> 60) as u32));
        bytes[4..8].copy_from_slice(&word(CELL, (bits >> 30) as u32));
        bytes[8..].copy_from_slice(&word(CELL, bits as u32));
    }
    closing.copy_from_slice(&word(CLOSING, before as u32));
    Ok(length)
}

/// The payoffs' order: both zeros are 0.
fn order_key(payoff: f64) -> i64 {
    let bits = payoff.to_bits() as i64;
    if bits < 0 {
        i64::MIN - bits
    } else {
        bits
    }
}

/// The ranks of a player's payoffs at the four profiles, if no two are equal.
fn ranks(payoffs: &[f64], player: usize) -> Option<[u16; 4]> {
    let keys = [0, 2, 4, 6].map(|place| order_key(payoffs[place + player]));
    let ranks = keys.map(|key| keys.map(|other| u16::from(other < key)).iter().sum::<u16>());
    let each = ranks.iter().fold(0, |each, rank| each | 1 << rank);
    (each == 0b1111).then_some(ranks)
}

/// The table's number, where the least keys are these, ascending.
#[inline(never)]
pub fn number(
    least_keys: &[u16; NUMBERS],
    counts: &[usize],
    payoffs: &[f64],
) -> Result<Option<usize>, u32> {
    checked(counts, payoffs)?;
    if counts != COUNTS {
        return Ok(None);
    }
    let (Some(first), Some(second)) = (ranks(payoffs, 0), ranks(payoffs, 1)) else {
        return Ok(None);
    };
    let digits = |ranks: [u16; 4]| ranks.iter().fold(0, |digits, rank| digits << 2 | rank);
    let key = digits(first) << 8 | digits(second);
    let rows = |key: u16| (key & 0x0f0f) << 4 | key >> 4 & 0x0f0f;
    let columns = |key: u16| (key & 0x3333) << 2 | key >> 2 & 0x3333;
    let least = key.min(rows(key)).min(columns(key)).min(rows(columns(key)));
    Ok(least_keys.binary_search(&least).ok())
}

/// Marks each cell: 1 where the payoff is the greatest of the player's row, else 0. A row's cells are
/// `stride` from one another, and rows that overlap make up a block.
#[inline(always)]
fn sweep(counts: &[usize], payoffs: &[f64], marks: &mut [u8]) {
    let players = counts.len();
    let mut stride = players;
    for (player, count) in counts.iter().enumerate().rev() {
        let block = stride * count;
        let mut first = 0;
        while first < payoffs.len() {
            let payoffs = &payoffs[first..first + block];
            let marks = &mut marks[first..first + block];
            let mut start = player;
            while start < stride {
                mark_row(payoffs, marks, start, stride);
                start += players;
            }
            first += block;
        }
        stride = block;
    }
}

/// Marks a row of a block.
#[inline(always)]
fn mark_row(payoffs: &[f64], marks: &mut [u8], start: usize, stride: usize) {
    let mut greatest = payoffs[start];
    let mut cell = start + stride;
    while cell < payoffs.len() {
        let payoff = payoffs[cell];
        greatest = if payoff > greatest { payoff } else { greatest };
        cell += stride;
    }
    cell = start;
    while cell < payoffs.len() {
        marks[cell] = u8::from(payoffs[cell] == greatest);
        cell += stride;
    }
}

/// Lists the profiles that have no 0 among their marks, as many as both outputs hold whole: how many
/// there are, and how many are written.
#[inline(always)]
fn list(
    counts: &[usize],
    payoffs: &[f64],
    marks: &[u8],
    choices: &mut [usize],
    utilities: &mut [f64],
) -> [usize; 2] {
    let players = counts.len();
    let [mut total, mut written] = [0, 0];
    let [mut first, mut room] = [0, 0];
    let mut offset = 0;
    while first < payoffs.len() {
        let payoffs = &payoffs[first..first + players];
        if !marks[first..first + players].contains(&0) {
            total += 1;
            let entry = room..room + players;
            let outputs = (choices.get_mut(entry.clone()), utilities.get_mut(entry));
            if let (Some(choices), Some(utilities)) = outputs {
                let mut rest: u32 = offset;
                for player in (0..players).rev() {
                    let count = counts[player] as u32;
                    choices[player] = (rest % count) as usize;
                    utilities[player] = payoffs[player];
                    rest /= count;
                }
                written += 1;
                room += players;
            }
        }
        first += players;
        offset += 1;
    }
    [total, written]
}

/// How many marks are 1; the bytes past the cells keep their contents.
#[inline(never)]
pub fn best_response_marks(
    counts: &[usize],
    payoffs: &[f64],
    marks: &mut [u8],
) -> Result<usize, u32> {
    let cells = checked_with_marks(counts, payoffs, marks)?;
    let marks = &mut marks[..cells];
    sweep(counts, payoffs, marks);
    let runs = marks.chunks(usize::from(u8::MAX));
    Ok(runs.map(|run| usize::from(run.iter().sum::<u8>())).sum())
}

#[inline(never)]
pub fn marked_profiles(
    counts: &[usize],
    payoffs: &[f64],
    marks: &[u8],
    choices: &mut [usize],
    utilities: &mut [f64],
) -> Result<[usize; 2], u32> {
    checked_with_marks(counts, payoffs, marks)?;
    Ok(list(counts, payoffs, marks, choices, utilities))
}

/// All equilibria, by a sweep into marks that are lent, at least as many as cells.
#[inline(never)]
pub fn equilibria(
    counts: &[usize],
    payoffs: &[f64],
    marks: &mut [u8],
    choices: &mut [usize],
    utilities: &mut [f64],
) -> Result<[usize; 2], u32> {
    checked_with_marks(counts, payoffs, marks)?;
    sweep(counts, payoffs, marks);
    Ok(list(counts, payoffs, marks, choices, utilities))
}
