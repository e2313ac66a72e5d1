//! Where the cases of deposit files come from.

use crate::cases::{self, Filling, Random};
use crate::deposit::{self, Deposits, Ground, CELL, CLOSING, COUNT, GROUNDS, OPENING, PAYLOADS};
use crate::document::{self, CELLS, STRATEGIES};
use crate::solvers::{self, Room, EMPTY, ENOUGH, SHORT};
use crate::tally::sure;

/// The bytes of an output of the writer, by how many more there are than it needs.
const BYTES: [isize; 6] = [0, 0, 0, 1, 3, 9];
const FEW_BYTES: [isize; 5] = [-1, -3, -4, -5, EMPTY];

/// Of the cells of a table with too many, mostly only so many are handed over.
const SOME: usize = 64;

pub fn run(deposits: &mut Deposits) {
    let mut random = Random(12);
    known(deposits);
    for filling in cases::small_fillings(8) {
        every_table(deposits, &mut random, &filling);
    }
    for _ in 0..2_000 {
        damaged(deposits, &mut random);
    }
    for (first, ..) in GROUNDS {
        for _ in 0..4_000 {
            faulty_file(deposits, &mut random, first);
        }
    }
    for _ in 0..120 {
        for faults in 0..1 << (document::TABLE_FAULTS.len() + FAULTS.len()) {
            faulty_table(deposits, &mut random, faults);
        }
    }
    for turn in 0..8_000 {
        let cells = if turn % 80 == 0 { CELLS } else { 256 };
        let shape = random.shape(cells, STRATEGIES);
        table(deposits, &mut random, &shape);
    }
    for shape in cases::large_shapes() {
        for counts in cases::neighbours(&shape) {
            limit(deposits, &mut random, &counts);
        }
        let words = deposit::words(&shape, &random.payoffs(&shape));
        for _ in 0..60 {
            deep(deposits, &mut random, &words, &shape);
        }
    }
    for _ in 0..60_000 {
        junk(deposits, &mut random);
    }
}

/// Document 01's first game, whose words are spelled here.
fn known(deposits: &mut Deposits) {
    let (counts, payoffs) = ([2, 2], [2.0, 2.0, 0.0, 3.0, 3.0, 0.0, 1.0, 1.0]);
    let zero = [0x8000_0000; 3];
    let one = [0x8000_0003, 0xbfc0_0000, 0x8000_0000];
    let two = [0x8000_0004, 0x8000_0000, 0x8000_0000];
    let three = [0x8000_0004, 0x8020_0000, 0x8000_0000];
    let cells = [two, two, zero, three, three, zero, one, one].concat();
    let words = [
        &[0x0000_0102, 0x4000_0002, 0x4000_0002],
        &cells[..],
        &[0xc000_001b],
    ]
    .concat();
    sure(
        deposit::words(&counts, &payoffs) == words,
        "a game whose file is known has another",
    );
    deposits.read(&deposit::bytes(&words), [2, 8]);
    deposits.write(&counts, &payoffs, 112);
}

/// The elements that a table needs of the outputs of the reader.
fn needed(counts: &[usize]) -> [usize; 2] {
    let cells = document::cells(counts).min(2 * CELLS as u128);
    [counts.len(), cells as usize]
}

/// A table into a byte output of its file's length and so many more, or of any length where it is no table.
fn written(deposits: &mut Deposits, counts: &[usize], payoffs: &[f64], room: isize) {
    let words = 2 + counts.len() + 3 * payoffs.len();
    deposits.write(counts, payoffs, (4 * words).saturating_add_signed(room));
}

/// Every table of a filling, written and read back, into outputs that are long enough and too short.
fn every_table(deposits: &mut Deposits, random: &mut Random, filling: &Filling) {
    let mut payoffs = Vec::new();
    for number in 0..filling.number() {
        filling.fill(random, &mut payoffs, number);
        table_of(deposits, random, &filling.counts, &payoffs);
    }
}

/// A random table, and the same with a payoff that isn't finite.
fn table(deposits: &mut Deposits, random: &mut Random, counts: &[usize]) {
    let mut payoffs = random.payoffs(counts);
    table_of(deposits, random, counts, &payoffs);
    let place = random.below(payoffs.len());
    payoffs[place] = random.non_finite();
    table_of(deposits, random, counts, &payoffs);
}

fn table_of(deposits: &mut Deposits, random: &mut Random, counts: &[usize], payoffs: &[f64]) {
    written(deposits, counts, payoffs, random.pick(&BYTES));
    written(deposits, counts, payoffs, random.pick(&FEW_BYTES));
    let bytes = deposit::bytes(&deposit::words(counts, payoffs));
    for room in [random.pick(&ENOUGH), random.pick(&SHORT)] {
        deposits.read(&bytes, solvers::lengthened(needed(counts), room));
    }
}

/// A file with one change, for every place: cut there (what is cut off stands behind it), a bit turned, a word changed,
/// taken out, put in, exchanged with the next one; then some with several changes.
fn damaged(deposits: &mut Deposits, random: &mut Random) {
    let shape = random.shape(12, STRATEGIES);
    let words = deposit::words(&shape, &random.payoffs(&shape));
    let mut bytes = deposit::bytes(&words);
    let lengths = |random: &mut Random| match random.below(16) {
        0 => solvers::lengthened(needed(&shape), random.pick(&SHORT)),
        1 => [8, 700],
        _ => solvers::lengthened(needed(&shape), random.pick(&ENOUGH)),
    };
    for length in 0..=bytes.len() {
        deposits.read(&bytes[..length], lengths(random));
    }
    for place in 0..8 * bytes.len() {
        bytes[place / 8] ^= 1 << (place % 8);
        deposits.read(&bytes, lengths(random));
        bytes[place / 8] ^= 1 << (place % 8);
    }
    for place in 0..words.len() {
        for change in CHANGES {
            let mut words = words.clone();
            change(random, &mut words, place);
            deposits.read(&deposit::bytes(&words), lengths(random));
        }
    }
    for _ in 0..40 {
        let mut words = words.clone();
        for _ in 0..2 + random.below(3) {
            let place = random.below(words.len());
            random.pick(&CHANGES)(random, &mut words, place);
        }
        deposits.read(&deposit::bytes(&words), lengths(random));
    }
}

/// Changes of words at a place; one word is left at least.
const CHANGES: [fn(&mut Random, &mut Vec<u32>, usize); 9] = [
    |random, words, place| words[place] = kind_changed(random, words[place]),
    |_, words, place| words[place] = with_payload(words[place], words[place].wrapping_add(1)),
    |_, words, place| words[place] = with_payload(words[place], words[place].wrapping_sub(1)),
    |random, words, place| words[place] = with_payload(words[place], payload(random)),
    |random, words, place| words[place] = random.word() as u32,
    |random, words, place| words.insert(place, random.word() as u32),
    |_, words, place| words.insert(place, words[place]),
    |_, words, place| {
        if words.len() > 1 {
            words.remove(place);
        }
    },
    |_, words, place| {
        let next = (place + 1) % words.len();
        words.swap(place, next);
    },
];

/// The word with another kind.
fn kind_changed(random: &mut Random, word: u32) -> u32 {
    word.wrapping_add(PAYLOADS * random.pick(&[1, 2, 3]))
}

/// The word with a payload, cut to its bits.
fn with_payload(word: u32, payload: u32) -> u32 {
    word / PAYLOADS * PAYLOADS + payload % PAYLOADS
}

/// A payload that is small, around a limit, or anything.
fn payload(random: &mut Random) -> u32 {
    random.number() as u32 % PAYLOADS
}

/// A file, how many elements its table needs of each output, and which of the outputs is to be too short for that.
pub struct Faulty {
    pub bytes: Vec<u8>,
    needed: [usize; 2],
    short: [bool; 2],
}

/// A file with one fault, or with none, and with any of those after it, as far as they go together: so each comes with
/// later ones.
pub fn faulty(random: &mut Random, first: Ground) -> Faulty {
    let later = match random.below(3) {
        0 => 0,
        1 => random.word() & random.word(),
        _ => random.word(),
    };
    let cut = random.below(8) == 0;
    let has = |ground: Ground| {
        let absent = [Ground::NoCount, Ground::NoCell, Ground::NoClosing].contains(&ground);
        let among = later >> ground as u32 & 1 == 1 && (cut || !absent);
        ground == first || (ground > first && among)
    };
    let has_refusal = |refusal| {
        let mut grounds = GROUNDS.iter().filter(|(_, number, _)| *number == refusal);
        grounds.any(|(ground, ..)| has(*ground))
    };
    let counts = solvers::faulty_counts(random, has_refusal);
    let cells = needed(&counts)[1];
    let cells = if random.below(100) == 0 {
        cells
    } else {
        cells.min(SOME)
    };
    let payoffs: Vec<f64> = (0..cells).map(|_| random.finite()).collect();
    let mut words = deposit::words(&counts, &payoffs);
    faulty_words(random, has, &mut words, counts.len());
    let mut bytes = deposit::bytes(&words);
    if has(Ground::Length) {
        let odd = 1 + random.below(3);
        match random.below(2) {
            0 => bytes.truncate(bytes.len().saturating_sub(odd)),
            _ => bytes.extend(&[0, 0xc0, 0][..odd]),
        }
    }
    let both = has(Ground::ShortBoth);
    Faulty {
        bytes,
        needed: [counts.len(), cells],
        short: [Ground::ShortCounts, Ground::ShortPayoffs].map(|ground| both || has(ground)),
    }
}

fn faulty_file(deposits: &mut Deposits, random: &mut Random, first: Ground) {
    let faulty = faulty(random, first);
    let room: Room = faulty.short.map(|short| match short {
        true => random.pick(&[-1, -1, EMPTY]),
        false => random.pick(&[0, 0, 1, 7]),
    });
    deposits.read(&faulty.bytes, solvers::lengthened(faulty.needed, room));
}

/// The faults of words, of a file of so many players.
fn faulty_words(
    random: &mut Random,
    has: impl Fn(Ground) -> bool,
    words: &mut Vec<u32>,
    players: usize,
) {
    let last = words.len() - 1;
    let cells = (last - 1 - players) / 3;
    if has(Ground::Edition) {
        let edition = random.pick(&[0, 2, 3, 1 + (1 << 8), 1 + (1 << 16), 1 + (1 << 21)]);
        words[0] = edition * 256 + words[0] % 256;
    }
    if has(Ground::NoPlayers) && random.below(2) == 0 {
        words[0] -= words[0] % 256;
    }
    for fault in CELL_FAULTS {
        if has(fault) && cells > 0 {
            let place = 1 + players + 3 * random.below(cells);
            spoil(random, &mut words[place..place + 3], fault);
        }
    }
    if has(Ground::ClosingNumber) {
        let off = random.pick(&[1, 1, PAYLOADS - 1, 3, 1 << 8, 1 << 16, 1 << 29]);
        words[last] = with_payload(words[last], words[last].wrapping_add(off));
    }
    for (ground, places) in [
        (Ground::OpeningKind, 0..1),
        (Ground::CountKind, 1..1 + players),
        (Ground::ClosingKind, last..last + 1),
    ] {
        if has(ground) && !places.is_empty() {
            let place = places.start + random.below(places.len());
            words[place] = kind_changed(random, words[place]);
        }
    }
    if has(Ground::Follows) {
        for _ in 0..1 + random.below(3) {
            let kind = random.pick(&[OPENING, COUNT, CELL, CLOSING]);
            words.push(with_payload(kind * PAYLOADS, payload(random)));
        }
    }
    for (ground, places) in [
        (Ground::NoClosing, last..last + 1),
        (Ground::NoCell, 1 + players..last),
        (Ground::NoCount, 1..1 + players),
        (Ground::NoOpening, 0..1),
    ] {
        if has(ground) && !places.is_empty() {
            words.truncate(places.start + random.below(places.len()));
        }
    }
}

/// The faults of a cell's words.
const CELL_FAULTS: [Ground; 3] = [Ground::CellKind, Ground::FirstOver, Ground::NonFinite];

/// Gives a cell's words one of them.
fn spoil(random: &mut Random, words: &mut [u32], fault: Ground) {
    match fault {
        Ground::CellKind => {
            let place = random.below(3);
            words[place] = kind_changed(random, words[place]);
        }
        Ground::FirstOver => words[0] |= 16 << random.below(26),
        _ => {
            let bits = random.non_finite();
            words.copy_from_slice(&deposit::words(&[], &[bits])[1..4]);
        }
    }
}

/// A file of many cells with faults in cells next to one another.
fn deep(deposits: &mut Deposits, random: &mut Random, words: &[u32], counts: &[usize]) {
    let needed = needed(counts);
    let mut words = words.to_vec();
    let first = random.below(needed[1]);
    for _ in 0..1 + random.below(3) {
        let cell = (first + random.below(3)).min(needed[1] - 1);
        let place = 1 + needed[0] + 3 * cell;
        let fault = random.pick(&CELL_FAULTS);
        spoil(random, &mut words[place..place + 3], fault);
    }
    deposits.read(&deposit::bytes(&words), needed);
}

/// The refusal that `write` has beside a table's.
const FAULTS: [u32; 1] = [document::SHORT];

/// A table with the faults of a set and no others, as far as they go together.
fn faulty_table(deposits: &mut Deposits, random: &mut Random, faults: u32) {
    let has = |refusal: u32| solvers::has_fault(&FAULTS, faults, refusal);
    let counts = solvers::faulty_counts(random, has);
    let mut payoffs = solvers::faulty_payoffs(random, has, &counts);
    if random.below(8) != 0 {
        payoffs.truncate(2 * SOME);
    }
    let room = if has(document::SHORT) {
        random.pick(&FEW_BYTES)
    } else {
        random.pick(&BYTES)
    };
    written(deposits, &counts, &payoffs, room);
}

/// A table at a limit, or one past it, with all of its payoffs: written, and its file read whole, with a payoff that isn't
/// finite, with a wrong closing word, with none, with one too many.
fn limit(deposits: &mut Deposits, random: &mut Random, counts: &[usize]) {
    let [players, cells] = needed(counts);
    let mut payoffs: Vec<f64> = (0..cells).map(|_| random.finite()).collect();
    written(deposits, counts, &payoffs, 0);
    written(deposits, counts, &payoffs, -1);
    let mut words = deposit::words(counts, &payoffs);
    let mut read = |words: &[u32], room: Room| {
        let lengths = solvers::lengthened([players, cells], room);
        deposits.read(&deposit::bytes(words), lengths);
    };
    read(&words, random.pick(&ENOUGH));
    read(&words, random.pick(&SHORT));
    read(&words[..words.len() - 1], [0, 0]);
    words.push(words[words.len() - 1] + 1);
    read(&words, [0, 0]);
    words.pop();
    *words.last_mut().unwrap() -= 1;
    read(&words, [0, 0]);
    if cells > 0 {
        payoffs[random.pick(&[0, cells / 2, cells - 1])] = random.non_finite();
        read(&deposit::words(counts, &payoffs), [0, 0]);
        written(deposits, counts, &payoffs, 0);
    }
}

/// Anything for a table and for a file: words of any kinds, and bytes.
fn junk(deposits: &mut Deposits, random: &mut Random) {
    let (counts, payoffs, _) = random.junk();
    written(deposits, &counts, &payoffs, random.pick(&BYTES));
    let mut words = deposit::words(&counts, &payoffs);
    let lengths = [random.below(12), random.below(700)];
    deposits.read(&deposit::bytes(&words), lengths);
    words.truncate(random.below(words.len() + 1));
    for word in &mut words {
        if random.below(4) == 0 {
            *word = with_payload(*word, payload(random));
        }
    }
    deposits.read(&deposit::bytes(&words), lengths);
    let bytes: Vec<u8> = (0..random.below(80)).map(|_| random.word() as u8).collect();
    deposits.read(&bytes, lengths);
}
