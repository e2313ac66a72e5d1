//! The library's calls behind safe functions. Every output is filled with a pattern first and stands between two
//! guards, so that a refused call that wrote, or a call that wrote past an output, is seen.

use crate::document::{self, PLAYERS, STRATEGIES};
use crate::inputs::{self, Inputs};
use std::cell::Cell;
use std::fmt;
use std::ops::Range;

const _: () = assert!(usize::BITS == 64, "an output's word is a usize or an f64");

extern "C" {
    fn sigvanyor_utility_new(value: f64, utility: *mut f64) -> u32;
    fn sigvanyor_from_counts(
        counts: *const usize,
        counts_len: usize,
        players: *mut usize,
        space_counts: *mut usize,
    ) -> u32;
    fn sigvanyor_payoff_matrix_new(
        counts: *const usize,
        counts_len: usize,
        payoffs: *const f64,
        payoffs_len: usize,
        players: *mut usize,
        space_counts: *mut usize,
    ) -> u32;
    fn sigvanyor_offset(
        counts: *const usize,
        counts_len: usize,
        payoffs: *const f64,
        payoffs_len: usize,
        profile: *const usize,
        profile_len: usize,
        offset: *mut usize,
    ) -> u32;
    fn sigvanyor_payoff(
        counts: *const usize,
        counts_len: usize,
        payoffs: *const f64,
        payoffs_len: usize,
        profile: *const usize,
        profile_len: usize,
        player: usize,
        utility: *mut f64,
    ) -> u32;
    fn sigvanyor_profile_payoffs(
        counts: *const usize,
        counts_len: usize,
        payoffs: *const f64,
        payoffs_len: usize,
        profile: *const usize,
        profile_len: usize,
        first: *mut usize,
        number: *mut usize,
    ) -> u32;
    fn sigvanyor_advance_profile(
        counts: *const usize,
        counts_len: usize,
        profile: *mut usize,
    ) -> u8;
    fn sigvanyor_all_finite(values: *const f64, values_len: usize) -> u8;
    fn sigvanyor_best_responses(
        counts: *const usize,
        counts_len: usize,
        payoffs: *const f64,
        payoffs_len: usize,
        player: usize,
        opponents: *const usize,
        opponents_len: usize,
        strategies: *mut usize,
        strategies_len: usize,
        utilities: *mut f64,
        utilities_len: usize,
        number: *mut usize,
    ) -> u32;
    fn sigvanyor_best_response_records(
        counts: *const usize,
        counts_len: usize,
        payoffs: *const f64,
        payoffs_len: usize,
        player: usize,
        opponents: *const usize,
        opponents_len: usize,
        responses: *mut BestResponse,
        responses_len: usize,
        number: *mut usize,
    ) -> u32;
    fn sigvanyor_best_response_marks(
        counts: *const usize,
        counts_len: usize,
        payoffs: *const f64,
        payoffs_len: usize,
        marks: *mut u8,
        marks_len: usize,
        number: *mut usize,
    ) -> u32;
    fn sigvanyor_is_equilibrium(
        counts: *const usize,
        counts_len: usize,
        payoffs: *const f64,
        payoffs_len: usize,
        profile: *const usize,
        profile_len: usize,
        equilibrium: *mut u8,
    ) -> u32;
    fn sigvanyor_equilibria(
        counts: *const usize,
        counts_len: usize,
        payoffs: *const f64,
        payoffs_len: usize,
        choices: *mut usize,
        choices_len: usize,
        utilities: *mut f64,
        utilities_len: usize,
        total: *mut usize,
        written: *mut usize,
    ) -> u32;
    fn sigvanyor_marked_profiles(
        counts: *const usize,
        counts_len: usize,
        payoffs: *const f64,
        payoffs_len: usize,
        marks: *const u8,
        marks_len: usize,
        choices: *mut usize,
        choices_len: usize,
        utilities: *mut f64,
        utilities_len: usize,
        total: *mut usize,
        written: *mut usize,
    ) -> u32;
    fn sigvanyor_strictly_dominated_strategies(
        counts: *const usize,
        counts_len: usize,
        payoffs: *const f64,
        payoffs_len: usize,
        player: usize,
        dominated: *mut usize,
        dominated_len: usize,
        dominators: *mut usize,
        dominators_len: usize,
        number: *mut usize,
    ) -> u32;
    fn sigvanyor_fresh(
        counts: *const usize,
        counts_len: usize,
        payoffs: *const f64,
        payoffs_len: usize,
        survivors_players: *mut usize,
        survivors_counts: *mut usize,
        survivors_marks: *mut u8,
    ) -> u32;
    fn sigvanyor_strike(
        counts: *const usize,
        counts_len: usize,
        payoffs: *const f64,
        payoffs_len: usize,
        survivors_players: usize,
        survivors_counts: *const usize,
        survivors_marks: *mut u8,
        player: usize,
        strategy: usize,
        dominator: *mut usize,
    ) -> u32;
    fn sigvanyor_surviving_equilibria(
        counts: *const usize,
        counts_len: usize,
        payoffs: *const f64,
        payoffs_len: usize,
        survivors_players: usize,
        survivors_counts: *const usize,
        survivors_marks: *const u8,
        choices: *mut usize,
        choices_len: usize,
        utilities: *mut f64,
        utilities_len: usize,
        total: *mut usize,
        written: *mut usize,
    ) -> u32;
    fn sigvanyor_strikes(
        counts: *const usize,
        counts_len: usize,
        payoffs: *const f64,
        payoffs_len: usize,
        players: *const usize,
        players_len: usize,
        strategies: *const usize,
        strategies_len: usize,
        answers: *mut u32,
        answers_len: usize,
        dominators: *mut usize,
        dominators_len: usize,
        number: *mut usize,
        survivors_players: *mut usize,
        survivors_counts: *mut usize,
        survivors_marks: *mut u8,
    ) -> u32;
    fn sigvanyor_verify_correlated_equilibrium_incentives(
        m: usize,
        n: usize,
        u1: *const f64,
        u1_len: usize,
        u2: *const f64,
        u2_len: usize,
        weights: *const f64,
        weights_len: usize,
    ) -> f64;
    fn sigvanyor_verdict(
        m: usize,
        n: usize,
        u1: *const f64,
        u1_len: usize,
        u2: *const f64,
        u2_len: usize,
        weights: *const f64,
        weights_len: usize,
        tolerance: f64,
    ) -> u8;
    fn sigvanyor_verify_minimax_residuals(
        m: usize,
        n: usize,
        payoffs: *const f64,
        payoffs_len: usize,
        p1: *const f64,
        p1_len: usize,
        p2: *const f64,
        p2_len: usize,
        claim: Claim,
    ) -> u8;
    fn sigvanyor_read(
        bytes: *const u8,
        bytes_len: usize,
        counts: *mut usize,
        counts_len: usize,
        payoffs: *mut f64,
        payoffs_len: usize,
        players: *mut usize,
    ) -> u32;
    fn sigvanyor_write(
        counts: *const usize,
        counts_len: usize,
        payoffs: *const f64,
        payoffs_len: usize,
        bytes: *mut u8,
        bytes_len: usize,
        written: *mut usize,
    ) -> u32;
    fn sigvanyor_number(
        counts: *const usize,
        counts_len: usize,
        payoffs: *const f64,
        payoffs_len: usize,
        listed: *mut u8,
        number: *mut usize,
    ) -> u32;
}

/// What a minimax candidate claims.
#[repr(C)]
#[derive(Clone, Copy)]
pub struct Claim {
    pub value: f64,
    pub tolerance: f64,
}

/// What a side answers: the value, a refusal's number, or what is wrong with the way it answered.
#[derive(Debug, PartialEq)]
pub enum Answer<T> {
    Accepted(T),
    Refused(u32),
    Broken(&'static str),
}

impl<T> Answer<T> {
    pub fn accepted(self) -> Option<T> {
        match self {
            Self::Accepted(value) => Some(value),
            _ => None,
        }
    }
}

impl<T> From<Result<T, u32>> for Answer<T> {
    fn from(result: Result<T, u32>) -> Self {
        match result {
            Ok(value) => Self::Accepted(value),
            Err(refusal) => Self::Refused(refusal),
        }
    }
}

/// A float by its bits, so that equal means the same bits.
#[derive(Clone, Copy, PartialEq)]
pub struct Bits(pub u64);

impl Bits {
    pub fn of(value: f64) -> Self {
        Self(value.to_bits())
    }
}

impl fmt::Debug for Bits {
    fn fmt(&self, formatter: &mut fmt::Formatter<'_>) -> fmt::Result {
        write!(formatter, "0x{:016x}", self.0)
    }
}

/// A space: P, and the counts with 0 from P on.
#[derive(Debug, PartialEq)]
pub struct Space {
    pub players: usize,
    pub counts: [usize; PLAYERS],
}

/// The part of a table that one profile has, and the payoffs there.
#[derive(Debug, PartialEq)]
pub struct Part {
    pub first: usize,
    pub length: usize,
    pub payoffs: Vec<Bits>,
}

/// The marks of survivors.
pub const MARKS: usize = PLAYERS * STRATEGIES;

/// Survivors: P, the counts with 0 from P on, and a byte for each mark; one that is not 0 is a mark.
#[derive(Clone, PartialEq)]
pub struct Survivors {
    pub players: usize,
    pub counts: [usize; PLAYERS],
    pub marks: [u8; MARKS],
}

impl Survivors {
    /// The strategies of a player that have a mark, ascending.
    pub fn marked(&self, player: usize) -> Vec<usize> {
        let marks = &self.marks[player * STRATEGIES..][..STRATEGIES];
        (0..STRATEGIES)
            .filter(|strategy| marks[*strategy] != 0)
            .collect()
    }
}

impl fmt::Debug for Survivors {
    /// Of each player with marks its number, and each mark's strategy and byte.
    fn fmt(&self, formatter: &mut fmt::Formatter<'_>) -> fmt::Result {
        write!(formatter, "{} of {:?}", self.players, self.counts)?;
        for player in 0..PLAYERS {
            let marks = self.marked(player).into_iter();
            let bytes =
                marks.map(|strategy| (strategy, self.marks[player * STRATEGIES + strategy]));
            write!(formatter, " {player}: {:?}", bytes.collect::<Vec<_>>())?;
        }
        Ok(())
    }
}

/// What a list of strikes is told as: how many were accepted, the answer and the dominator of each, and what is left.
#[derive(Debug, Clone, PartialEq)]
pub struct Struck {
    pub number: usize,
    pub answers: Vec<u32>,
    pub dominators: Vec<usize>,
    pub survivors: Survivors,
}

/// What a list is told as: the number of its entries, and what stands of them in the first and in the second output.
#[derive(Debug, Clone, PartialEq)]
pub struct Listing<T> {
    pub number: usize,
    pub first: Vec<usize>,
    pub second: Vec<T>,
}

impl<T> Listing<T> {
    /// How many elements it needs of each output.
    pub fn needed(&self) -> [usize; 2] {
        [self.first.len(), self.second.len()]
    }
}

/// What a listing of equilibria or of marked profiles is told as: how many there are, and those of them that are
/// written.
#[derive(Debug, Clone, PartialEq)]
pub struct Listed {
    pub total: usize,
    pub written: Listing<Bits>,
}

/// What a sweep of best responses is told as: how many marks are 1, and every byte of the buffer that it is lent.
#[derive(Debug, PartialEq)]
pub struct Swept {
    pub number: usize,
    pub bytes: Vec<u8>,
}

/// NaNs of several payloads. As a usize each is larger than any number that a call answers.
const PATTERNS: [u64; 5] = [
    0x7ff8_0000_0000_0000,
    0x7ff0_0000_0000_0001,
    0xfff8_0000_dead_beef,
    0xffff_ffff_ffff_ffff,
    0x7ff4_5555_aaaa_5555,
];

/// The place among the patterns whose turn it is; threads take turns each for itself.
fn turn() -> usize {
    thread_local! {
        static TURN: Cell<usize> = const { Cell::new(0) };
    }
    TURN.replace(TURN.get() + 1)
}

/// N words between two guards.
#[repr(C)]
struct Output<const N: usize> {
    before: u64,
    words: [u64; N],
    after: u64,
    pattern: u64,
}

impl<const N: usize> Output<N> {
    /// Words and guards of the pattern whose turn it is.
    fn fresh() -> Self {
        let pattern = PATTERNS[turn() % PATTERNS.len()];
        Self {
            before: pattern,
            words: [pattern; N],
            after: pattern,
            pattern,
        }
    }

    /// The place of the words; it may reach the guards.
    fn place<T>(&mut self) -> *mut T {
        (self as *mut Self).cast::<u64>().wrapping_add(1).cast()
    }

    fn guarded(&self) -> bool {
        self.before == self.pattern && self.after == self.pattern
    }

    fn untouched(&self) -> bool {
        self.words.iter().all(|word| *word == self.pattern)
    }

    fn numbers(&self) -> [usize; N] {
        self.words.map(|word| word as usize)
    }
}

impl Output<1> {
    /// The byte that a call writes which says yes or no.
    fn byte(&self) -> u8 {
        self.words[0] as u8
    }

    /// The word's other bytes are to keep their contents too.
    fn byte_guarded(&self) -> bool {
        self.guarded() && self.words[0] >> 8 == self.pattern >> 8
    }
}

/// What a slice has for an element, with a pattern cut to its length.
trait Word: Copy + PartialEq {
    fn of(pattern: u64) -> Self;
}

impl Word for u64 {
    fn of(pattern: u64) -> Self {
        pattern
    }
}

impl Word for u32 {
    fn of(pattern: u64) -> Self {
        (pattern >> 32) as u32
    }
}

impl Word for u8 {
    fn of(pattern: u64) -> Self {
        (pattern >> 48) as u8
    }
}

/// As many words as a caller likes between two guards of a profile's length, the patterns in turn.
struct Slice<W = u64> {
    words: Vec<W>,
    turn: usize,
}

impl<W: Word> Slice<W> {
    const GUARD: usize = PLAYERS;

    fn fresh(length: usize) -> Self {
        let turn = turn() % PATTERNS.len();
        let patterns = PATTERNS.iter().copied().cycle().skip(turn).map(W::of);
        Self {
            words: patterns.take(Self::GUARD + length + Self::GUARD).collect(),
            turn,
        }
    }

    /// The place of the words; it may reach the guards.
    fn place<T>(&mut self) -> *mut T {
        self.words.as_mut_ptr().wrapping_add(Self::GUARD).cast()
    }

    fn len(&self) -> usize {
        self.words.len() - 2 * Self::GUARD
    }

    fn first(&self, length: usize) -> &[W] {
        &self.words[Self::GUARD..][..length]
    }

    fn guarded(&self) -> bool {
        self.kept(0..Self::GUARD) && self.kept(Self::GUARD + self.len()..self.words.len())
    }

    /// What is wrong with the words after a call that told that it wrote so many at the start, or was refused.
    fn wrong(&self, status: u32, told: usize) -> Option<&'static str> {
        let written = if status == 0 { told } else { 0 };
        if written > self.len() {
            Some("told more than the outputs hold")
        } else if !self.guarded() {
            Some("wrote past an output")
        } else if self.kept(Self::GUARD + written..Self::GUARD + self.len()) {
            None
        } else if status == 0 {
            Some("touched an element past those written")
        } else {
            Some("refused and wrote")
        }
    }

    fn kept(&self, places: Range<usize>) -> bool {
        let patterns = PATTERNS.iter().cycle();
        let patterns = patterns.skip((self.turn + places.start) % PATTERNS.len());
        self.words[places]
            .iter()
            .zip(patterns)
            .all(|(word, pattern)| *word == W::of(*pattern))
    }
}

/// The outputs of a call that lists: a number, and two slices of any lengths.
pub struct Lists {
    number: Output<1>,
    first: Slice,
    second: Slice,
}

impl Lists {
    pub fn fresh(lengths: [usize; 2]) -> Self {
        Self {
            number: Output::fresh(),
            first: Slice::fresh(lengths[0]),
            second: Slice::fresh(lengths[1]),
        }
    }

    /// The answer of a call that wrote here, whose entries have so many elements in each output.
    pub fn answer<T>(
        &self,
        status: u32,
        elements: usize,
        element: impl Fn(u64) -> T,
    ) -> Answer<Listing<T>> {
        let told = self.number.numbers()[0].saturating_mul(elements);
        self.told(status, [told; 2], element)
    }

    /// The same of a call that wrote a table: as many counts as it told, and the payoffs of their cells.
    pub fn answer_table(&self, status: u32) -> Answer<Listing<Bits>> {
        let players = self.number.numbers()[0];
        let counts = self.first.first(players.min(self.first.len())).iter();
        let counts: Vec<usize> = counts.map(|word| *word as usize).collect();
        let cells = usize::try_from(document::cells(&counts)).unwrap_or(usize::MAX);
        self.told(status, [players, cells], Bits)
    }

    fn told<T>(
        &self,
        status: u32,
        told: [usize; 2],
        element: impl Fn(u64) -> T,
    ) -> Answer<Listing<T>> {
        let outputs = [
            self.first.wrong(status, told[0]),
            self.second.wrong(status, told[1]),
        ];
        answer_slices(status, outputs, &self.number, |number| Listing {
            number,
            first: self
                .first
                .first(told[0])
                .iter()
                .map(|word| *word as usize)
                .collect(),
            second: self
                .second
                .first(told[1])
                .iter()
                .map(|word| element(*word))
                .collect(),
        })
    }
}

/// The outputs of a sweep of best responses: the buffer, with any bytes in it before, and how many marks are 1.
pub struct Sweep {
    marks: Slice<u8>,
    number: Output<1>,
}

impl Sweep {
    pub fn of(old: &[u8]) -> Self {
        let mut marks = Slice::fresh(old.len());
        marks.words[Slice::<u8>::GUARD..][..old.len()].copy_from_slice(old);
        Self {
            marks,
            number: Output::fresh(),
        }
    }

    /// The answer of a call that wrote here, where these bytes were before.
    pub fn answer(&self, status: u32, old: &[u8]) -> Answer<Swept> {
        let Self { marks, number } = self;
        let bytes = marks.first(marks.len());
        let guarded = marks.guarded() && number.guarded();
        let untouched = number.untouched() && bytes == old;
        answer(status, guarded, untouched, || Swept {
            number: number.numbers()[0],
            bytes: bytes.to_vec(),
        })
    }
}

/// The outputs of a listing of equilibria or of marked profiles: how many there are, and those of a list of the ones
/// that are written.
pub struct Equilibria {
    total: Output<1>,
    written: Lists,
}

impl Equilibria {
    pub fn fresh(lengths: [usize; 2]) -> Self {
        Self {
            total: Output::fresh(),
            written: Lists::fresh(lengths),
        }
    }

    /// The answer of a call that wrote here, on a table of so many players.
    pub fn answer(&self, status: u32, players: usize) -> Answer<Listed> {
        let written = match self.written.answer(status, players, Bits) {
            Answer::Accepted(written) => Some(written),
            Answer::Refused(_) => None,
            Answer::Broken(how) => return Answer::Broken(how),
        };
        let total = &self.total;
        answer(status, total.guarded(), total.untouched(), || Listed {
            total: total.numbers()[0],
            written: written.unwrap(),
        })
    }
}

/// A record of a list of best responses, as C has it.
#[allow(dead_code)]
#[repr(C)]
struct BestResponse {
    strategy: usize,
    utility: f64,
}

/// The outputs of a call that lists records: a number, and a slice with the words of as many records as a caller likes.
pub struct Records {
    number: Output<1>,
    words: Slice,
}

impl Records {
    const WORDS: usize = std::mem::size_of::<BestResponse>() / std::mem::size_of::<u64>();

    pub fn fresh(length: usize) -> Self {
        Self {
            number: Output::fresh(),
            words: Slice::fresh(length * Self::WORDS),
        }
    }

    fn len(&self) -> usize {
        self.words.len() / Self::WORDS
    }

    /// The answer of a call that wrote here.
    pub fn answer(&self, status: u32) -> Answer<Listing<Bits>> {
        let told = self.number.numbers()[0].saturating_mul(Self::WORDS);
        let outputs = [self.words.wrong(status, told)];
        answer_slices(status, outputs, &self.number, |number| {
            let records = self.words.first(told).chunks_exact(Self::WORDS);
            Listing {
                number,
                first: records.clone().map(|record| record[0] as usize).collect(),
                second: records.map(|record| Bits(record[1])).collect(),
            }
        })
    }
}

/// Survivors as a call is lent them.
pub struct Held {
    players: Output<1>,
    counts: Output<PLAYERS>,
    marks: Output<{ MARKS / 8 }>,
}

impl Held {
    pub fn fresh() -> Self {
        Self {
            players: Output::fresh(),
            counts: Output::fresh(),
            marks: Output::fresh(),
        }
    }

    pub fn of(survivors: &Survivors) -> Self {
        let mut held = Self::fresh();
        held.players.words = [survivors.players as u64];
        held.counts.words = survivors.counts.map(|count| count as u64);
        for (word, marks) in held.marks.words.iter_mut().zip(survivors.marks.chunks(8)) {
            *word = u64::from_ne_bytes(marks.try_into().unwrap());
        }
        held
    }

    pub fn survivors(&self) -> Survivors {
        let mut marks = [0; MARKS];
        for (marks, word) in marks.chunks_mut(8).zip(self.marks.words) {
            marks.copy_from_slice(&word.to_ne_bytes());
        }
        Survivors {
            players: self.players(),
            counts: self.counts.numbers(),
            marks,
        }
    }

    fn players(&self) -> usize {
        self.players.numbers()[0]
    }

    fn guarded(&self) -> bool {
        self.players.guarded() && self.counts.guarded() && self.marks.guarded()
    }

    fn untouched(&self) -> bool {
        self.players.untouched() && self.counts.untouched() && self.marks.untouched()
    }

    /// What is wrong after a call that writes all of them, or was refused.
    fn wrong(&self, status: u32) -> Option<&'static str> {
        if !self.guarded() {
            Some("wrote past an output")
        } else if status != 0 && !self.untouched() {
            Some("refused and wrote")
        } else {
            None
        }
    }
}

fn answer<T>(status: u32, guarded: bool, untouched: bool, value: impl FnOnce() -> T) -> Answer<T> {
    if !guarded {
        Answer::Broken("wrote past an output")
    } else if status == 0 {
        Answer::Accepted(value())
    } else if untouched {
        Answer::Refused(status)
    } else {
        Answer::Broken("refused and wrote")
    }
}

/// The answer of a call that refuses nothing and says yes or no.
fn truth<T>(byte: u8, guarded: bool, value: impl FnOnce(bool) -> T) -> Answer<T> {
    if byte > 1 {
        return Answer::Broken("neither false nor true");
    }
    answer(0, guarded, false, || value(byte == 1))
}

fn answer_number(status: u32, number: Output<1>) -> Answer<usize> {
    answer(status, number.guarded(), number.untouched(), || {
        number.numbers()[0]
    })
}

/// The answer of a call with slices, of which it is told what is wrong, and a number.
fn answer_slices<T, const N: usize>(
    status: u32,
    slices: [Option<&'static str>; N],
    number: &Output<1>,
    value: impl FnOnce(usize) -> T,
) -> Answer<T> {
    match slices.into_iter().flatten().next() {
        Some(wrong) => Answer::Broken(wrong),
        None => answer(status, number.guarded(), number.untouched(), || {
            value(number.numbers()[0])
        }),
    }
}

fn answer_space(status: u32, players: Output<1>, counts: Output<PLAYERS>) -> Answer<Space> {
    answer(
        status,
        players.guarded() && counts.guarded(),
        players.untouched() && counts.untouched(),
        || Space {
            players: players.numbers()[0],
            counts: counts.numbers(),
        },
    )
}

/// A call of the library: sizes, each slice as a pointer and a length, perhaps a player and slices
/// after it, then the other arguments, then the outputs of a list, before whose number a total may
/// come. The slices are only read, which is looked at in some cases; survivors that are only read
/// are compared where they are held.
macro_rules! call {
    (
        $name:ident, [$($slice:ident),*] $($player:ident [$($after:ident),*])? $(, $rest:expr)*;
        $lists:expr $(, $total:expr)?
    ) => {
        call!(
            $name,
            [$($slice),*] $($player [$($after),*])?
            $(, $rest)*,
            $lists.first.place(),
            $lists.first.len(),
            $lists.second.place(),
            $lists.second.len(),
            $($total.place(),)?
            $lists.number.place()
        )
    };
    (
        $name:ident $(($($size:expr),*))?,
        [$($slice:ident),*] $($player:ident [$($after:ident),*])? $(, $rest:expr)*
    ) => {{
        static INPUTS: Inputs = Inputs::of(stringify!($name));
        let copied = inputs::watched()
            && INPUTS.copy(&[$(inputs::bytes($slice),)* $($(inputs::bytes($after)),*)?]);
        let answer = unsafe {
            $name(
                $($($size,)*)?
                $($slice.as_ptr(), $slice.len(),)*
                $($player, $($after.as_ptr(), $after.len(),)*)?
                $($rest),*
            )
        };
        if copied {
            INPUTS.compare(&[$(inputs::bytes($slice),)* $($(inputs::bytes($after)),*)?]);
        }
        answer
    }};
}

pub fn utility_new(value: f64) -> Answer<Bits> {
    let mut utility = Output::<1>::fresh();
    let status = call!(sigvanyor_utility_new, [], value, utility.place());
    answer(status, utility.guarded(), utility.untouched(), || {
        Bits(utility.words[0])
    })
}

pub fn from_counts(counts: &[usize]) -> Answer<Space> {
    let mut players = Output::fresh();
    let mut space_counts = Output::fresh();
    let status = call!(
        sigvanyor_from_counts,
        [counts],
        players.place(),
        space_counts.place()
    );
    answer_space(status, players, space_counts)
}

pub fn payoff_matrix_new(counts: &[usize], payoffs: &[f64]) -> Answer<Space> {
    let mut players = Output::fresh();
    let mut space_counts = Output::fresh();
    let status = call!(
        sigvanyor_payoff_matrix_new,
        [counts, payoffs],
        players.place(),
        space_counts.place()
    );
    answer_space(status, players, space_counts)
}

/// The offset into a place.
fn offset_at(counts: &[usize], payoffs: &[f64], profile: &[usize], place: *mut usize) -> u32 {
    call!(sigvanyor_offset, [counts, payoffs, profile], place)
}

/// The same into a place that is there beforehand, for the times.
pub fn offset_into(
    counts: &[usize],
    payoffs: &[f64],
    profile: &[usize],
    offset: &mut usize,
) -> u32 {
    offset_at(counts, payoffs, profile, offset)
}

pub fn offset(counts: &[usize], payoffs: &[f64], profile: &[usize]) -> Answer<usize> {
    let mut offset = Output::<1>::fresh();
    let status = offset_at(counts, payoffs, profile, offset.place());
    answer_number(status, offset)
}

pub fn payoff(counts: &[usize], payoffs: &[f64], profile: &[usize], player: usize) -> Answer<Bits> {
    let mut utility = Output::<1>::fresh();
    let status = call!(
        sigvanyor_payoff,
        [counts, payoffs, profile],
        player,
        utility.place()
    );
    answer(status, utility.guarded(), utility.untouched(), || {
        Bits(utility.words[0])
    })
}

pub fn profile_payoffs(counts: &[usize], payoffs: &[f64], profile: &[usize]) -> Answer<Part> {
    let mut first = Output::<1>::fresh();
    let mut length = Output::<1>::fresh();
    let status = call!(
        sigvanyor_profile_payoffs,
        [counts, payoffs, profile],
        first.place(),
        length.place()
    );
    answer(
        status,
        first.guarded() && length.guarded(),
        first.untouched() && length.untouched(),
        || {
            let (first, length) = (first.numbers()[0], length.numbers()[0]);
            let part = first
                .checked_add(length)
                .and_then(|end| payoffs.get(first..end))
                .unwrap_or(&[]);
            Part {
                first,
                length,
                payoffs: part.iter().copied().map(Bits::of).collect(),
            }
        },
    )
}

/// Whether there is a next profile, and the profile as the call left it.
pub fn advance_profile(
    counts: &[usize],
    profile: &[usize; PLAYERS],
) -> Answer<(bool, [usize; PLAYERS])> {
    let mut lent = Output::<PLAYERS>::fresh();
    lent.words = profile.map(|choice| choice as u64);
    let more = call!(sigvanyor_advance_profile, [counts], lent.place());
    truth(more, lent.guarded(), |more| (more, lent.numbers()))
}

pub fn all_finite(payoffs: &[f64]) -> Answer<bool> {
    let all = call!(sigvanyor_all_finite, [payoffs]);
    truth(all, true, |all| all)
}

pub fn best_responses(
    counts: &[usize],
    payoffs: &[f64],
    player: usize,
    opponents: &[usize],
    lists: &mut Lists,
) -> u32 {
    call!(
        sigvanyor_best_responses,
        [counts, payoffs] player [opponents];
        lists
    )
}

pub fn best_response_records(
    counts: &[usize],
    payoffs: &[f64],
    player: usize,
    opponents: &[usize],
    records: &mut Records,
) -> u32 {
    call!(
        sigvanyor_best_response_records,
        [counts, payoffs] player [opponents],
        records.words.place(),
        records.len(),
        records.number.place()
    )
}

pub fn best_response_marks_into(counts: &[usize], payoffs: &[f64], sweep: &mut Sweep) -> u32 {
    call!(
        sigvanyor_best_response_marks,
        [counts, payoffs],
        sweep.marks.place(),
        sweep.marks.len(),
        sweep.number.place()
    )
}

/// The sweep into a buffer with these bytes in it.
pub fn best_response_marks(counts: &[usize], payoffs: &[f64], old: &[u8]) -> Answer<Swept> {
    let mut sweep = Sweep::of(old);
    let status = best_response_marks_into(counts, payoffs, &mut sweep);
    sweep.answer(status, old)
}

pub fn is_equilibrium(counts: &[usize], payoffs: &[f64], profile: &[usize]) -> Answer<bool> {
    let mut equilibrium = Output::<1>::fresh();
    let status = call!(
        sigvanyor_is_equilibrium,
        [counts, payoffs, profile],
        equilibrium.place()
    );
    let guarded = equilibrium.byte_guarded();
    if status == 0 {
        truth(equilibrium.byte(), guarded, |equilibrium| equilibrium)
    } else {
        answer(status, guarded, equilibrium.untouched(), || false)
    }
}

pub fn equilibria_into(counts: &[usize], payoffs: &[f64], outputs: &mut Equilibria) -> u32 {
    let Equilibria { total, written } = outputs;
    call!(sigvanyor_equilibria, [counts, payoffs]; written, total)
}

pub fn equilibria(counts: &[usize], payoffs: &[f64], lengths: [usize; 2]) -> Answer<Listed> {
    let mut outputs = Equilibria::fresh(lengths);
    let status = equilibria_into(counts, payoffs, &mut outputs);
    outputs.answer(status, counts.len())
}

pub fn marked_profiles_into(
    counts: &[usize],
    payoffs: &[f64],
    marks: &[u8],
    outputs: &mut Equilibria,
) -> u32 {
    let Equilibria { total, written } = outputs;
    call!(sigvanyor_marked_profiles, [counts, payoffs, marks]; written, total)
}

pub fn marked_profiles(
    counts: &[usize],
    payoffs: &[f64],
    marks: &[u8],
    lengths: [usize; 2],
) -> Answer<Listed> {
    let mut outputs = Equilibria::fresh(lengths);
    let status = marked_profiles_into(counts, payoffs, marks, &mut outputs);
    outputs.answer(status, counts.len())
}

pub fn strictly_dominated_strategies(
    counts: &[usize],
    payoffs: &[f64],
    player: usize,
    lists: &mut Lists,
) -> u32 {
    call!(
        sigvanyor_strictly_dominated_strategies,
        [counts, payoffs],
        player;
        lists
    )
}

/// The table's fresh survivors into those that are held.
pub fn fresh_into(counts: &[usize], payoffs: &[f64], held: &mut Held) -> u32 {
    call!(
        sigvanyor_fresh,
        [counts, payoffs],
        held.players.place(),
        held.counts.place(),
        held.marks.place()
    )
}

pub fn fresh(counts: &[usize], payoffs: &[f64]) -> Answer<Survivors> {
    let mut held = Held::fresh();
    let status = fresh_into(counts, payoffs, &mut held);
    answer(status, held.guarded(), held.untouched(), || {
        held.survivors()
    })
}

/// A strike on survivors that are held, whose dominator is dropped.
pub fn strike_on(
    counts: &[usize],
    payoffs: &[f64],
    held: &mut Held,
    player: usize,
    strategy: usize,
) -> u32 {
    strike_into(
        counts,
        payoffs,
        held,
        player,
        strategy,
        &mut Output::fresh(),
    )
}

fn strike_into(
    counts: &[usize],
    payoffs: &[f64],
    held: &mut Held,
    player: usize,
    strategy: usize,
    dominator: &mut Output<1>,
) -> u32 {
    call!(
        sigvanyor_strike,
        [counts, payoffs],
        held.players(),
        held.counts.place(),
        held.marks.place(),
        player,
        strategy,
        dominator.place()
    )
}

/// The dominator, and the survivors as the call left them.
pub fn strike(
    counts: &[usize],
    payoffs: &[f64],
    survivors: &Survivors,
    player: usize,
    strategy: usize,
) -> Answer<(usize, Survivors)> {
    let mut held = Held::of(survivors);
    let mut dominator = Output::fresh();
    let status = strike_into(counts, payoffs, &mut held, player, strategy, &mut dominator);
    let after = held.survivors();
    answer(
        status,
        held.guarded() && dominator.guarded(),
        dominator.untouched() && after == *survivors,
        || (dominator.numbers()[0], after),
    )
}

/// The survivors are only read.
pub fn surviving_equilibria(
    counts: &[usize],
    payoffs: &[f64],
    survivors: &Survivors,
    lengths: [usize; 2],
) -> Answer<Listed> {
    let mut held = Held::of(survivors);
    let mut outputs = Equilibria::fresh(lengths);
    let status = call!(
        sigvanyor_surviving_equilibria,
        [counts, payoffs],
        held.players(),
        held.counts.place(),
        held.marks.place();
        outputs.written, outputs.total
    );
    if !held.guarded() || held.survivors() != *survivors {
        return Answer::Broken("wrote the survivors that it reads");
    }
    outputs.answer(status, counts.len())
}

/// The outputs of a list of strikes: the answers and the dominators of any lengths, and the survivors.
pub struct StrikeLists {
    answers: Slice<u32>,
    dominators: Slice,
    number: Output<1>,
    held: Held,
}

impl StrikeLists {
    pub fn fresh(lengths: [usize; 2]) -> Self {
        Self {
            answers: Slice::fresh(lengths[0]),
            dominators: Slice::fresh(lengths[1]),
            number: Output::fresh(),
            held: Held::fresh(),
        }
    }

    pub fn survivors(&self) -> Survivors {
        self.held.survivors()
    }

    /// The answer of a call that wrote here, of so many strikes.
    fn answer(&self, status: u32, strikes: usize) -> Answer<Struck> {
        let outputs = [
            self.answers.wrong(status, strikes),
            self.dominators.wrong(status, strikes),
            self.held.wrong(status),
        ];
        answer_slices(status, outputs, &self.number, |number| {
            let dominators = self.dominators.first(strikes).iter();
            Struck {
                number,
                answers: self.answers.first(strikes).to_vec(),
                dominators: dominators.map(|word| *word as usize).collect(),
                survivors: self.survivors(),
            }
        })
    }
}

pub fn strikes_into(
    counts: &[usize],
    payoffs: &[f64],
    [players, strategies]: [&[usize]; 2],
    lists: &mut StrikeLists,
) -> u32 {
    call!(
        sigvanyor_strikes,
        [counts, payoffs, players, strategies],
        lists.answers.place(),
        lists.answers.len(),
        lists.dominators.place(),
        lists.dominators.len(),
        lists.number.place(),
        lists.held.players.place(),
        lists.held.counts.place(),
        lists.held.marks.place()
    )
}

/// A list of strikes by their players and their strategies, into outputs of these lengths.
pub fn strikes(
    counts: &[usize],
    payoffs: &[f64],
    named: [&[usize]; 2],
    lengths: [usize; 2],
) -> Answer<Struck> {
    let mut lists = StrikeLists::fresh(lengths);
    let status = strikes_into(counts, payoffs, named, &mut lists);
    lists.answer(status, named[0].len().min(named[1].len()))
}

pub fn verify_correlated_equilibrium_incentives(
    m: usize,
    n: usize,
    [u1, u2, weights]: [&[f64]; 3],
) -> Answer<Bits> {
    let gain = call!(
        sigvanyor_verify_correlated_equilibrium_incentives(m, n),
        [u1, u2, weights]
    );
    Answer::Accepted(Bits::of(gain))
}

pub fn verdict(m: usize, n: usize, [u1, u2, weights]: [&[f64]; 3], tolerance: f64) -> Answer<bool> {
    let yes = call!(sigvanyor_verdict(m, n), [u1, u2, weights], tolerance);
    truth(yes, true, |yes| yes)
}

pub fn verify_minimax_residuals(
    m: usize,
    n: usize,
    [payoffs, p1, p2]: [&[f64]; 3],
    claim: Claim,
) -> Answer<bool> {
    let yes = call!(
        sigvanyor_verify_minimax_residuals(m, n),
        [payoffs, p1, p2],
        claim
    );
    truth(yes, true, |yes| yes)
}

/// The table of a deposit file: P for the number, its counts and its payoffs.
pub fn read(bytes: &[u8], lists: &mut Lists) -> u32 {
    call!(sigvanyor_read, [bytes]; lists)
}

/// The outputs of a call that writes a deposit file: so many bytes, and how many it wrote.
pub struct File {
    bytes: Slice<u8>,
    written: Output<1>,
}

impl File {
    pub fn fresh(length: usize) -> Self {
        Self {
            bytes: Slice::fresh(length),
            written: Output::fresh(),
        }
    }

    pub fn answer(&self, status: u32) -> Answer<Vec<u8>> {
        let told = self.written.numbers()[0];
        let outputs = [self.bytes.wrong(status, told)];
        answer_slices(status, outputs, &self.written, |number| {
            self.bytes.first(number).to_vec()
        })
    }
}

pub fn write(counts: &[usize], payoffs: &[f64], file: &mut File) -> u32 {
    call!(
        sigvanyor_write,
        [counts, payoffs],
        file.bytes.place(),
        file.bytes.len(),
        file.written.place()
    )
}

/// The outputs of the call that gives a table's catalogue number: whether it has one, and the number.
pub struct Entry {
    listed: Output<1>,
    number: Output<1>,
}

impl Entry {
    pub fn fresh() -> Self {
        Self {
            listed: Output::fresh(),
            number: Output::fresh(),
        }
    }

    pub fn answer(&self, status: u32) -> Answer<(bool, usize)> {
        let Self { listed, number } = self;
        let guarded = listed.byte_guarded() && number.guarded();
        let told = number.numbers()[0];
        if status == 0 {
            truth(listed.byte(), guarded, |listed| (listed, told))
        } else {
            let untouched = listed.untouched() && number.untouched();
            answer(status, guarded, untouched, || (false, told))
        }
    }
}

pub fn number(counts: &[usize], payoffs: &[f64], entry: &mut Entry) -> u32 {
    call!(
        sigvanyor_number,
        [counts, payoffs],
        entry.listed.place(),
        entry.number.place()
    )
}
