//! What a call only reads: in some cases it is copied before the call and compared with the copy
//! after it, by its bytes.

use crate::cases::Random;
use crate::tally::{end, sure};
use std::cell::RefCell;
use std::hint::black_box;
use std::sync::atomic::{AtomicBool, AtomicUsize, Ordering::Relaxed};
use std::sync::Mutex;

/// A call's inputs are looked at in about one of so many cases, drawn at random.
const SHARE: usize = 8;

/// The cases of each call that are looked at, at least.
const LEAST: usize = 2_000;

/// Whether any are: not while times are taken.
static WATCHED: AtomicBool = AtomicBool::new(false);

/// The calls of which some were.
static CALLS: Mutex<Vec<&Inputs>> = Mutex::new(Vec::new());

thread_local! {
    static STATE: RefCell<(Random, Vec<u8>)> = const { RefCell::new((Random(15), Vec::new())) };
}

/// The inputs of one call of the library.
pub struct Inputs {
    name: &'static str,
    /// The cases that were looked at.
    cases: AtomicUsize,
}

impl Inputs {
    pub const fn of(name: &'static str) -> Self {
        Self {
            name,
            cases: AtomicUsize::new(0),
        }
    }

    /// Whether this is a case that is looked at; then the slices are copied.
    #[cold]
    #[inline(never)]
    pub fn copy(&self, slices: &[&[u8]]) -> bool {
        STATE.with_borrow_mut(|(random, copies)| {
            let looked_at = !slices.is_empty() && random.below(SHARE) == 0;
            if looked_at {
                copies.clear();
                slices.iter().for_each(|slice| copies.extend(*slice));
            }
            looked_at
        })
    }

    /// Ends the run where a slice is no longer what was copied.
    #[cold]
    #[inline(never)]
    pub fn compare(&'static self, slices: &[&[u8]]) {
        STATE.with_borrow(|(_, copies)| {
            let mut copies = &copies[..];
            for (place, slice) in black_box(slices).iter().enumerate() {
                let (copy, rest) = copies.split_at(slice.len());
                if *slice != copy {
                    end(&format!("{} changed its input slice {place}", self.name));
                }
                copies = rest;
            }
        });
        if self.cases.fetch_add(1, Relaxed) == 0 {
            CALLS.lock().unwrap().push(self);
        }
    }
}

/// From here on inputs are looked at.
pub fn watch() {
    WATCHED.store(true, Relaxed);
}

#[inline(always)]
pub fn watched() -> bool {
    WATCHED.load(Relaxed)
}

/// The line of the cases that were looked at; a call with too few of them ends the run.
pub fn report() {
    let calls = CALLS.lock().unwrap();
    let cases = || {
        calls
            .iter()
            .map(|call| (call.cases.load(Relaxed), call.name))
    };
    let all: usize = cases().map(|(cases, _)| cases).sum();
    let (least, name) = cases().min().unwrap();
    println!(
        "inputs: unchanged after {all} cases of {} calls, at least {least} of each ({name})",
        calls.len()
    );
    sure(
        least >= LEAST,
        "too few cases in which a call's inputs are looked at",
    );
}

/// What a slice's elements may be: any bytes are one, and they have no others between.
pub trait Element {}
impl Element for usize {}
impl Element for f64 {}
impl Element for u8 {}

/// The bytes of a slice.
pub fn bytes<T: Element>(slice: &[T]) -> &[u8] {
    let length = std::mem::size_of_val(slice);
    unsafe { std::slice::from_raw_parts(slice.as_ptr().cast(), length) }
}
