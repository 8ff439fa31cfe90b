//! The number and place of the last refusal, with the numbers that its test was made on.

use std::cell::Cell;
use std::sync::atomic::{AtomicU64, Ordering};

#[derive(Clone, Copy, Debug, PartialEq)]
pub struct Tag {
    pub number: usize,
    pub place: usize,
    /// Of 11 to 13, document 02's R-2: the harness finds it (`Oracle::reduced`), the kernel has none.
    pub camera: Option<usize>,
    /// What was tested.
    pub value: f64,
    /// What it was held against: the old product (11, 12), the allowed number (13).
    pub beside: f64,
}

impl Tag {
    /// What the refusal returns beside its number: the place, and the camera of 11 to 13.
    pub fn places(&self) -> Vec<usize> {
        [self.place].into_iter().chain(self.camera).collect()
    }
}

thread_local! {
    static LAST: Cell<Option<Tag>> = const { Cell::new(None) };
}

/// How often 10 was met, on whichever route: the Rust's own text tests it, and no diagonal can meet it.
static TENS: AtomicU64 = AtomicU64::new(0);

pub fn tens() -> u64 {
    TENS.load(Ordering::Relaxed)
}

#[cold]
pub fn refuse(number: usize, place: usize, value: f64, beside: f64) {
    if number == 10 {
        TENS.fetch_add(1, Ordering::Relaxed);
    }
    LAST.set(Some(Tag { number, place, camera: None, value, beside }));
}

pub fn take() -> Option<Tag> {
    LAST.take()
}
