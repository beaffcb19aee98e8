//! What lies between two calls.

use range_sets::tracker::Tracker;
use range_sets::RangeSet2;
use std::cell::RefCell;
use std::fmt::Display;

pub type Set = RangeSet2<u64>;

/// How many places for sets there are.
const PLACES: usize = 16;

#[derive(Debug)]
pub struct Page {
    pub sets: [Set; PLACES],
    pub tracker: Tracker,
    /// How many boundaries the tracker would have had to keep when it last refused a command.
    pub needed: usize,
    /// The character where the last text stopped being one of ranges, as a byte.
    pub fault: usize,
    pub input: Vec<u8>,
    pub text: String,
    pub numbers: Vec<u64>,
}

impl Page {
    fn new() -> Self {
        Page {
            sets: Default::default(),
            tracker: Tracker::new(0),
            needed: 0,
            fault: 0,
            input: Vec::new(),
            text: String::new(),
            numbers: Vec::new(),
        }
    }

    /// Writes a text, and returns its length in bytes.
    pub fn write_text(&mut self, what: impl Display) -> usize {
        self.text = what.to_string();
        self.text.len()
    }

    /// Writes numbers, and returns how many there are.
    pub fn write_numbers(&mut self, numbers: Vec<u64>) -> usize {
        self.numbers = numbers;
        self.numbers.len()
    }
}

thread_local! {
    static PAGE: RefCell<Page> = RefCell::new(Page::new());
}

pub fn with_page<R>(call: impl FnOnce(&mut Page) -> R) -> R {
    PAGE.with(|page| call(&mut page.borrow_mut()))
}
