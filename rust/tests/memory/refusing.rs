//! An allocator that refuses a thread's requests, and calls of which each request is refused in
//! turn.

use crate::common::one_in;
use std::alloc::{GlobalAlloc, Layout, System};
use std::cell::Cell;
use std::fmt::Debug;

/// The system's allocator, which refuses a request of a thread.
pub struct Refusing;

/// Which requests are refused.
#[derive(Clone, Copy, Debug)]
pub enum Refusal {
    Nothing,
    /// The one after this many.
    One(usize),
    /// That one and all after it.
    From(usize),
}

thread_local! {
    static REFUSAL: Cell<Refusal> = const { Cell::new(Refusal::Nothing) };
    static REFUSED: Cell<usize> = const { Cell::new(0) };
    /// The most bytes that one request asked for.
    pub static LARGEST: Cell<usize> = const { Cell::new(0) };
}

pub fn is_refused(size: usize) -> bool {
    LARGEST.with(|largest| largest.set(largest.get().max(size)));
    let (refused, next) = match REFUSAL.with(Cell::get) {
        Refusal::Nothing => (false, Refusal::Nothing),
        Refusal::One(0) => (true, Refusal::Nothing),
        Refusal::One(left) => (false, Refusal::One(left - 1)),
        Refusal::From(0) => (true, Refusal::From(0)),
        Refusal::From(left) => (false, Refusal::From(left - 1)),
    };
    REFUSAL.with(|refusal| refusal.set(next));
    REFUSED.with(|it| it.set(it.get() + usize::from(refused)));
    refused
}

// SAFETY: what is answered is the system's answer to the same request, and null is the answer to a
// refused one.
unsafe impl GlobalAlloc for Refusing {
    unsafe fn alloc(&self, layout: Layout) -> *mut u8 {
        if is_refused(layout.size()) {
            std::ptr::null_mut()
        } else {
            System.alloc(layout)
        }
    }

    unsafe fn dealloc(&self, place: *mut u8, layout: Layout) {
        System.dealloc(place, layout)
    }

    unsafe fn realloc(&self, place: *mut u8, layout: Layout, size: usize) -> *mut u8 {
        if size > layout.size() && is_refused(size) {
            std::ptr::null_mut()
        } else {
            System.realloc(place, layout, size)
        }
    }
}

#[global_allocator]
static ALLOCATOR: Refusing = Refusing;

/// Runs a call with requests refused. Also how many were.
pub fn refusing<R>(refusal: Refusal, call: impl FnOnce() -> R) -> (R, usize) {
    REFUSED.with(|refused| refused.set(0));
    REFUSAL.with(|it| it.set(refusal));
    let result = call();
    REFUSAL.with(|it| it.set(Refusal::Nothing));
    (result, REFUSED.with(Cell::get))
}

/// What a test itself does within a call: no request of it is counted.
pub fn unrefused<R>(run: impl FnOnce() -> R) -> R {
    let kept = REFUSAL.with(|refusal| refusal.replace(Refusal::Nothing));
    let result = run();
    REFUSAL.with(|refusal| refusal.set(kept));
    result
}

/// Refuses the requests of a call in turn, each or one in some: that one alone, and that one with
/// all after it, until none is refused. The call gives the boundaries of its result. How many
/// requests it makes.
pub fn refusals<T, S, E>(
    one_in: usize,
    name: &str,
    prepare: impl Fn() -> S,
    call: impl Fn(&mut S) -> Result<Vec<T>, E>,
    left_as_it_was: impl Fn(&S, &S) -> bool,
) -> usize
where
    T: PartialEq + Debug,
    E: Debug,
{
    let (before, mut state) = (prepare(), prepare());
    let expected = call(&mut state).unwrap_or_else(|error| panic!("{name}: {error:?}"));
    let refused_by = |refusal| {
        let mut state = prepare();
        let (result, refused) = refusing(refusal, || call(&mut state));
        match result {
            Ok(found) => assert_eq!(found, expected, "{name} by {refusal:?}"),
            Err(_) => {
                assert!(refused > 0, "{name} failed without a refusal");
                assert!(
                    left_as_it_was(&state, &before),
                    "{name} changed something by {refusal:?}"
                );
            }
        }
        refused
    };
    (0..)
        .step_by(one_in)
        .find(|&turn| refused_by(Refusal::One(turn)) + refused_by(Refusal::From(turn)) == 0)
        .expect("a call ends")
}

/// Refuses the requests of a call in turn: each, or one in `one_in()`.
pub fn each_refusal<T, S, E>(
    name: &str,
    prepare: impl Fn() -> S,
    call: impl Fn(&mut S) -> Result<Vec<T>, E>,
    left_as_it_was: impl Fn(&S, &S) -> bool,
) -> usize
where
    T: PartialEq + Debug,
    E: Debug,
{
    refusals(one_in(), name, prepare, call, left_as_it_was)
}
