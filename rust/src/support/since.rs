//! Functions that Rust's library has only since a later version than 1.63.

/// `div_ceil`, since 1.73.
pub trait DivUp {
    /// The quotient, rounded up.
    fn div_up(self, by: Self) -> Self;
}

impl DivUp for usize {
    #[inline(always)]
    fn div_up(self, by: usize) -> usize {
        self / by + usize::from(self % by != 0)
    }
}

impl DivUp for u128 {
    #[inline(always)]
    fn div_up(self, by: u128) -> u128 {
        self / by + u128::from(self % by != 0)
    }
}

/// `ilog2`, since 1.67.
pub trait Log2Down {
    /// The logarithm to the base 2, rounded down.
    ///
    /// # Panics
    ///
    /// At 0.
    fn log2_down(self) -> u32;
}

impl Log2Down for usize {
    #[inline(always)]
    fn log2_down(self) -> u32 {
        assert!(self != 0, "0 has no logarithm");
        usize::BITS - 1 - self.leading_zeros()
    }
}

/// `checked_next_multiple_of`, since 1.73.
pub trait NextMultipleUp: Sized {
    /// The least multiple of `by` that is this number or more, or `None` if that is too large or
    /// `by` is 0.
    fn next_multiple_up(self, by: Self) -> Option<Self>;
}

impl NextMultipleUp for u128 {
    #[inline(always)]
    fn next_multiple_up(self, by: u128) -> Option<u128> {
        match self.checked_rem(by)? {
            0 => Some(self),
            past => self.checked_add(by - past),
        }
    }
}

/// Whether `select_unpredictable` is std's, which takes no branch.
pub const SELECTS: bool = cfg!(range_sets_select);

/// `std::hint::select_unpredictable`, since 1.88: the one or the other, by no branch if the
/// compiler sees it so.
// clippy looks at the version that the crate asks for, and not at that of the `cfg`.
#[cfg(range_sets_select)]
#[allow(clippy::incompatible_msrv)]
#[inline(always)]
pub fn select_unpredictable<T>(first: bool, one: T, other: T) -> T {
    core::hint::select_unpredictable(first, one, other)
}

/// The same before 1.88.
#[cfg(not(range_sets_select))]
#[inline(always)]
pub fn select_unpredictable<T>(first: bool, one: T, other: T) -> T {
    if first {
        one
    } else {
        other
    }
}
