//! The ranges that calls take: those of all kinds that std has.
//!
//! | A call that | takes |
//! |---|---|
//! | puts a range in or takes it out, or asks whether it is in | [`AnyRange`] |
//! | makes a set of many ranges, or extends one | [`IntoRange`] |
//! | looks for values in a row, as `first_fit` does | [`Ended`] |
//! | finds the ranges that overlap another | [`Overlaps`] |
//! | finds the parts of a range that are in a set, or not | [`Within`] |

mod by_value;
mod within;

pub(crate) use by_value::{Boundaries, Parted};
pub use by_value::{Ended, EndedParts, Overlaps, Parts, PartsFrom, PartsOf};
pub use within::{PartsWithin, Within};

use crate::entry::RangeSetEntry;
use crate::generated::range_collections::{Countable, FromPlace};
use crate::range::RangeSetRange;
use core::num::{NonZeroU128, NonZeroU16, NonZeroU32, NonZeroU64, NonZeroU8, NonZeroUsize};
use core::ops::{Bound, Range, RangeFrom, RangeFull, RangeInclusive, RangeTo, RangeToInclusive};
use core::time::Duration;
use sealed::Sealed;
#[cfg(feature = "std")]
use std::net::{Ipv4Addr, Ipv6Addr};

/// A range of values that a call takes, of any kind that std has.
///
/// | Range | Asks of the element | Is |
/// |---|---|---|
/// | `a..b`, `a..` | nothing more | the range itself |
/// | `..b`, `..` | [`RangeSetEntry`](crate::RangeSetEntry), a least value | the range from that on |
/// | `a..=b` | [`NextValue`] | `a..c` with the value `c` after `b`, or `a..` if there is none |
/// | `..=b` | both | |
/// | `(Bound<T>, Bound<T>)` | both | the range between them, as `(Excluded(a), Included(b))` |
/// | [`RangeSetRange`] | nothing more | the range itself |
/// | `&(a..b)` | [`Clone`] | a clone of the range |
///
/// An empty or a reversed range, as `5..=3`, has no values. It is implemented for these, and for
/// nothing else. Calls that ask for another trait take `RangeSetRange<T>`, made by `range.into()`.
///
/// # Examples
///
/// A function that takes any of them, and returns how many ranges it finds there:
///
/// ```
/// use range_sets::{AnyRange, RangeSet2};
///
/// fn block(busy: &mut RangeSet2<u8>, hours: impl AnyRange<u8> + Clone) -> usize {
///     let found = busy.overlapping(hours.clone()).count();
///     busy.insert(hours);
///     found
/// }
///
/// let mut busy = RangeSet2::from(9..12);
/// assert_eq!((block(&mut busy, ..8), block(&mut busy, 18..), block(&mut busy, 7..=9)), (0, 0, 2));
/// assert_eq!(busy.to_string(), "0..12, 18..");
/// ```
#[cfg_attr(
    range_sets_messages,
    diagnostic::on_unimplemented(
        message = "`{Self}` is no range of `{T}`",
        label = "a range as `a..b` or `a..=b` is expected here",
        note = "one value `x` is the range `x..=x`"
    )
)]
pub trait AnyRange<T>: Sealed + Into<RangeSetRange<T>> + Overlaps<T> {}

/// Calls a macro with each kind of range between values, and what it asks of the element.
macro_rules! each_range {
    ($call:ident) => {
        $call! {
            Range<T>;
            RangeFrom<T>;
            RangeTo<T>: RangeSetEntry;
            RangeFull: RangeSetEntry;
            RangeInclusive<T>: NextValue;
            RangeToInclusive<T>: RangeSetEntry NextValue;
            (Bound<T>, Bound<T>): RangeSetEntry NextValue;
            RangeSetRange<T>;
        }
    };
}

pub(crate) use each_range;

macro_rules! any_range {
    ($($range:ty $(: $($bound:ident)+)?;)*) => {$(
        impl<T $(: $($bound +)+)?> AnyRange<T> for $range {}
    )*};
}

each_range!(any_range);

impl<T: Clone> AnyRange<T> for &Range<T> {}

/// What becomes a [`RangeSetRange`] by `into`, as what a set is collected of.
///
/// It is implemented for all that does, and for nothing else: for ranges of std, for `&(a..b)`, and
/// for a range of your own with a `From` for it.
///
/// # Examples
///
/// ```
/// use range_sets::{RangeSet2, RangeSetRange};
///
/// struct Meeting {
///     start: u32,
///     minutes: u32,
/// }
///
/// impl From<Meeting> for RangeSetRange<u32> {
///     fn from(it: Meeting) -> Self {
///         (it.start..it.start + it.minutes).into()
///     }
/// }
///
/// let meetings = [Meeting { start: 600, minutes: 45 }, Meeting { start: 540, minutes: 60 }];
/// let busy: RangeSet2<u32> = meetings.into_iter().collect();
/// assert_eq!(busy.to_string(), "540..645");
/// ```
#[cfg_attr(
    range_sets_messages,
    diagnostic::on_unimplemented(
        message = "`{Self}` is no range of `{T}`",
        note = "a range is `a..b`, and `x..=x` of one value; `from_values` makes a set of values"
    )
)]
pub trait IntoRange<T>: Into<RangeSetRange<T>> {}

// Without it a message is of the `From` that is missing.
#[cfg_attr(range_sets_hides_impls, diagnostic::do_not_recommend)]
impl<T, R: Into<RangeSetRange<T>>> IntoRange<T> for R {}

mod sealed {
    /// Nothing outside of this crate names it.
    pub trait Sealed {}
}

impl<T> Sealed for Range<T> {}
impl<T> Sealed for RangeFrom<T> {}
impl<T> Sealed for RangeTo<T> {}
impl Sealed for RangeFull {}
impl<T> Sealed for RangeInclusive<T> {}
impl<T> Sealed for RangeToInclusive<T> {}
impl<T> Sealed for RangeSetRange<T> {}
impl<T> Sealed for (Bound<T>, Bound<T>) {}
impl<T> Sealed for &Range<T> {}
impl<T> Sealed for &mut Range<T> {}

/// An element type whose values have a next one, so that `a..=b` is a range of it.
///
/// It is implemented for whole numbers, `NonZero` numbers without a sign, `char` and [`Duration`],
/// and with the feature `std` for `Ipv4Addr` and `Ipv6Addr`. It is tested, and no contract is
/// proved of it.
///
/// # Examples
///
/// An element type of your own:
///
/// ```
/// use range_sets::{NextValue, RangeSet2};
///
/// #[derive(Debug, PartialEq, Eq, PartialOrd, Ord)]
/// enum Day { Mon, Tue, Wed }
///
/// impl NextValue for Day {
///     fn next_value(self) -> Option<Self> {
///         match self {
///             Day::Mon => Some(Day::Tue),
///             Day::Tue => Some(Day::Wed),
///             Day::Wed => None,
///         }
///     }
/// }
///
/// let days: RangeSet2<Day> = (Day::Tue..=Day::Wed).into();
/// assert!(days.contains(&Day::Wed) && !days.contains(&Day::Mon));
/// ```
pub trait NextValue: Ord + Sized {
    /// Returns the least value above this one, or `None` if this is the greatest.
    ///
    /// # Examples
    ///
    /// ```
    /// use range_sets::NextValue;
    ///
    /// assert_eq!('\u{d7ff}'.next_value(), Some('\u{e000}'));
    /// assert_eq!(255u8.next_value(), None);
    /// ```
    fn next_value(self) -> Option<Self>;
}

macro_rules! numbers {
    ($($number:ty)*) => {$(
        impl NextValue for $number {
            #[inline]
            fn next_value(self) -> Option<Self> {
                self.checked_add(1)
            }
        }
    )*};
}

numbers!(u8 u16 u32 u64 u128 usize i8 i16 i32 i64 i128 isize);

macro_rules! non_zero_numbers {
    ($($number:ty)*) => {$(
        impl NextValue for $number {
            #[inline]
            fn next_value(self) -> Option<Self> {
                Self::new(self.get().checked_add(1)?)
            }
        }
    )*};
}

non_zero_numbers!(NonZeroU8 NonZeroU16 NonZeroU32 NonZeroU64 NonZeroU128 NonZeroUsize);

macro_rules! by_place {
    ($($(#[$attribute:meta])* $value:ty;)*) => {$(
        $(#[$attribute])*
        impl NextValue for $value {
            #[inline]
            fn next_value(self) -> Option<Self> {
                Self::from_place(self.place().checked_add(1)?)
            }
        }
    )*};
}

by_place! {
    char;
    Duration;
    #[cfg(feature = "std")]
    #[cfg_attr(docsrs, doc(cfg(feature = "std")))]
    Ipv4Addr;
    #[cfg(feature = "std")]
    #[cfg_attr(docsrs, doc(cfg(feature = "std")))]
    Ipv6Addr;
}
