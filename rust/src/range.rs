//! One range of a set.

use crate::any_range::NextValue;
use crate::entry::RangeSetEntry;
use crate::generated::range_collections::range_set::values::range_of;
use crate::generated::range_collections::{self as proved, Countable, FromPlace};
use crate::generated::range_merge::Copier;
use crate::memory::AllocError;
use crate::text::padded;
use core::cmp::Ordering;
use core::fmt;
use core::ops::{
    Bound, Range, RangeBounds, RangeFrom, RangeFull, RangeInclusive, RangeTo, RangeToInclusive,
};

/// One range of a set: with an end, or without one.
///
/// The start is in the range, and the end is not. So these are the only two kinds of ranges that a
/// set is made of. All other ranges of std become one of them by `from`, as the [calls that take
/// any range](crate::AnyRange) have it.
///
/// Ranges are ordered by their starts, and those of one start by their ends. No end is above all
/// ends.
///
/// # Examples
///
/// ```
/// use range_sets::range_set::{RangeSet2, RangeSetRange};
///
/// let set: RangeSet2<i32> = (5..).into();
/// assert_eq!(set.iter().next(), Some(RangeSetRange::from(&5..)));
/// assert!(RangeSetRange::from(5..9) < RangeSetRange::from(5..));
/// ```
#[derive(Clone, PartialEq, Eq, Hash)]
pub enum RangeSetRange<T> {
    /// From a start up to an end.
    Range(Range<T>),
    /// From a start on, without an end.
    RangeFrom(RangeFrom<T>),
}

impl<T: Clone> RangeSetRange<&T> {
    /// Returns the range of clones of both ends.
    ///
    /// # Examples
    ///
    /// ```
    /// use range_sets::range_set::{RangeSet2, RangeSetRange};
    ///
    /// let set: RangeSet2<String> = ("a".to_string().."c".to_string()).into();
    /// let range: RangeSetRange<String> = set.iter().next().unwrap().cloned();
    /// assert_eq!(format!("{range:?}"), r#""a".."c""#);
    /// ```
    #[must_use]
    pub fn cloned(&self) -> RangeSetRange<T> {
        match self {
            Self::Range(range) => RangeSetRange::Range(range.start.clone()..range.end.clone()),
            Self::RangeFrom(range) => RangeSetRange::RangeFrom(range.start.clone()..),
        }
    }

    /// Returns the range of copies of both ends.
    ///
    /// # Examples
    ///
    /// ```
    /// use range_sets::RangeSet2;
    /// use std::ops::Range;
    ///
    /// let set: RangeSet2<u32> = (9..17).into();
    /// let range: Range<u32> = set.first().unwrap().copied().try_into().unwrap();
    /// assert_eq!(range, 9..17);
    /// ```
    #[must_use]
    pub fn copied(&self) -> RangeSetRange<T>
    where
        T: Copy,
    {
        self.cloned()
    }
}

impl<T> RangeSetRange<&T> {
    /// Clones of the ends of what it has in common with another range.
    pub(crate) fn common_with(&self, that: &RangeSetRange<T>) -> RangeSetRange<T>
    where
        T: Ord + Clone,
    {
        let start = T::clone((*self.start()).max(that.start()));
        let ends = self.end().copied().into_iter().chain(that.end());
        RangeSetRange::of_ends(start, ends.min().cloned())
    }

    /// The range of copies of both ends.
    pub(crate) fn copied_by<P: Copier<T>>(
        &self,
        copier: &P,
    ) -> Result<RangeSetRange<T>, AllocError> {
        let start = copier.copy(self.start())?;
        let end = self.end().map(|end| copier.copy(end)).transpose()?;
        Ok(RangeSetRange::of_ends(start, end))
    }
}

impl<T> RangeSetRange<T> {
    /// Returns the range of references to both ends.
    ///
    /// # Examples
    ///
    /// ```
    /// use range_sets::range_set::RangeSetRange;
    ///
    /// let range = RangeSetRange::from("a".to_string()..);
    /// assert_eq!(range.as_ref().cloned(), range);
    /// ```
    #[must_use]
    pub fn as_ref(&self) -> RangeSetRange<&T> {
        match self {
            Self::Range(range) => RangeSetRange::Range(&range.start..&range.end),
            Self::RangeFrom(range) => RangeSetRange::RangeFrom(&range.start..),
        }
    }

    /// Returns the start. Of a range between references, as a set's `first` returns, that is a
    /// reference to one: [`copied`](Self::copied) makes a range of values.
    ///
    /// # Examples
    ///
    /// ```
    /// use range_sets::RangeSetRef;
    ///
    /// let set = RangeSetRef::new(&[0, 10, 20]).unwrap();
    /// let starts: Vec<i32> = set.iter().copied().map(|range| *range.start()).collect();
    /// assert_eq!(starts, [0, 20]);
    /// ```
    #[must_use]
    pub const fn start(&self) -> &T {
        match self {
            Self::Range(range) => &range.start,
            Self::RangeFrom(range) => &range.start,
        }
    }

    /// Returns the end, or `None` for a range without one.
    ///
    /// # Examples
    ///
    /// ```
    /// use range_sets::RangeSetRange;
    ///
    /// assert_eq!(RangeSetRange::from(0..10).end(), Some(&10));
    /// assert_eq!(RangeSetRange::from(20..).end(), None);
    /// ```
    #[must_use]
    pub const fn end(&self) -> Option<&T> {
        match self {
            Self::Range(range) => Some(&range.end),
            Self::RangeFrom(_) => None,
        }
    }

    /// Returns how many values the range has, or `None` if it has no end. The ends are values or
    /// references to values. `RangeInclusive::try_from` makes a range with the greatest value.
    ///
    /// It is the [place](Countable::place) of the end less that of the start.
    ///
    /// # Examples
    ///
    /// ```
    /// use range_sets::{RangeSet2, RangeSetRange};
    ///
    /// let set: RangeSet2<u32> = "9..11, 15..18".parse().unwrap();
    /// assert_eq!(set.last().unwrap().len(), Some(3));
    /// assert_eq!(RangeSetRange::from('a'..='z').len(), Some(26));
    /// assert_eq!(RangeSetRange::from(20..).len(), None);
    /// ```
    #[must_use]
    pub fn len<U>(&self) -> Option<u128>
    where
        T: CountableEnd<U>,
    {
        Some(self.end()?.place().saturating_sub(self.start().place()))
    }

    /// Returns `true` if the range has no values: if its end isn't above its start.
    ///
    /// # Examples
    ///
    /// ```
    /// use range_sets::RangeSetRange;
    ///
    /// assert!(RangeSetRange::from(5..3).is_empty());
    /// assert!(!RangeSetRange::from(20..).is_empty());
    /// ```
    #[must_use]
    pub fn is_empty(&self) -> bool
    where
        T: PartialOrd,
    {
        match self {
            Self::Range(range) => range.is_empty(),
            Self::RangeFrom(_) => false,
        }
    }

    /// Returns `true` if a value lies in the range.
    ///
    /// # Examples
    ///
    /// ```
    /// use range_sets::RangeSet2;
    ///
    /// let set: RangeSet2<u32> = (9..17).into();
    /// assert!(set.iter().all(|range| range.contains(&12) && !range.contains(&17)));
    /// ```
    #[must_use]
    pub fn contains<U: ?Sized, By>(&self, value: &U) -> bool
    where
        T: ComparableEnd<U, By>,
    {
        !self.start().is_above(value) && self.end().map_or(true, |end| end.is_above(value))
    }

    #[inline(always)]
    pub(crate) fn of_ends(start: T, end: Option<T>) -> Self {
        match end {
            Some(end) => Self::Range(start..end),
            None => Self::RangeFrom(start..),
        }
    }

    /// The start, and the end if there is one.
    #[inline(always)]
    pub(crate) fn into_ends(self) -> (T, Option<T>) {
        match self {
            Self::Range(range) => (range.start, Some(range.end)),
            Self::RangeFrom(range) => (range.start, None),
        }
    }

    /// The range of one value.
    #[inline]
    pub(crate) fn of_value(value: T) -> Self
    where
        T: FromPlace,
    {
        Self::from_proved(range_of(&value))
    }

    #[inline(always)]
    pub(crate) fn from_proved(range: proved::RangeSetRange<T>) -> Self {
        match range {
            proved::RangeSetRange::Range(range) => Self::Range(range),
            proved::RangeSetRange::RangeFrom(range) => Self::RangeFrom(range),
        }
    }

    #[inline(always)]
    pub(crate) fn into_proved(self) -> proved::RangeSetRange<T> {
        match self {
            Self::Range(range) => proved::RangeSetRange::Range(range),
            Self::RangeFrom(range) => proved::RangeSetRange::RangeFrom(range),
        }
    }
}

/// An end whose values are counted: a value, or a reference to one. The compiler finds the type `U`
/// of the value.
pub trait CountableEnd<U> {
    #[doc(hidden)]
    fn place(&self) -> u128;
}

impl<U: Countable> CountableEnd<U> for U {
    fn place(&self) -> u128 {
        Countable::place(self)
    }
}

impl<U: Countable> CountableEnd<U> for &U {
    fn place(&self) -> u128 {
        Countable::place(*self)
    }
}

/// An end that is compared with a value: a value, or a reference to one. The compiler finds out
/// which.
pub trait ComparableEnd<U: ?Sized, By> {
    #[doc(hidden)]
    fn is_above(&self, value: &U) -> bool;
}

/// What [`ComparableEnd`] has for a value.
pub struct ByValue;

/// What [`ComparableEnd`] has for a reference.
pub struct ByReference;

impl<T: PartialOrd<U>, U: ?Sized> ComparableEnd<U, ByValue> for T {
    fn is_above(&self, value: &U) -> bool {
        self > value
    }
}

impl<T: PartialOrd<U>, U: ?Sized> ComparableEnd<U, ByReference> for &T {
    fn is_above(&self, value: &U) -> bool {
        *self > value
    }
}

impl<T> From<Range<T>> for RangeSetRange<T> {
    #[inline(always)]
    fn from(range: Range<T>) -> Self {
        Self::Range(range)
    }
}

impl<T> From<RangeFrom<T>> for RangeSetRange<T> {
    #[inline(always)]
    fn from(range: RangeFrom<T>) -> Self {
        Self::RangeFrom(range)
    }
}

/// From the least value up to the end.
impl<T: RangeSetEntry> From<RangeTo<T>> for RangeSetRange<T> {
    #[inline]
    fn from(range: RangeTo<T>) -> Self {
        Self::Range(T::min_value()..range.end)
    }
}

/// From the least value on.
impl<T: RangeSetEntry> From<RangeFull> for RangeSetRange<T> {
    #[inline]
    fn from(_: RangeFull) -> Self {
        Self::RangeFrom(T::min_value()..)
    }
}

/// From the start up to the value after the last one, and without an end if that is the greatest
/// one.
///
/// # Examples
///
/// ```
/// use range_sets::RangeSetRange;
///
/// assert_eq!(RangeSetRange::from(3u8..=5), (3..6).into());
/// assert_eq!(RangeSetRange::from(3u8..=255), (3..).into());
/// ```
impl<T: NextValue> From<RangeInclusive<T>> for RangeSetRange<T> {
    #[inline]
    fn from(range: RangeInclusive<T>) -> Self {
        // A range that was iterated to its end is empty too. What it then has as its ends isn't
        // promised.
        let is_empty = range.is_empty();
        let (start, last) = range.into_inner();
        if is_empty {
            return if start < last {
                Self::Range(last..start)
            } else {
                Self::Range(start..last)
            };
        }
        Self::of_ends(start, last.next_value())
    }
}

/// From the least value up to the value after the last one, and without an end if that is the
/// greatest one.
impl<T: RangeSetEntry + NextValue> From<RangeToInclusive<T>> for RangeSetRange<T> {
    #[inline]
    fn from(range: RangeToInclusive<T>) -> Self {
        Self::of_ends(T::min_value(), range.end.next_value())
    }
}

/// From the value at the first bound or after it up to the other one.
///
/// # Examples
///
/// ```
/// use range_sets::RangeSetRange;
/// use std::ops::Bound::{Excluded, Included, Unbounded};
///
/// assert_eq!(RangeSetRange::from((Excluded(3u8), Included(5))), (4..6).into());
/// assert_eq!(RangeSetRange::from((Included(3u8), Unbounded)), (3..).into());
/// ```
impl<T: RangeSetEntry + NextValue> From<(Bound<T>, Bound<T>)> for RangeSetRange<T> {
    fn from((start, end): (Bound<T>, Bound<T>)) -> Self {
        let start = match start {
            Bound::Included(start) => Some(start),
            Bound::Excluded(before) => before.next_value(),
            Bound::Unbounded => Some(T::min_value()),
        };
        let end = match end {
            Bound::Included(last) => last.next_value(),
            Bound::Excluded(end) => Some(end),
            Bound::Unbounded => None,
        };
        match start {
            Some(start) => Self::of_ends(start, end),
            // The start would be above the greatest value.
            None => Self::Range(T::min_value()..T::min_value()),
        }
    }
}

/// A clone of the range, so that a set is collected from borrowed ranges.
///
/// # Examples
///
/// ```
/// use range_sets::RangeSet2;
///
/// let busy = vec![9..11, 15..18];
/// let set: RangeSet2<u32> = busy.iter().collect();
/// assert_eq!(set.to_string(), "9..11, 15..18");
/// ```
impl<T: Clone> From<&Range<T>> for RangeSetRange<T> {
    fn from(range: &Range<T>) -> Self {
        Self::Range(range.clone())
    }
}

/// The range of std. One without an end comes back as an error.
///
/// # Examples
///
/// ```
/// use range_sets::RangeSet2;
/// use std::ops::Range;
///
/// let set: RangeSet2<u32> = "9..11, 15..18".parse().unwrap();
/// let ranges: Result<Vec<Range<u32>>, _> = set.into_iter().map(Range::try_from).collect();
/// assert_eq!(ranges, Ok(vec![9..11, 15..18]));
/// ```
impl<T> TryFrom<RangeSetRange<T>> for Range<T> {
    type Error = RangeFrom<T>;

    fn try_from(range: RangeSetRange<T>) -> Result<Self, RangeFrom<T>> {
        match range {
            RangeSetRange::Range(range) => Ok(range),
            RangeSetRange::RangeFrom(range) => Err(range),
        }
    }
}

/// The range of std up to the last value, which is the greatest one if the range has no end. An empty
/// range comes back as an error.
///
/// # Examples
///
/// ```
/// use range_sets::RangeSetRange;
/// use std::ops::RangeInclusive;
///
/// let inclusive = |range| RangeInclusive::try_from(RangeSetRange::from(range));
/// assert_eq!(inclusive(3u8..6), Ok(3..=5));
/// assert!(inclusive(3..3).is_err());
/// assert_eq!(RangeInclusive::try_from(RangeSetRange::from(250u8..)), Ok(250..=255));
/// ```
impl<T: FromPlace> TryFrom<RangeSetRange<T>> for RangeInclusive<T> {
    type Error = RangeSetRange<T>;

    fn try_from(range: RangeSetRange<T>) -> Result<Self, RangeSetRange<T>> {
        if range.is_empty() {
            return Err(range);
        }
        let (start, end) = range.into_ends();
        let last = match end {
            Some(end) => T::from_place(end.place() - 1),
            None => Some(T::greatest()),
        };
        Ok(start..=last.expect("there are values up to an end"))
    }
}

impl<T: Ord> PartialOrd for RangeSetRange<T> {
    fn partial_cmp(&self, that: &Self) -> Option<Ordering> {
        Some(self.cmp(that))
    }
}

impl<T: Ord> Ord for RangeSetRange<T> {
    fn cmp(&self, that: &Self) -> Ordering {
        let ends = || match (self.end(), that.end()) {
            (Some(end), Some(other)) => end.cmp(other),
            (end, other) => end.is_none().cmp(&other.is_none()),
        };
        self.start().cmp(that.start()).then_with(ends)
    }
}

/// As the ranges of std: `0..10` or `20..`.
impl<T: fmt::Debug> fmt::Debug for RangeSetRange<T> {
    fn fmt(&self, f: &mut fmt::Formatter<'_>) -> fmt::Result {
        match self {
            Self::Range(range) => range.fmt(f),
            Self::RangeFrom(range) => range.fmt(f),
        }
    }
}

/// As `0..10` or `20..`, by the `Display` of its ends. A width is that of the whole text.
///
/// # Examples
///
/// ```
/// use range_sets::RangeSet2;
///
/// let set: RangeSet2<u32> = (9..17).into();
/// for range in &set {
///     assert_eq!(format!("{range:>6}"), " 9..17");
/// }
/// ```
impl<T: fmt::Display> fmt::Display for RangeSetRange<T> {
    fn fmt(&self, f: &mut fmt::Formatter<'_>) -> fmt::Result {
        match self {
            Self::Range(range) => padded(f, &format_args!("{}..{}", range.start, range.end)),
            Self::RangeFrom(range) => padded(f, &format_args!("{}..", range.start)),
        }
    }
}

impl<T> RangeBounds<T> for RangeSetRange<T> {
    fn start_bound(&self) -> Bound<&T> {
        match self {
            Self::Range(range) => range.start_bound(),
            Self::RangeFrom(range) => range.start_bound(),
        }
    }

    fn end_bound(&self) -> Bound<&T> {
        match self {
            Self::Range(range) => range.end_bound(),
            Self::RangeFrom(range) => range.end_bound(),
        }
    }
}
