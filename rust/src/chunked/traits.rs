//! The traits of std that sets in chunks implement.

use super::{ChunkedRangeSet, IntoIter, Iter};
use crate::any_range::{each_range, IntoRange, NextValue};
use crate::array::{Array, List};
use crate::chunks;
use crate::entry::RangeSetEntry;
use crate::fallible::EntryClone;
use crate::forms::{ends, fails};
use crate::generated::range_chunks as proved;
use crate::memory::{expect_memory, ByClone};
use crate::range::RangeSetRange;
use crate::range_set::{RangeSet, RangeSet2, RangeSetRef};
use crate::text::{padded, ParseError, Ranges, TextEntry};
use core::cmp::Ordering;
use core::fmt;
use core::hash::{Hash, Hasher};
use core::ops::{
    BitAnd, BitAndAssign, BitOr, BitOrAssign, BitXor, BitXorAssign, Bound, Not, Range, RangeFrom,
    RangeFull, RangeInclusive, RangeTo, RangeToInclusive, Sub, SubAssign,
};
use core::str::FromStr;

#[rustfmt::skip]
macro_rules! traits {
    ($form:ident, $Clone:ident, $must_use:meta, $errors:ident, $from:literal) => {
        /// The empty set.
        impl<T: Ord> Default for $form::ChunkedRangeSet<T> {
            fn default() -> Self {
                Self::new()
            }
        }

        /// Reads the union of the ranges of a text, as a `RangeSet` does.
        ///
        /// # Errors
        ///
        /// Those of a `RangeSet`.
        ///
        #[doc = example!($form "ChunkedRangeSet";
            r#"let set: ChunkedRangeSet<u64> = "20.., 0..10".parse()?;"#,
            "set" => "0..10, 20..",
            Ok "range_sets::ParseError"
        )]
        impl<T: EntryClone + TextEntry> FromStr for $form::ChunkedRangeSet<T> {
            type Err = ParseError;

            fn from_str(text: &str) -> Result<Self, ParseError> {
                let set = T::read_list::<[T; 2]>(text).and_then(|list| Ok(list.into_chunks()?));
                $form::parsed::<T, _>(set).map(Self::of_proved)
            }
        }

        impl<'a, T: Ord> IntoIterator for &'a $form::ChunkedRangeSet<T> {
            type Item = RangeSetRange<&'a T>;
            type IntoIter = Iter<'a, T>;

            fn into_iter(self) -> Iter<'a, T> {
                self.iter()
            }
        }

        impl<T: Ord> IntoIterator for $form::ChunkedRangeSet<T> {
            type Item = RangeSetRange<T>;
            type IntoIter = IntoIter<T>;

            fn into_iter(self) -> IntoIter<T> {
                IntoIter::new(self.into_proved())
            }
        }

        /// Two sets are equal if they have the same members.
        impl<T: Ord> PartialEq for $form::ChunkedRangeSet<T> {
            fn eq(&self, that: &Self) -> bool {
                self.proved() == that.proved()
            }
        }

        impl<T: Ord> Eq for $form::ChunkedRangeSet<T> {}

        /// The first boundaries that differ decide, as of a `RangeSet`.
        impl<T: Ord> PartialOrd for $form::ChunkedRangeSet<T> {
            fn partial_cmp(&self, that: &Self) -> Option<Ordering> {
                Some(self.cmp(that))
            }
        }

        impl<T: Ord> Ord for $form::ChunkedRangeSet<T> {
            fn cmp(&self, that: &Self) -> Ordering {
                self.boundaries().cmp(that.boundaries())
            }
        }

        impl<T: Ord + Hash> Hash for $form::ChunkedRangeSet<T> {
            fn hash<H: Hasher>(&self, state: &mut H) {
                chunks::hash(self.boundaries(), state);
            }
        }

        /// As `ChunkedRangeSet{0..10, 20..}`, by the elements' own `Debug`. Flags as those of
        /// `{:#?}` hold as for std's sets.
        impl<T: Ord + fmt::Debug> fmt::Debug for $form::ChunkedRangeSet<T> {
            fn fmt(&self, f: &mut fmt::Formatter<'_>) -> fmt::Result {
                f.write_str("ChunkedRangeSet")?;
                f.debug_set().entries(self.iter()).finish()
            }
        }

        /// As `0..10, 20..`. A width is that of the whole text, as for a `RangeSet`.
        impl<T: TextEntry> fmt::Display for $form::ChunkedRangeSet<T> {
            fn fmt(&self, f: &mut fmt::Formatter<'_>) -> fmt::Result {
                padded(f, &Ranges(self))
            }
        }
    };
}

both_forms!(traits);

impl<T: Ord + Clone> Clone for ChunkedRangeSet<T> {
    fn clone(&self) -> Self {
        let list = self.proved().list.copied(&ByClone);
        let list = expect_memory::<T, _, _>(list);
        Self::of_proved(proved::ChunkedRangeSet { list })
    }
}

/// The set with the boundaries of a `RangeSet`, which are moved.
///
/// # Examples
///
/// ```
/// use range_sets::{ChunkedRangeSet, RangeSet2};
///
/// let all = ChunkedRangeSet::from(RangeSet2::<u8>::all());
/// assert!(all.contains(&255));
/// ```
impl<T: Ord, A: Array<Item = T>> From<RangeSet<A>> for ChunkedRangeSet<T> {
    fn from(set: RangeSet<A>) -> Self {
        Self::of_proved(expect_memory::<T, _, _>(set.list.into_chunks()))
    }
}

/// The set of clones of a view's boundaries.
///
/// # Examples
///
/// ```
/// use range_sets::{ChunkedRangeSet, RangeSetRef};
///
/// let view = RangeSetRef::new(&[9, 11, 15, 18]).unwrap();
/// assert_eq!(ChunkedRangeSet::from(view).to_string(), "9..11, 15..18");
/// ```
impl<T: Ord + Clone> From<&RangeSetRef<T>> for ChunkedRangeSet<T> {
    fn from(view: &RangeSetRef<T>) -> Self {
        RangeSet2::from(view).into()
    }
}

/// The `RangeSet` with the boundaries of this set, which are moved.
///
/// # Examples
///
/// ```
/// use range_sets::{ChunkedRangeSet, RangeSet2};
///
/// let busy = ChunkedRangeSet::from_iter([15..18, 9..11]);
/// let free = RangeSet2::from(8..20) - RangeSet2::from(busy);
/// assert_eq!(free.to_string(), "8..9, 11..15, 18..20");
/// ```
impl<T: Ord, A: Array<Item = T>> From<ChunkedRangeSet<T>> for RangeSet<A> {
    fn from(set: ChunkedRangeSet<T>) -> Self {
        Self::of_list(expect_memory::<T, _, _>(A::List::of_chunks(
            set.into_proved(),
        )))
    }
}

/// Two sets are equal if they have the same members.
///
/// A set in chunks stands at the right: at the left it is compared with its own type alone, so that
/// the compiler finds the type of `collect` beside it.
///
/// # Examples
///
/// ```
/// use range_sets::{ChunkedRangeSet, RangeSet2};
///
/// let busy: RangeSet2<i32> = [9..11, 15..18].into();
/// assert!(busy == ChunkedRangeSet::from_iter([15..18, 9..11]));
/// ```
impl<T: Ord, A: Array<Item = T>> PartialEq<ChunkedRangeSet<T>> for RangeSet<A> {
    fn eq(&self, that: &ChunkedRangeSet<T>) -> bool {
        self.iter().eq(that.iter())
    }
}

/// The set of clones of a set's boundaries.
///
/// # Examples
///
/// ```
/// use range_sets::{ChunkedRangeSet, RangeSet2};
///
/// let busy = ChunkedRangeSet::from(9..11);
/// let both = RangeSet2::from(&busy) | RangeSet2::from(15..18);
/// assert_eq!(both, [9..11, 15..18].into_iter().collect::<RangeSet2<_>>());
/// ```
impl<T: Ord + Clone, A: Array<Item = T>> From<&ChunkedRangeSet<T>> for RangeSet<A> {
    fn from(set: &ChunkedRangeSet<T>) -> Self {
        Self::of_list(A::list(chunks::clones(&set.proved().list).into()))
    }
}

macro_rules! from_ranges {
    ($($range:ty $(: $($bound:ident)+)?;)*) => {$(
        impl<T: Ord $($(+ $bound)+)?> From<$range> for ChunkedRangeSet<T> {
            fn from(range: $range) -> Self {
                RangeSet2::from(range).into()
            }
        }
    )*};
}

each_range!(from_ranges);

impl<T: Ord, const N: usize> From<[Range<T>; N]> for ChunkedRangeSet<T> {
    fn from(ranges: [Range<T>; N]) -> Self {
        Self::from_ranges(ranges)
    }
}

macro_rules! operators {
    ($($operator:ident $call:ident, $assigning:ident $assign:ident = $with:ident;)*) => {$(
        impl<T: Ord + Clone> $assigning<&RangeSetRef<T>> for ChunkedRangeSet<T> {
            fn $assign(&mut self, that: &RangeSetRef<T>) {
                self.$with(that);
            }
        }

        impl<T: Ord + Clone, A: Array<Item = T>> $assigning<&RangeSet<A>> for ChunkedRangeSet<T> {
            fn $assign(&mut self, that: &RangeSet<A>) {
                self.$with(that);
            }
        }

        impl<T: Ord + Clone, A: Array<Item = T>> $assigning<RangeSet<A>> for ChunkedRangeSet<T> {
            fn $assign(&mut self, that: RangeSet<A>) {
                self.$with(&that);
            }
        }

        /// The right set is copied into one list.
        impl<T: Ord + Clone> $assigning<&Self> for ChunkedRangeSet<T> {
            fn $assign(&mut self, that: &Self) {
                self.$with(&RangeSet2::from(that));
            }
        }

        /// The right set is moved into one list.
        impl<T: Ord + Clone> $assigning for ChunkedRangeSet<T> {
            fn $assign(&mut self, that: Self) {
                self.$with(&RangeSet2::from(that));
            }
        }

        impl<T: Ord + Clone, R> $operator<R> for ChunkedRangeSet<T>
        where
            Self: $assigning<R>,
        {
            type Output = Self;

            fn $call(mut self, that: R) -> Self {
                self.$assign(that);
                self
            }
        }

        operators!(@ $operator $call = $with: &RangeSetRef<T>, |that| that);
        operators!(@ $operator $call = $with: &RangeSet<A>, |that| that, A);
        operators!(@ $operator $call = $with: Self, |that| &RangeSet2::from(that));
        operators!(@ $operator $call = $with: ChunkedRangeSet<T>, |that| &RangeSet2::from(that));
    )*};
    (
        @ $operator:ident $call:ident = $with:ident:
        $right:ty, |$that:ident| $view:expr $(, $A:ident)?
    ) => {
        impl<T: Ord + Clone $(, $A: Array<Item = T>)?> $operator<$right> for &ChunkedRangeSet<T> {
            type Output = ChunkedRangeSet<T>;

            fn $call(self, $that: $right) -> ChunkedRangeSet<T> {
                let that: &RangeSetRef<T> = $view;
                self.with_change(that, |set| set.$with(that), |set| set.$with(that))
            }
        }
    };
}

operators! {
    BitOr bitor, BitOrAssign bitor_assign = union_with;
    BitAnd bitand, BitAndAssign bitand_assign = intersection_with;
    BitXor bitxor, BitXorAssign bitxor_assign = symmetric_difference_with;
    Sub sub, SubAssign sub_assign = difference_with;
}

/// The values that are no members.
///
/// # Examples
///
/// ```
/// use range_sets::ChunkedRangeSet;
///
/// let open = ChunkedRangeSet::from(9u8..17);
/// assert_eq!((!open - ChunkedRangeSet::from(20..)).to_string(), "0..9, 17..20");
/// ```
impl<T: RangeSetEntry + Clone> Not for ChunkedRangeSet<T> {
    type Output = Self;

    fn not(self) -> Self {
        (!RangeSet2::from(self)).into()
    }
}

impl<T: RangeSetEntry + Clone> Not for &ChunkedRangeSet<T> {
    type Output = ChunkedRangeSet<T>;

    fn not(self) -> ChunkedRangeSet<T> {
        !self.clone()
    }
}

/// The union of the ranges, which stand in any order.
impl<T: Ord, R: IntoRange<T>> FromIterator<R> for ChunkedRangeSet<T> {
    fn from_iter<I: IntoIterator<Item = R>>(ranges: I) -> Self {
        Self::from_ranges(ranges)
    }
}

/// Adds the values of the ranges one after the other, which stand in any order.
impl<T: Ord, R: IntoRange<T>> Extend<R> for ChunkedRangeSet<T> {
    fn extend<I: IntoIterator<Item = R>>(&mut self, ranges: I) {
        for range in ranges {
            self.insert(range.into());
        }
    }
}
