//! Questions about two sets, each in one list or in chunks. None takes memory.

use crate::chunked::ChunkedRangeSet;
use crate::generated::range_chunks as chunks;
use crate::generated::range_collections::{self as lists, Comparisons};
use crate::operation::Connective;
use crate::view::RangeSetRef;
use core::ops::Deref;

/// A set that another one is compared with: a view, a set in chunks, or what dereferences to
/// either, as a [`RangeSet`](crate::RangeSet), a [`ChunkedSpace`](crate::ChunkedSpace) or a box of
/// one.
///
/// It is implemented for these, and for nothing else.
///
/// # Examples
///
/// ```
/// use range_sets::chunked::AnySet;
/// use range_sets::{ChunkedRangeSet, RangeSet2};
///
/// fn clash(busy: &RangeSet2<u32>, that: &impl AnySet<u32>) -> bool {
///     busy.intersects(that)
/// }
///
/// let busy = RangeSet2::from([9..11, 15..18]);
/// assert!(clash(&busy, &RangeSet2::from(10..12)));
/// assert!(!clash(&busy, &ChunkedRangeSet::from(11..15)));
/// ```
pub trait AnySet<T: Ord> {
    #[doc(hidden)]
    fn either(&self) -> Either<'_, T>;
}

impl<T: Ord> AnySet<T> for RangeSetRef<T> {
    #[inline(always)]
    fn either(&self) -> Either<'_, T> {
        Either::List(self.proved())
    }
}

impl<T: Ord> AnySet<T> for ChunkedRangeSet<T> {
    #[inline(always)]
    fn either(&self) -> Either<'_, T> {
        Either::Chunked(self.proved())
    }
}

impl<T: Ord, P: Deref + ?Sized> AnySet<T> for P
where
    P::Target: AnySet<T>,
{
    #[inline(always)]
    fn either(&self) -> Either<'_, T> {
        (**self).either()
    }
}

/// The set behind an [`AnySet`].
pub enum Either<'a, T: Ord> {
    List(lists::RangeSetRef<'a, T>),
    Chunked(&'a chunks::ChunkedRangeSet<T>),
}

impl<T: Ord> Either<'_, T> {
    fn len(&self) -> usize {
        match self {
            Either::List(set) => set.boundaries().len(),
            Either::Chunked(set) => set.boundaries_len(),
        }
    }
}

/// Calls a function of sets in one list or in chunks. `$converse` is that of the right set.
macro_rules! between {
    ($this:expr, $that:expr, $call:ident($($op:ident $(, $count:expr)?)?), $converse:expr) => {
        match ($this.either(), $that.either()) {
            (Either::List(this), Either::List(that)) => this.$call(that $(, &$op $(, $count)?)?),
            (Either::List(this), Either::Chunked(that)) => $converse(that, this),
            (Either::Chunked(this), Either::List(that)) => this.$call(that $(, &$op)?),
            (Either::Chunked(this), Either::Chunked(that)) => this.$call(that $(, &$op)?),
        }
    };
}

/// `$name` is the set of the examples.
#[rustfmt::skip]
macro_rules! relations {
    ($Set:ident, $name:literal) => {
        /// If one of the sets is in chunks, these make one search in the set with more boundaries
        /// for each range of the one with fewer. None takes memory.
        impl<T: Ord> $Set<T> {
            /// Returns `true` if the sets have a member in common. It stops at the first one.
            ///
            #[doc = example!(ends "{ChunkedRangeSet, RangeSetRef, " $name " as Set}";
                "let day = Set::from(9..17);",
                "assert!(day.intersects(RangeSetRef::single(&16)));",
                "assert!(!day.intersects(&ChunkedRangeSet::from(17..)));",
            )]
            #[must_use]
            pub fn intersects(&self, that: &(impl AnySet<T> + ?Sized)) -> bool {
                between!(self, that, intersects(), chunks::ChunkedRangeSet::intersects)
            }

            /// Returns `true` if the sets have no member in common. It stops at the first common
            /// one.
            ///
            #[doc = example!(ends "{RangeSetRef, " $name "}";
                "let day = " $name "::from(9..17);",
                "assert!(day.is_disjoint(RangeSetRef::single(&17)));",
            )]
            #[must_use]
            pub fn is_disjoint(&self, that: &(impl AnySet<T> + ?Sized)) -> bool {
                !self.intersects(that)
            }

            /// Returns `true` if every member of this set is one of `that`. A set is a subset of
            /// itself.
            ///
            #[doc = example!(ends $name;
                "let day = " $name "::from(9..17);",
                "let noon = " $name "::from(12..13);",
                "assert!(noon.is_subset(&day));",
                "assert!(!day.is_subset(&noon));",
            )]
            #[must_use]
            pub fn is_subset(&self, that: &(impl AnySet<T> + ?Sized)) -> bool {
                between!(self, that, is_subset(), chunks::ChunkedRangeSet::is_superset)
            }

            /// Returns `true` if every member of `that` is one of this set. A set is a superset of
            /// itself.
            ///
            #[doc = example!(ends $name;
                "let day = " $name "::from(9..17);",
                "assert!(day.is_superset(&" $name "::from(12..13)));",
            )]
            #[must_use]
            pub fn is_superset(&self, that: &(impl AnySet<T> + ?Sized)) -> bool {
                between!(self, that, is_superset(), chunks::ChunkedRangeSet::is_subset)
            }

            /// Returns `true` if the result of an operation has a member. It stops at the first one.
            ///
            /// # Panics
            ///
            /// Panics if the operation has members where both sets have none, as
            /// [`merge_len`](Self::merge_len) does.
            ///
            #[doc = example!(ends "{Connective, RangeSetRef, " $name "}";
                "let a = " $name "::from(0..10);",
                "assert!(a.merge_test(RangeSetRef::empty(), Connective::DIFFERENCE));",
                "assert!(!a.merge_test(&a, Connective::SYMMETRIC_DIFFERENCE));",
            )]
            #[must_use]
            pub fn merge_test(&self, that: &(impl AnySet<T> + ?Sized), op: Connective) -> bool {
                check_merge(self, that, op);
                let count = &mut Comparisons::new();
                between!(self, that, merge_test(op, count), |that, this| {
                    chunks::ChunkedRangeSet::merge_test(that, this, &converse(op))
                })
            }

            /// Returns how many boundaries the result of an operation has, without making it.
            ///
            /// If this set is in chunks, it makes one search for each boundary of `that`, and adds
            /// up the chunks between them.
            ///
            /// # Panics
            ///
            /// Panics if the operation has members where both sets have none: those have no list of
            /// boundaries without a least value. Panics if both sets together have more boundaries
            /// than a `usize` counts.
            ///
            #[doc = example!(ends "{Connective, RangeSetRef, " $name "}";
                "let a = " $name "::from(0..10);",
                "let b = RangeSetRef::new(&[5, 15]).unwrap();",
                "assert_eq!(a.merge_len(b, Connective::UNION), 2);",
                "assert_eq!(a.merge_len(b, Connective::SYMMETRIC_DIFFERENCE), 4);",
            )]
            #[must_use]
            pub fn merge_len(&self, that: &(impl AnySet<T> + ?Sized), op: Connective) -> usize {
                check_merge(self, that, op);
                let count = &mut Comparisons::new();
                between!(self, that, merge_len(op, count), |that, this| {
                    chunks::ChunkedRangeSet::merge_len(that, this, &converse(op))
                })
            }
        }
    };
}

relations!(RangeSetRef, "RangeSet2");
relations!(ChunkedRangeSet, "ChunkedRangeSet");

/// The operation that has the same result if the sets change sides.
fn converse(op: Connective) -> Connective {
    Connective {
        left: op.right,
        right: op.left,
        ..op
    }
}

/// Panics if the operation or the lengths of the sets break what the proved merges require.
pub(crate) fn check_merge<T, S, R>(this: &S, that: &R, op: Connective)
where
    T: Ord,
    S: AnySet<T> + ?Sized,
    R: AnySet<T> + ?Sized,
{
    assert!(
        !op.neither,
        "the operation has members where both sets have none"
    );
    let len = this.either().len().checked_add(that.either().len());
    assert!(
        len.is_some(),
        "both sets together have more boundaries than a usize counts"
    );
}
