//! Sets of boundaries, of ranges, of values, and of other sets.

use crate::any_range::IntoRange;
use crate::array::{Array, List};
use crate::entry::RangeSetEntry;
use crate::fallible::EntryClone;
use crate::forms::{ends, fails};
use crate::generated::range_collections::FromPlace;
use crate::range::RangeSetRange;
use crate::range_set::{intersection_of_sets, union_of_sets};
use crate::view::RangeSetRef;
use smallvec::SmallVec;

macro_rules! constructors {
    ($form:ident, $Clone:ident, $must_use:meta, $errors:ident, $from:literal) => {
        impl<T, A: Array<Item = T>> $form::RangeSet<A> {
            /// Returns the set with these boundaries, or `None` if they aren't strictly sorted. It
            /// takes no memory.
            ///
            /// [`from_unsorted`](Self::from_unsorted) sorts them. The empty set is
            /// [`empty`](Self::empty), which takes no list.
            ///
            /// The array type doesn't follow from the boundaries, nor from ranges that are
            /// collected. A line that makes a set of them names it: `let set: RangeSet<[i32; 4]> =
            /// ..`, or `RangeSet2`.
            ///
            #[doc = example!($form "RangeSet", "smallvec::smallvec";
                "let set: RangeSet<[i32; 4]> = RangeSet::new(smallvec![0, 10, 20]).unwrap();",
                "assert!(set.contains(&25));",
                "assert!(RangeSet::<[i32; 4]>::new(smallvec![10, 0]).is_none());",
            )]
            #[must_use]
            pub fn new(boundaries: SmallVec<A>) -> Option<Self>
            where
                T: Ord,
            {
                RangeSetRef::new(&boundaries)?;
                Some(Self::of_list(A::list(boundaries)))
            }

            /// Returns the set with these boundaries, and doesn't look whether they are strictly
            /// sorted.
            ///
            /// If they aren't, calls give wrong results or panic. Nothing is undefined.
            ///
            #[doc = example!($form "RangeSet2", "smallvec::smallvec";
                "let set: RangeSet2<u8> = RangeSet2::new_unchecked(smallvec![9, 17]);",
                "assert!(set.contains(&12));",
            )]
            #[cfg(feature = "new_unchecked")]
            #[cfg_attr(docsrs, doc(cfg(feature = "new_unchecked")))]
            #[must_use]
            pub fn new_unchecked(boundaries: SmallVec<A>) -> Self {
                Self::of_list(A::list(boundaries))
            }

            /// Returns the set whose boundaries are the distinct ones of these, in order. Of equal
            /// ones the first stays.
            ///
            #[doc = $errors!("If there is no room for the boundaries, or none to sort them: more \
                than 20 take a list of their places.")]
            #[doc = example!($form "RangeSet2";
                "let set: RangeSet2<i32> = RangeSet2::from_unsorted([20, 0, 10, 0])"?
                "assert_eq!(set.boundaries(), [0, 10, 20]);",
            )]
            #[$must_use]
            pub fn from_unsorted(boundaries: impl IntoIterator<Item = T>) -> $form::Returned<Self>
            where
                T: Ord,
            {
                let mut list = A::List::EMPTY;
                let pushed = boundaries.into_iter().try_for_each(|it| list.push(it));
                let sorted = pushed.and_then(|()| list.sorted($form::SORTING));
                $form::returned::<T, _, _>(sorted.map(Self::of_list))
            }

            /// Returns the empty set. It takes no memory, and can be a constant.
            ///
            #[doc = example!($form "RangeSet2";
                "static NOTHING: RangeSet2<i32> = RangeSet2::empty();",
                "assert!(NOTHING.is_empty());",
                "",
                "let mut busy = RangeSet2::empty();",
                "busy.insert(9..17)"?
                "busy" => "9..17",
            )]
            #[doc(alias = "new")]
            #[must_use]
            pub const fn empty() -> Self {
                Self {
                    list: A::List::EMPTY,
                }
            }

            /// Returns the set of all values.
            ///
            #[doc = $errors!("If memory runs out, which happens only if the set keeps no boundary in \
                itself.")]
            #[doc = example!($form "RangeSet2";
                "let all = RangeSet2::<i8>::all()"?
                "assert!(all.is_all() && all.contains(&-128));",
            )]
            #[$must_use]
            pub fn all() -> $form::Returned<Self>
            where
                T: RangeSetEntry,
            {
                $form::returned::<T, _, _>(A::List::of_all().map(Self::of_list))
            }

            /// Returns the set of the values that lie in one of the ranges at least.
            ///
            /// The ranges are of any kind that [becomes one](IntoRange) by `into`, as those of std
            /// do, and `&Range` by its `Clone`. They stand in any order, and may overlap, touch or
            /// be empty. Those that come in the order of their starts are appended one after the
            /// other. From the first that doesn't on, starts and ends are sorted, which takes
            /// *O*(*n* log *n*) comparisons.
            ///
            #[doc = $errors!("`collect` does the same." or "If memory runs out.")]
            #[doc = example!($form "RangeSet2";
                "let busy = RangeSet2::<u32>::from_ranges([15..18, 11..12, 12..13])"?
                "busy" => "11..13, 15..18",
            )]
            #[$must_use]
            pub fn from_ranges<R>(ranges: impl IntoIterator<Item = R>) -> $form::Returned<Self>
            where
                T: Ord,
                R: IntoRange<T>,
            {
                let ranges = ranges.into_iter().map(Into::into);
                let list = A::List::of_ranges(ranges, $form::SORTING);
                $form::returned::<T, _, _>(list.map(Self::of_list))
            }

            /// Returns the set of these values, which may come in any order and more than once.
            ///
            /// It takes as long as [`from_ranges`](Self::from_ranges) with as many ranges.
            ///
            #[doc = $errors!("If memory runs out.")]
            #[doc = example!($form "RangeSet2";
                "let set = RangeSet2::<u8>::from_values([7, 3, 255, 4, 3])"?
                "set" => "3..5, 7..8, 255..",
            )]
            #[$must_use]
            pub fn from_values(values: impl IntoIterator<Item = T>) -> $form::Returned<Self>
            where
                T: FromPlace,
            {
                Self::from_ranges(values.into_iter().map(RangeSetRange::of_value))
            }

            /// Returns the set of the members of one of the sets at least.
            ///
            /// It copies each boundary once, and then joins the sets in pairs.
            ///
            #[doc = $errors!("If memory runs out or a copy fails.")]
            #[doc = example!($form "RangeSet2", "range_sets::RangeSetRef";
                "let mine = RangeSet2::" $from "(9..11)"?
                "let yours = RangeSetRef::new(&[10, 12, 15, 18]).unwrap();",
                "let busy: RangeSet2<u32> = RangeSet2::union_all([&mine, yours])"?
                "busy" => "9..12, 15..18",
            )]
            #[$must_use]
            pub fn union_all<S>(sets: impl IntoIterator<Item = S>) -> $form::Returned<Self>
            where
                T: Ord + $Clone,
                S: AsRef<RangeSetRef<T>>,
            {
                let joined = union_of_sets(sets, &$form::Copier);
                $form::returned::<T, _, _>(joined.map(Self::of_list))
            }

            /// Returns the set of the members of each of the sets, or of every value if there is no
            /// set.
            ///
            /// It copies the first set, and cuts it to one after the other.
            ///
            #[doc = $errors!("If memory runs out or a copy fails.")]
            #[doc = example!($form "RangeSet2", "range_sets::RangeSetRef";
                "let mine = RangeSet2::" $from "(9..17)"?
                "let yours = RangeSetRef::new(&[10, 12, 15, 18]).unwrap();",
                "let free: RangeSet2<u32> = RangeSet2::intersection_all([&mine, yours])"?
                "free" => "10..12, 15..17",
            )]
            #[$must_use]
            pub fn intersection_all<S>(sets: impl IntoIterator<Item = S>) -> $form::Returned<Self>
            where
                T: RangeSetEntry + $Clone,
                S: AsRef<RangeSetRef<T>>,
            {
                let common = intersection_of_sets(sets, &$form::Copier);
                $form::returned::<T, _, _>(common.map(Self::of_list))
            }

            /// Returns the list of the boundaries, strictly sorted.
            ///
            #[doc = example!($form "RangeSet2";
                "let set = RangeSet2::" $from "(0..10)"?
                "assert_eq!(set.into_inner().as_slice(), [0, 10]);",
            )]
            #[must_use]
            pub fn into_inner(self) -> SmallVec<A> {
                A::inner(self.list)
            }

            #[inline(always)]
            pub(crate) fn of_list(list: A::List) -> Self {
                Self { list }
            }

            #[inline(always)]
            pub(crate) fn view(&self) -> &RangeSetRef<T> {
                RangeSetRef::over(self.list.as_slice())
            }
        }
    };
}

both_forms!(constructors);
