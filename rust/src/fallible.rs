//! The same sets for those who can't let memory run out: an allocation failure is an error.
//!
//! A kernel, an embedded program or a server under a limit can't end where memory does. Here every
//! call that may ask for memory returns a [`Result`], and if it runs out the set is as it was. Only
//! `extend` of a set in chunks or a map keeps the ranges that came before.
//!
//! ```
//! use range_sets::fallible::{AllocError, RangeSet2};
//!
//! fn block(busy: &mut RangeSet2<u32>, minutes: std::ops::Range<u32>) -> Result<(), AllocError> {
//!     busy.insert(minutes)
//! }
//!
//! let mut busy = RangeSet2::try_from(540..600)?;
//! block(&mut busy, 720..780)?;
//! assert!(busy.contains(&730));
//! # Ok::<(), AllocError>(())
//! ```
//!
//! A refusal that nobody looks at is a warning, and this is no program:
//!
//! ```compile_fail
//! #![deny(unused_must_use)]
//! let mut busy = range_sets::fallible::RangeSet2::try_from(540..600).unwrap();
//! busy.insert(720..780);
//! ```
//!
//! [`RangeSet`] here has the calls of [`crate::RangeSet`] under the same names. It dereferences to
//! [`RangeSetRef`] for the questions, none of which takes memory, and a set goes either way by
//! `into` without a copy. A view has operations of its own, which end the process:
//! [`RangeSet::copied`] makes a set of it first.
//!
//! Copies are made by [`EntryClone`] in place of `Clone`, which can't return a failure.
//!
//! [`RangeSetRef`]: crate::RangeSetRef

/// A second form of a type, over the first: it has the first's questions, and goes either way by
/// `into`.
macro_rules! second_form {
    ([$($generics:tt)*] $form:ident of $first:ident, $puts:literal) => {
        impl<$($generics)*> $form<T> {
            #[doc = concat!($puts, " the values of the ranges one after the other, which stand in any order.")]
            ///
            /// # Errors
            ///
            /// If memory runs out. What came before the range that failed stays.
            ///
            /// # Examples
            ///
            /// ```
            #[doc = concat!("use range_sets::fallible::{AllocError, ", stringify!($form), "};")]
            ///
            #[doc = concat!("let mut used = ", stringify!($form), "::new();")]
            /// used.extend([80u64..128, 0..32, 32..64])?;
            /// assert_eq!(used.to_string(), "0..64, 80..128");
            /// # Ok::<(), AllocError>(())
            /// ```
            pub fn extend<R>(
                &mut self,
                ranges: impl IntoIterator<Item = R>,
            ) -> Result<(), AllocError>
            where
                R: IntoRange<T>,
            {
                ranges
                    .into_iter()
                    .try_for_each(|range| self.insert(range.into()))
            }

            pub(crate) fn into_proved(self) -> proved::$form<T> {
                self.0.into_proved()
            }

            pub(crate) fn of_proved(set: proved::$form<T>) -> Self {
                $form($first::$form::of_proved(set))
            }
        }

        impl<$($generics)*> Deref for $form<T> {
            type Target = $first::$form<T>;

            #[inline(always)]
            fn deref(&self) -> &$first::$form<T> {
                &self.0
            }
        }

        /// The same values: its calls end the process if memory runs out.
        impl<$($generics)*> From<$form<T>> for $first::$form<T> {
            fn from(set: $form<T>) -> Self {
                set.0
            }
        }

        /// The same values: its calls return an error if memory runs out.
        impl<$($generics)*> From<$first::$form<T>> for $form<T> {
            fn from(set: $first::$form<T>) -> Self {
                $form(set)
            }
        }
    };
}

mod changes;
mod chunked;
mod map;
#[cfg(feature = "serde")]
#[cfg_attr(docsrs, doc(cfg(feature = "serde")))]
pub mod pairs;
mod space;

use crate::array::Array;

pub use chunked::ChunkedRangeSet;
pub use map::{ByMapValue, InsertError, MapValue, RangeMap};
pub use space::ChunkedSpace;

/// It is implemented for numbers, `char`, references to texts and slices, `String`, `Vec` and
/// `Option`.
///
/// # Examples
///
/// An element type of your own:
///
/// ```
/// use range_sets::fallible::{AllocError, EntryClone, RangeSet2};
///
/// #[derive(PartialEq, Eq, PartialOrd, Ord)]
/// struct Name(String);
///
/// impl EntryClone for Name {
///     fn entry_clone(&self) -> Result<Self, AllocError> {
///         self.0.entry_clone().map(Name)
///     }
/// }
///
/// let names = RangeSet2::try_from(Name("a".into())..Name("m".into()))?;
/// assert!(names.try_clone()?.contains(&Name("bob".into())));
/// # Ok::<(), AllocError>(())
/// ```
pub use crate::generated::range_entry::EntryClone;
/// # Examples
///
/// ```
/// use range_sets::fallible::AllocError;
///
/// assert_eq!(AllocError.to_string(), "memory allocation failed");
/// ```
pub use crate::support::AllocError;

/// A set of values whose calls return an error if memory runs out.
///
/// # Examples
///
/// ```
/// use range_sets::fallible::{AllocError, RangeSet2};
///
/// let day = RangeSet2::try_from(9..17)?;
/// let busy: RangeSet2<u32> = RangeSet2::from_ranges([11..12, 15..18])?;
/// let free: RangeSet2<u32> = day.difference(&busy)?;
/// assert_eq!(free.to_string(), "9..11, 12..15");
/// # Ok::<(), AllocError>(())
/// ```
pub struct RangeSet<A: Array> {
    pub(crate) list: A::List,
}

/// A set that keeps up to two boundaries, which are one range, in itself.
///
/// # Examples
///
/// One range takes no memory, so this can't fail:
///
/// ```
/// use range_sets::fallible::RangeSet2;
///
/// let set = RangeSet2::try_from('a'..'z').unwrap();
/// assert!(set.contains(&'q'));
/// ```
pub type RangeSet2<T> = RangeSet<[T; 2]>;
