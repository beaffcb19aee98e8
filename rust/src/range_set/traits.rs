//! The traits of std that sets implement.

use crate::array::{Array, List};
use crate::fallible::EntryClone;
use crate::forms::{ends, fails};
use crate::iter::{IntoIter, Iter};
use crate::memory::{expect_memory, ByClone};
use crate::range::RangeSetRange;
use crate::range_set::{RangeSet, RangeSet2};
use crate::text::{ParseError, TextEntry};
use crate::view::RangeSetRef;
use alloc::borrow::ToOwned;
use core::borrow::Borrow;
use core::cmp::Ordering;
use core::fmt;
use core::hash::{Hash, Hasher};
use core::ops::Deref;
use core::str::FromStr;

macro_rules! traits {
    ($form:ident, $Clone:ident, $must_use:meta, $errors:ident, $from:literal) => {
        /// The empty set.
        impl<T, A: Array<Item = T>> Default for $form::RangeSet<A> {
            fn default() -> Self {
                Self::empty()
            }
        }

        impl<T, A: Array<Item = T>> Deref for $form::RangeSet<A> {
            type Target = RangeSetRef<T>;

            #[inline(always)]
            fn deref(&self) -> &RangeSetRef<T> {
                self.view()
            }
        }

        impl<T, A: Array<Item = T>> AsRef<RangeSetRef<T>> for $form::RangeSet<A> {
            fn as_ref(&self) -> &RangeSetRef<T> {
                self.view()
            }
        }

        /// A set and its view have the same order and the same hash.
        impl<T, A: Array<Item = T>> Borrow<RangeSetRef<T>> for $form::RangeSet<A> {
            fn borrow(&self) -> &RangeSetRef<T> {
                self.view()
            }
        }

        impl<'a, T: 'a, A: Array<Item = T>> IntoIterator for &'a $form::RangeSet<A> {
            type Item = RangeSetRange<&'a T>;
            type IntoIter = Iter<'a, T>;

            fn into_iter(self) -> Iter<'a, T> {
                self.iter()
            }
        }

        impl<T, A: Array<Item = T>> IntoIterator for $form::RangeSet<A> {
            type Item = RangeSetRange<T>;
            type IntoIter = IntoIter<A>;

            fn into_iter(self) -> IntoIter<A> {
                IntoIter::new(self.into_inner())
            }
        }

        /// Two sets are equal if they have the same members. The other one may be any set or a
        /// view.
        impl<T: PartialEq, A: Array<Item = T>, R: AsRef<RangeSetRef<T>>> PartialEq<R>
            for $form::RangeSet<A>
        {
            fn eq(&self, that: &R) -> bool {
                self.view() == that.as_ref()
            }
        }

        impl<T: Eq, A: Array<Item = T>> Eq for $form::RangeSet<A> {}

        /// The first boundaries that differ decide.
        impl<T: PartialOrd, A: Array<Item = T>> PartialOrd for $form::RangeSet<A> {
            fn partial_cmp(&self, that: &Self) -> Option<Ordering> {
                self.view().partial_cmp(that.view())
            }
        }

        impl<T: Ord, A: Array<Item = T>> Ord for $form::RangeSet<A> {
            fn cmp(&self, that: &Self) -> Ordering {
                self.view().cmp(that.view())
            }
        }

        impl<T: Hash, A: Array<Item = T>> Hash for $form::RangeSet<A> {
            fn hash<H: Hasher>(&self, state: &mut H) {
                self.view().hash(state);
            }
        }

        /// As `RangeSet{0..10, 20..}`, by the elements' own `Debug`. Flags as those of `{:#?}` and
        /// `{:x?}` hold as for std's sets.
        impl<T: fmt::Debug, A: Array<Item = T>> fmt::Debug for $form::RangeSet<A> {
            fn fmt(&self, f: &mut fmt::Formatter<'_>) -> fmt::Result {
                f.write_str("RangeSet")?;
                f.debug_set().entries(self.iter()).finish()
            }
        }

        /// As `0..10, 20..`, which is what `parse` reads.
        impl<T: TextEntry, A: Array<Item = T>> fmt::Display for $form::RangeSet<A> {
            fn fmt(&self, f: &mut fmt::Formatter<'_>) -> fmt::Result {
                self.view().fmt(f)
            }
        }

        /// Reads the union of the ranges of a text: in any order, with commas between them, and
        /// with white space around each.
        ///
        /// # Errors
        ///
        /// The error has the byte where the text stops being one of ranges, and what was expected
        /// there; or it says that a number is past those of its type. In
        /// [`fallible`](crate::fallible) it may be [`ParseError::OutOfMemory`].
        ///
        #[doc = example!($form "RangeSet2", "range_sets::{Expected, ParseError}";
            r#"let set: RangeSet2<u8> = " 20.., 0..10 ".parse()?;"#,
            "set" => "0..10, 20..",
            "",
            r#"let error = "0..10; 20..".parse::<RangeSet2<u8>>().unwrap_err();"#,
            "assert_eq!(error, ParseError::Malformed { at: 5, expected: Expected::Comma });",
            "error" => "a comma or the end was expected at byte 5",
            Ok "ParseError"
        )]
        ///
        /// A set is compared with sets of all sizes and with views, so beside `==` the type is
        /// named:
        ///
        #[doc = code!($form "RangeSet2";
            "let set = RangeSet2::" $from "(1..2)"?
            r#"assert_eq!(set, "1..2".parse::<RangeSet2<i32>>().unwrap());"#,
            r#"assert_eq!("1..2".parse(), Ok(set));"#,
        )]
        impl<T: EntryClone + TextEntry, A: Array<Item = T>> FromStr for $form::RangeSet<A> {
            type Err = ParseError;

            fn from_str(text: &str) -> Result<Self, ParseError> {
                $form::parsed::<T, _>(T::read_list::<A>(text)).map(Self::of_list)
            }
        }
    };
}

both_forms!(traits);

impl<T: Clone, A: Array<Item = T>> Clone for RangeSet<A> {
    fn clone(&self) -> Self {
        self.view().into()
    }
}

/// A set of clones of a view's boundaries.
///
/// # Examples
///
/// ```
/// use range_sets::{RangeSet, RangeSetRef};
///
/// let view = RangeSetRef::new(&[9, 11, 15, 18]).unwrap();
/// let set: RangeSet<[i64; 4]> = view.into();
/// assert_eq!(set, view);
/// ```
impl<T: Clone, A: Array<Item = T>> From<&RangeSetRef<T>> for RangeSet<A> {
    fn from(view: &RangeSetRef<T>) -> Self {
        let list = A::List::copied(view.boundaries(), &ByClone);
        Self::of_list(expect_memory::<T, _, _>(list))
    }
}

/// A set of clones of the view's boundaries. For more room in the value itself use `From`.
///
/// # Examples
///
/// ```
/// use range_sets::RangeSetRef;
///
/// let mut busy = RangeSetRef::new(&[9, 11]).unwrap().to_owned();
/// busy.insert(15..18);
/// assert_eq!(busy.to_string(), "9..11, 15..18");
/// ```
impl<T: Clone> ToOwned for RangeSetRef<T> {
    type Owned = RangeSet2<T>;

    fn to_owned(&self) -> RangeSet2<T> {
        self.into()
    }
}
