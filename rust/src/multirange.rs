//! Multiranges of PostgreSQL, as texts: `{[0,10),[20,)}`.

// PostgreSQL is a name, and no code.
#![allow(clippy::doc_markdown)]

use crate::any_range::NextValue;
use crate::array::{Array, List, Sorting};
use crate::chunked::ChunkedRangeSet;
use crate::entry::RangeSetEntry;
use crate::forms::{ends, fails};
use crate::generated::range_collections::{Countable, FromPlace, WholeNumber};
use crate::memory::AllocError;
use crate::range::RangeSetRange;
use crate::range_set::union_of_read;
use crate::view::RangeSetRef;
use alloc::string::{String, ToString};
use core::fmt::{self, Write};
use core::mem;
use core::ops::Bound;

/// A text is no multirange of a type's numbers, or memory ran out.
///
/// # Examples
///
/// ```
/// use range_sets::{MultirangeError, RangeSet2};
///
/// let error = RangeSet2::<u8>::from_multirange("{[0,10),20}").unwrap_err();
/// assert_eq!(error, MultirangeError::Malformed { at: 8 });
/// assert_eq!(error.to_string(), "the text is no multirange of numbers from byte 8 on");
/// ```
#[derive(Clone, Copy, Debug, PartialEq, Eq)]
#[non_exhaustive]
pub enum MultirangeError {
    /// Up to the byte `at` the text is one of ranges.
    Malformed {
        /// Where something else was expected.
        at: usize,
    },
    /// A number doesn't fit the type.
    OutOfRange {
        /// Where it begins.
        at: usize,
    },
    /// Memory ran out.
    OutOfMemory,
}

impl fmt::Display for MultirangeError {
    fn fmt(&self, f: &mut fmt::Formatter<'_>) -> fmt::Result {
        match self {
            Self::Malformed { at } => {
                write!(f, "the text is no multirange of numbers from byte {at} on")
            }
            Self::OutOfRange { at } => {
                write!(f, "the number at byte {at} is past those of its type")
            }
            Self::OutOfMemory => f.write_str("memory ran out"),
        }
    }
}

impl crate::support::Error for MultirangeError {}

impl From<AllocError> for MultirangeError {
    fn from(_: AllocError) -> Self {
        Self::OutOfMemory
    }
}

macro_rules! multiranges {
    ($form:ident, $Clone:ident, $must_use:meta, $errors:ident, $from:literal) => {
        impl<T: WholeNumber + RangeSetEntry + NextValue, A: Array<Item = T>> $form::RangeSet<A> {
            /// Reads a multirange of PostgreSQL, or one range, as the server writes it.
            ///
            /// Ends are open or closed: `(0,10]` is 1 to 10. A range without a start begins at the
            /// type's least number. Ranges may come in any order, overlap, or be `empty`.
            ///
            /// # Errors
            ///
            /// If the text is no multirange of whole numbers, a number doesn't fit the type, or in
            /// [`fallible`](crate::fallible) memory runs out.
            ///
            #[doc = example!($form "RangeSet2";
                r#"let hours = RangeSet2::<i32>::from_multirange("{[9,12),(12,17]}")?;"#,
                "hours" => "9..12, 13..18",
                Ok "range_sets::MultirangeError"
            )]
            pub fn from_multirange(text: &str) -> Result<Self, MultirangeError> {
                let list = read::<A::List>(text, $form::SORTING)?;
                $form::or_error::<T, _, _>(list, Into::into).map(Self::of_list)
            }
        }

        impl<T: WholeNumber + RangeSetEntry + NextValue> $form::ChunkedRangeSet<T> {
            /// Reads a multirange of PostgreSQL, or one range, as a `RangeSet` does.
            ///
            /// # Errors
            ///
            /// Those of a `RangeSet`.
            ///
            #[doc = example!($form "ChunkedRangeSet";
                r#"let hours = ChunkedRangeSet::<i32>::from_multirange("{[9,12),(12,17]}")?;"#,
                "hours" => "9..12, 13..18",
                Ok "range_sets::MultirangeError"
            )]
            pub fn from_multirange(text: &str) -> Result<Self, MultirangeError> {
                let list = $form::RangeSet::<[T; 2]>::from_multirange(text)?.list;
                $form::or_error::<T, _, _>(list.into_chunks(), Into::into).map(Self::of_proved)
            }
        }
    };
}

both_forms!(multiranges);

macro_rules! written {
    ($([$($generics:tt)*] $Set:literal $set:ty;)*) => {$(
        impl<$($generics)*> $set
        where
            T: WholeNumber + FromPlace,
        {
            /// Returns the set as a multirange of PostgreSQL, as [`RangeSetRef::to_multirange`]
            /// does.
            ///
            /// # Errors
            ///
            /// If memory runs out.
            ///
            #[doc = example!(fails $Set;
                "let set = " $Set "::from_ranges([7u8..10])"?
                r#"assert_eq!(set.to_multirange()?, "{[7,10)}");"#,
            )]
            pub fn to_multirange(&self) -> Result<String, AllocError> {
                let mut text = Text(String::new());
                write!(text, "{}", Multirange(self.iter())).map_err(|fmt::Error| AllocError)?;
                Ok(text.0)
            }
        }
    )*};
}

written! {
    [T, A: Array<Item = T>] "RangeSet2" fails::RangeSet<A>;
    [T: Ord] "ChunkedRangeSet" fails::ChunkedRangeSet<T>;
    [T: Countable + Copy] "ChunkedSpace" fails::ChunkedSpace<T>;
}

/// A text that grows as far as there is memory.
struct Text(String);

impl fmt::Write for Text {
    fn write_str(&mut self, text: &str) -> fmt::Result {
        self.0.try_reserve(text.len()).map_err(|_| fmt::Error)?;
        self.0.push_str(text);
        Ok(())
    }
}

impl<T: WholeNumber + FromPlace> RangeSetRef<T> {
    /// Returns the set as a multirange of PostgreSQL, which the server reads. A start at the least
    /// number of a type with a sign is left out.
    ///
    /// # Examples
    ///
    /// ```
    /// use range_sets::RangeSet2;
    ///
    /// let set: RangeSet2<i64> = RangeSet2::from(..0) | RangeSet2::from(10..20);
    /// assert_eq!(set.to_multirange(), "{(,0),[10,20)}");
    /// assert_eq!(RangeSet2::<u8>::from(7..).to_multirange(), "{[7,)}");
    /// ```
    pub fn to_multirange(&self) -> String {
        Multirange(self.iter()).to_string()
    }
}

impl<T: WholeNumber + FromPlace> ChunkedRangeSet<T> {
    /// Returns the set as a multirange of PostgreSQL, as [`RangeSetRef::to_multirange`] does.
    ///
    /// # Examples
    ///
    /// ```
    /// use range_sets::ChunkedRangeSet;
    ///
    /// assert_eq!(ChunkedRangeSet::from(7u8..).to_multirange(), "{[7,)}");
    /// ```
    #[must_use]
    pub fn to_multirange(&self) -> String {
        Multirange(self.iter()).to_string()
    }
}

/// A set that is written as a multirange.
struct Multirange<S>(S);

impl<'a, T: WholeNumber + FromPlace + 'a, S> fmt::Display for Multirange<S>
where
    S: Iterator<Item = RangeSetRange<&'a T>> + Clone,
{
    fn fmt(&self, f: &mut fmt::Formatter<'_>) -> fmt::Result {
        f.write_str("{")?;
        for (i, range) in self.0.clone().enumerate() {
            let (start, end) = range.into_ends();
            let comma = if i > 0 { "," } else { "" };
            if T::zero() > 0 && start.place() == 0 {
                write!(f, "{comma}(,")?;
            } else {
                write!(f, "{comma}[{start:?},")?;
            }
            match end {
                Some(end) => write!(f, "{end:?})")?,
                None => f.write_str(")")?,
            }
        }
        f.write_str("}")
    }
}

/// The boundaries of the union of a text's ranges. Running out of memory is apart from the text's
/// errors.
fn read<L: List>(text: &str, sorting: Sorting) -> Result<Result<L, AllocError>, MultirangeError>
where
    L::Item: WholeNumber + RangeSetEntry + NextValue,
{
    let mut reader = Reader::new(text);
    union_of_read(|| reader.next(), sorting)
}

/// Reads the ranges of a text one by one.
struct Reader<'a> {
    len: usize,
    rest: &'a str,
    has_braces: bool,
    is_first: bool,
}

impl<'a> Reader<'a> {
    fn new(text: &'a str) -> Self {
        let mut reader = Reader {
            len: text.len(),
            rest: text.trim_start(),
            has_braces: false,
            is_first: true,
        };
        reader.has_braces = reader.takes('{');
        reader
    }

    /// The next range, or none at the end.
    fn next<T>(&mut self) -> Result<Option<RangeSetRange<T>>, MultirangeError>
    where
        T: WholeNumber + RangeSetEntry + NextValue,
    {
        let is_first = mem::replace(&mut self.is_first, false);
        self.rest = self.rest.trim_start();
        let is_over = if self.has_braces {
            self.takes('}')
        } else {
            !is_first
        };
        if is_over {
            self.rest = self.rest.trim_start();
            return self.expect(self.rest.is_empty()).map(|()| None);
        }
        if !is_first {
            let comma = self.takes(',');
            self.expect(comma)?;
            self.rest = self.rest.trim_start();
        }
        self.range().map(Some)
    }

    fn range<T>(&mut self) -> Result<RangeSetRange<T>, MultirangeError>
    where
        T: WholeNumber + RangeSetEntry + NextValue,
    {
        let word = self.rest.get(.."empty".len());
        if word.map_or(false, |word| word.eq_ignore_ascii_case("empty")) {
            self.rest = &self.rest["empty".len()..];
            return Ok((T::min_value()..T::min_value()).into());
        }
        let has_start = self.takes('[');
        let opened = has_start || self.takes('(');
        self.expect(opened)?;
        let start = self.number()?;
        let comma = self.takes(',');
        self.expect(comma)?;
        let end = self.number()?;
        let has_end = self.takes(']');
        let closed = has_end || self.takes(')');
        self.expect(closed)?;
        let bound = |value, is_in| match value {
            None => Bound::Unbounded,
            Some(value) if is_in => Bound::Included(value),
            Some(value) => Bound::Excluded(value),
        };
        Ok((bound(start, has_start), bound(end, has_end)).into())
    }

    /// A number, or none where there is no end.
    fn number<T: WholeNumber>(&mut self) -> Result<Option<T>, MultirangeError> {
        let is_end = |c: char| matches!(c, ',' | ')' | ']');
        let len = self.rest.find(is_end).unwrap_or(self.rest.len());
        let (bound, rest) = self.rest.split_at(len);
        let at = self.at() + bound.len() - bound.trim_start().len();
        let word = bound.trim();
        let digits = word.strip_prefix(['-', '+']).unwrap_or(word);
        let is_number = !digits.is_empty() && digits.bytes().all(|it| it.is_ascii_digit());
        self.expect(bound.is_empty() || is_number)?;
        self.rest = rest;
        if bound.is_empty() {
            return Ok(None);
        }
        T::read(word)
            .map(Some)
            .ok_or(MultirangeError::OutOfRange { at })
    }

    /// Passes over a sign if it stands here.
    fn takes(&mut self, sign: char) -> bool {
        match self.rest.strip_prefix(sign) {
            Some(rest) => {
                self.rest = rest;
                true
            }
            None => false,
        }
    }

    fn expect(&self, is_so: bool) -> Result<(), MultirangeError> {
        let at = self.at();
        is_so.then_some(()).ok_or(MultirangeError::Malformed { at })
    }

    fn at(&self) -> usize {
        self.len - self.rest.len()
    }
}
