//! Sets and text, both ways.

mod values;

use crate::array::{Array, List};
use crate::generated::range_collections::{EntryClone, WholeNumber};
use crate::range::RangeSetRange;
use crate::view::RangeSetRef;
use core::fmt::{self, Write};

/// # Examples
///
/// ```
/// use range_sets::{Expected, ParseError, RangeSet2};
///
/// let error = "1..x".parse::<RangeSet2<u8>>().unwrap_err();
/// assert_eq!(error, ParseError::Malformed { at: 3, expected: Expected::Number });
/// ```
pub use crate::generated::range_collections::Expected;
/// # Examples
///
/// ```
/// use range_sets::{ParseError, RangeSet2};
///
/// assert_eq!("1..256".parse::<RangeSet2<u8>>(), Err(ParseError::OutOfRange));
/// ```
pub use crate::generated::range_collections::ParseError;

/// An element type whose sets are written as text, and read from it.
///
/// | Element | Text |
/// |---|---|
/// | a [`WholeNumber`] | `0..10, 20..` |
/// | `char` | `'a'..'z'`, as in Rust: `'\''..'\u{e000}'` |
/// | `Duration` | `1.5s..2s, 3s..`: a number of `s`, `ms`, `µs` or `ns` |
/// | `Ipv4Addr`, `Ipv6Addr`, with the feature `std` | `10.0.0.0..10.1.0.0`, `2001:db8::..` |
///
/// It is implemented for these, and for nothing else. The text of whole numbers is proved, the
/// others are tested.
///
/// # Examples
///
/// ```
/// use range_sets::RangeSet2;
/// use std::net::Ipv4Addr;
/// use std::time::Duration;
///
/// let digits: RangeSet2<char> = "'0'..':', 'a'..'g'".parse()?;
/// assert!(digits.contains(&'f'));
/// assert_eq!(digits.to_string(), "'0'..':', 'a'..'g'");
///
/// let free: RangeSet2<Ipv4Addr> = "10.0.0.0..10.1.0.0".parse()?;
/// assert_eq!(free.to_string(), "10.0.0.0..10.1.0.0");
///
/// let played: RangeSet2<Duration> = "0s..2.5s, 1500ms..4s".parse()?;
/// assert_eq!(played.to_string(), "0ns..4s");
/// # Ok::<(), range_sets::ParseError>(())
/// ```
pub trait TextEntry: Ord + fmt::Debug + Sized {
    /// Writes the ranges of a set.
    #[doc(hidden)]
    fn write_set(set: &RangeSetRef<Self>, f: &mut fmt::Formatter<'_>) -> fmt::Result {
        padded(f, &Ranges(set))
    }

    /// Reads the boundaries of the union of ranges.
    #[doc(hidden)]
    fn read_list<A: Array<Item = Self>>(text: &str) -> Result<A::List, ParseError>
    where
        Self: EntryClone;
}

impl<T: Ord + WholeNumber> TextEntry for T {
    fn write_set(set: &RangeSetRef<Self>, f: &mut fmt::Formatter<'_>) -> fmt::Result {
        padded(f, &set.proved())
    }

    fn read_list<A: Array<Item = Self>>(text: &str) -> Result<A::List, ParseError>
    where
        Self: EntryClone,
    {
        A::List::parsed(text)
    }
}

/// The ranges of a set, with a comma and a space between them.
pub(crate) struct Ranges<S>(pub(crate) S);

impl<'a, T: fmt::Debug + 'a, S> fmt::Display for Ranges<S>
where
    S: IntoIterator<Item = RangeSetRange<&'a T>> + Copy,
{
    fn fmt(&self, f: &mut fmt::Formatter<'_>) -> fmt::Result {
        for (i, range) in self.0.into_iter().enumerate() {
            if i > 0 {
                f.write_str(", ")?;
            }
            write!(f, "{range:?}")?;
        }
        Ok(())
    }
}

/// As `0..10, 20..`. A width is that of the whole text, with the fill and the alignment that a text
/// has; other flags change nothing.
impl<T: TextEntry> fmt::Display for RangeSetRef<T> {
    fn fmt(&self, f: &mut fmt::Formatter<'_>) -> fmt::Result {
        T::write_set(self, f)
    }
}

/// Writes a text with the width, the fill and the alignment that are asked for.
pub(crate) fn padded(f: &mut fmt::Formatter<'_>, text: &impl fmt::Display) -> fmt::Result {
    let missing = match f.width() {
        Some(width) => width.saturating_sub(len_of(text)?),
        None => 0,
    };
    let before = match f.align() {
        Some(fmt::Alignment::Right) => missing,
        Some(fmt::Alignment::Center) => missing / 2,
        Some(fmt::Alignment::Left) | None => 0,
    };
    fill(f, before)?;
    write!(f, "{text}")?;
    fill(f, missing - before)
}

fn fill(f: &mut fmt::Formatter<'_>, n: usize) -> fmt::Result {
    let fill = f.fill();
    (0..n).try_for_each(|_| f.write_char(fill))
}

/// How many bytes a text has. No memory is taken for it, since a set of `fallible` is written here
/// too.
fn len_of(text: &impl fmt::Display) -> Result<usize, fmt::Error> {
    struct Bytes(usize);

    impl fmt::Write for Bytes {
        fn write_str(&mut self, text: &str) -> fmt::Result {
            self.0 += text.len();
            Ok(())
        }
    }

    let mut bytes = Bytes(0);
    write!(bytes, "{text}")?;
    Ok(bytes.0)
}
