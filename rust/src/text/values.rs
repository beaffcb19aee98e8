//! The texts of characters, durations and addresses, which are no numbers.

use super::{Expected, ParseError, TextEntry};
use crate::array::{Array, Sorting};
use crate::generated::range_collections::{EntryClone, FromPlace};
use crate::range::RangeSetRange;
use crate::range_set::union_of_read;
#[cfg(feature = "std")]
use core::str::FromStr;
use core::time::Duration;
#[cfg(feature = "std")]
use std::net::{Ipv4Addr, Ipv6Addr};

macro_rules! texts {
    ($($(#[$doc:meta])* $value:ident by $reader:ident;)*) => {$(
        $(#[$doc])*
        impl TextEntry for $value {
            fn read_list<A: Array<Item = Self>>(text: &str) -> Result<A::List, ParseError>
            where
                Self: EntryClone,
            {
                read_ranges::<A>(text, $reader)
            }
        }
    )*};
}

texts! {
    /// As in Rust: between single quotes, with its escapes.
    char by quoted;
    /// As its own `Debug`.
    Duration by duration;
    /// As its own `Display`.
    #[cfg(feature = "std")]
    #[cfg_attr(docsrs, doc(cfg(feature = "std")))]
    Ipv4Addr by address;
    /// As its own `Display`.
    #[cfg(feature = "std")]
    #[cfg_attr(docsrs, doc(cfg(feature = "std")))]
    Ipv6Addr by address;
}

/// Reads a value at the front of a text, and returns what comes after it.
type Reader<T> = fn(&str) -> Option<(T, &str)>;

/// The boundaries of the union of a text's ranges.
fn read_ranges<A: Array>(text: &str, value: Reader<A::Item>) -> Result<A::List, ParseError>
where
    A::Item: Ord,
{
    let mut rest = text.trim_start();
    let list = union_of_read(|| next_range(text, &mut rest, value), Sorting::Fallible)?;
    list.map_err(ParseError::from)
}

/// The next range of a text, of which `rest` is left, if there is one.
fn next_range<T>(
    text: &str,
    rest: &mut &str,
    value: Reader<T>,
) -> Result<Option<RangeSetRange<T>>, ParseError> {
    if rest.is_empty() {
        return Ok(None);
    }
    let malformed = |rest: &str, expected| ParseError::Malformed {
        at: text.len() - rest.len(),
        expected,
    };
    let (start, dots) = value(rest).ok_or_else(|| malformed(rest, Expected::Number))?;
    let after = dots.strip_prefix("..").ok_or_else(|| {
        let at = dots.strip_prefix('.').unwrap_or(dots);
        malformed(at, Expected::Dot)
    })?;
    let (end, after) = match value(after) {
        Some((end, after)) => (Some(end), after),
        None if after.starts_with(|c: char| c != ',' && !c.is_whitespace()) => {
            return Err(malformed(after, Expected::Number));
        }
        None => (None, after),
    };
    let after = after.trim_start();
    *rest = match after.strip_prefix(',').map(str::trim_start) {
        Some("") => return Err(malformed("", Expected::Number)),
        Some(next) => next,
        None if after.is_empty() => after,
        None => return Err(malformed(after, Expected::Comma)),
    };
    Ok(Some(RangeSetRange::of_ends(start, end)))
}

/// A character between quotes.
fn quoted(text: &str) -> Option<(char, &str)> {
    let text = text.strip_prefix('\'')?;
    let mut chars = text.chars();
    let (c, rest) = match chars.next()? {
        '\'' => return None,
        '\\' => escaped(chars.as_str())?,
        c => (c, chars.as_str()),
    };
    Some((c, rest.strip_prefix('\'')?))
}

/// A character after a backslash.
fn escaped(text: &str) -> Option<(char, &str)> {
    let mut chars = text.chars();
    let c = match chars.next()? {
        'n' => '\n',
        'r' => '\r',
        't' => '\t',
        '0' => '\0',
        c @ ('\'' | '"' | '\\') => c,
        'u' => {
            let (digits, rest) = chars.as_str().strip_prefix('{')?.split_once('}')?;
            let is_hex = digits.bytes().all(|digit| digit.is_ascii_hexdigit());
            let code = u32::from_str_radix(digits, 16).ok().filter(|_| is_hex)?;
            return Some((char::from_u32(code)?, rest));
        }
        _ => return None,
    };
    Some((c, chars.as_str()))
}

/// A number with a unit, as `1.5s`.
fn duration(text: &str) -> Option<(Duration, &str)> {
    let digits = |text: &str| text.bytes().take_while(u8::is_ascii_digit).count();
    let (whole, mut rest) = text.split_at(digits(text));
    let mut fraction = "";
    if let Some(after) = rest.strip_prefix('.').filter(|after| digits(after) > 0) {
        (fraction, rest) = after.split_at(digits(after));
    }
    let units = [("ns", 0u32), ("µs", 3), ("ms", 6), ("s", 9)].into_iter();
    let mut units = units.filter_map(|(unit, places)| Some((rest.strip_prefix(unit)?, places)));
    let (rest, places) = units.next()?;
    // So many zeros make nanoseconds of the fraction.
    let zeros = places.checked_sub(u32::try_from(fraction.len()).ok()?)?;
    let parts = match fraction {
        "" => 0,
        _ => fraction.parse::<u128>().ok()? * 10u128.pow(zeros),
    };
    let nanos = whole
        .parse::<u128>()
        .ok()?
        .checked_mul(10u128.pow(places))?;
    Some((Duration::from_place(nanos.checked_add(parts)?)?, rest))
}

/// An address up to two dots, a comma, white space or the end.
#[cfg(feature = "std")]
fn address<T: FromStr>(text: &str) -> Option<(T, &str)> {
    let word = text
        .find(|c: char| c == ',' || c.is_whitespace())
        .unwrap_or(text.len());
    let end = text[..word].find("..").unwrap_or(word);
    Some((text[..end].parse().ok()?, &text[end..]))
}
