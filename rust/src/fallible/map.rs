//! A map from ranges to values whose calls return an error where memory is refused.

use crate::any_range::AnyRange;
use crate::fallible::{AllocError, EntryClone};
use crate::map::{self, Copies, Map};
use core::fmt;

/// [`RangeMap::insert_free`] returns it.
///
/// # Examples
///
/// ```
/// use range_sets::fallible::InsertError;
///
/// assert_eq!(InsertError::NotFree("Bob").to_string(), "a key of the range has a value");
/// ```
pub use crate::generated::range_map::InsertError;
/// It is implemented for all types that have [`EntryClone`](crate::fallible::EntryClone): numbers,
/// `char`, references to texts and slices, `String`, `Vec` and `Option`.
///
/// # Examples
///
/// A type of your own, which need not be ordered:
///
/// ```
/// use range_sets::fallible::{AllocError, MapValue, RangeMap};
///
/// #[derive(PartialEq, Eq)]
/// enum Guest { Ada, Named(String) }
///
/// impl MapValue for Guest {
///     fn copy_value(&self) -> Result<Self, AllocError> {
///         match self {
///             Guest::Ada => Ok(Guest::Ada),
///             Guest::Named(name) => name.copy_value().map(Guest::Named),
///         }
///     }
/// }
///
/// let mut bookings = RangeMap::new();
/// bookings.insert(9..17, Guest::Named("Bob".into()))?;
/// bookings.insert(12..13, Guest::Ada)?;
/// assert_eq!(bookings.len(), 3);
/// # Ok::<(), AllocError>(())
/// ```
pub use crate::generated::range_map::MapValue;

/// A map from ranges to values, which is changed range by range, and whose calls return an error
/// where memory is refused.
///
/// Where it is, the map is as it was. It has the questions of [`crate::RangeMap`], none of which
/// takes memory.
///
/// # Examples
///
/// ```
/// use range_sets::fallible::{AllocError, RangeMap};
///
/// let mut bookings = RangeMap::new();
/// bookings.insert(9..12, "Ada")?;
/// bookings.insert(11..14, "Bob")?;
/// bookings.remove(13..)?;
/// assert_eq!(bookings.get(&11), Some(&"Bob"));
/// assert_eq!(format!("{bookings:?}"), r#"{9..11: "Ada", 11..13: "Bob"}"#);
/// # Ok::<(), AllocError>(())
/// ```
pub type RangeMap<K, V> = Map<K, V, ByMapValue>;

/// Values are copied by their [`MapValue`], which returns an error if memory runs out.
pub struct ByMapValue;

impl<V: MapValue> Copies<V> for ByMapValue {
    #[inline(always)]
    fn copied(value: &V) -> Result<V, AllocError> {
        value.copy_value()
    }
}

/// Calls in place of traits, whose calls return no error.
impl<K: Ord, V: MapValue> RangeMap<K, V> {
    /// Returns the map of the ranges with their values, which stand in any order: where they
    /// overlap, the later one's value holds.
    ///
    /// # Errors
    ///
    /// If memory or a copy of a value is refused.
    ///
    /// # Examples
    ///
    /// ```
    /// use range_sets::fallible::{AllocError, RangeMap};
    ///
    /// let bookings = RangeMap::from_ranges([(9..14, "Ada"), (12..17, "Bob")])?;
    /// assert_eq!(format!("{bookings:?}"), r#"{9..12: "Ada", 12..17: "Bob"}"#);
    /// # Ok::<(), AllocError>(())
    /// ```
    pub fn from_ranges<R: AnyRange<K>>(
        ranges: impl IntoIterator<Item = (R, V)>,
    ) -> Result<Self, AllocError> {
        let mut map = Self::new();
        map.extend(ranges)?;
        Ok(map)
    }

    /// Returns a copy.
    ///
    /// # Errors
    ///
    /// If memory, or a copy of a key or of a value, is refused.
    ///
    /// # Examples
    ///
    /// ```
    /// use range_sets::fallible::{AllocError, RangeMap};
    ///
    /// let bookings = RangeMap::from_ranges([(9..17, "Ada")])?;
    /// assert_eq!(bookings.try_clone()?, bookings);
    /// # Ok::<(), AllocError>(())
    /// ```
    pub fn try_clone(&self) -> Result<Self, AllocError>
    where
        K: EntryClone,
    {
        self.try_copied()
    }

    /// Gives each key of a range [of any kind](AnyRange) the value if none of them has one. It
    /// copies nothing.
    ///
    /// # Errors
    ///
    /// If a key has a value, or memory is refused. The map is then as it was, and the error has the
    /// value.
    ///
    /// # Examples
    ///
    /// ```
    /// use range_sets::fallible::{InsertError, RangeMap};
    ///
    /// let mut bookings = RangeMap::new();
    /// assert_eq!(bookings.insert_free(9..12, "Ada"), Ok(()));
    /// assert_eq!(bookings.insert_free(11..14, "Bob"), Err(InsertError::NotFree("Bob")));
    /// assert_eq!(bookings.get(&12), None);
    /// assert_eq!(bookings.insert_free(20.., "Eve"), Ok(()));
    /// ```
    pub fn insert_free(&mut self, range: impl AnyRange<K>, value: V) -> Result<(), InsertError<V>> {
        self.try_insert_free(range.into(), value)
    }

    /// Puts the ranges in with their values, one after the other.
    ///
    /// # Errors
    ///
    /// If memory or a copy of a value is refused. The map then has the ranges before the one that
    /// was refused.
    ///
    /// # Examples
    ///
    /// ```
    /// use range_sets::fallible::{AllocError, RangeMap};
    ///
    /// let mut bookings = RangeMap::new();
    /// bookings.extend([(9..14, "Ada"), (12..17, "Bob")])?;
    /// assert_eq!(bookings[&13], "Bob");
    /// # Ok::<(), AllocError>(())
    /// ```
    pub fn extend<R: AnyRange<K>>(
        &mut self,
        ranges: impl IntoIterator<Item = (R, V)>,
    ) -> Result<(), AllocError> {
        ranges
            .into_iter()
            .try_for_each(|(range, value)| self.insert(range, value))
    }

    /// Puts in copies of the ranges of `that` with their values, in place of those that were there,
    /// and leaves `that` empty, as [`insert_all`](Self::insert_all) does.
    ///
    /// # Errors
    ///
    /// If memory, or a copy of a key or of a value, is refused. Both maps are then as they were.
    ///
    /// # Examples
    ///
    /// ```
    /// use range_sets::fallible::{AllocError, RangeMap};
    ///
    /// let mut bookings = RangeMap::from_ranges([(9..14, "Ada")])?;
    /// let mut more = RangeMap::from_ranges([(12..17, "Bob")])?;
    /// bookings.append(&mut more)?;
    /// assert_eq!(format!("{bookings:?}"), r#"{9..12: "Ada", 12..17: "Bob"}"#);
    /// assert!(more.is_empty());
    /// # Ok::<(), AllocError>(())
    /// ```
    pub fn append(&mut self, that: &mut Self) -> Result<(), AllocError>
    where
        K: EntryClone,
    {
        self.insert_all(that)?;
        that.clear();
        Ok(())
    }
}

/// The same map: its calls end the process where memory is refused. Each value is moved, and none
/// is copied.
impl<K: Ord, V: Eq> From<RangeMap<K, V>> for map::RangeMap<K, V> {
    fn from(map: RangeMap<K, V>) -> Self {
        map.copied_by()
    }
}

/// The same map: its calls return an error where memory is refused. Each value is moved, and none
/// is copied.
impl<K: Ord, V: Eq> From<map::RangeMap<K, V>> for RangeMap<K, V> {
    fn from(map: map::RangeMap<K, V>) -> Self {
        map.copied_by()
    }
}

impl<V: fmt::Debug> crate::support::Error for InsertError<V> {}
