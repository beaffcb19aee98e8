//! Calls of a map that are made of others: its first and last range, its keys and values, ranges
//! taken out, two maps in one.

use super::forms::{as_it_is, both_maps, in_ok};
use super::iter::with_value;
use super::{Copies, Iter, Map, RangeMap};
use crate::any_range::AnyRange;
use crate::chunks::{self, ByCall};
use crate::fallible::{EntryClone, MapValue};
use crate::forms::{ends, fails};
use crate::generated::range_merge::Copier;
use crate::memory::AllocError;
use crate::range::RangeSetRange;
use crate::range_set::RangeSetRef;
use core::iter;

/// These read ranges or values alone.
impl<K: Ord, V: Eq, C> Map<K, V, C> {
    /// Returns the first range that has a value, and that, or `None` if the map is empty.
    ///
    /// # Examples
    ///
    /// ```
    /// use range_sets::RangeMap;
    ///
    /// let bookings = RangeMap::from([(9..11, "Ada"), (11..14, "Bob")]);
    /// assert_eq!(bookings.first(), Some(((&9..&11).into(), &"Ada")));
    /// ```
    #[must_use]
    pub fn first(&self) -> Option<(RangeSetRange<&K>, &V)> {
        self.0.first().map(with_value)
    }

    /// Returns the last range that has a value, and that, or `None` if the map is empty.
    ///
    /// # Examples
    ///
    /// ```
    /// use range_sets::RangeMap;
    ///
    /// let bookings = RangeMap::from([(9..11, "Ada"), (11..14, "Bob")]);
    /// assert_eq!(bookings.last(), Some(((&11..&14).into(), &"Bob")));
    /// ```
    #[must_use]
    pub fn last(&self) -> Option<(RangeSetRange<&K>, &V)> {
        self.0.last().map(with_value)
    }

    /// Returns the range from the first key that has a value to the end of the last range, or
    /// `None` if the map is empty.
    ///
    /// # Examples
    ///
    /// ```
    /// use range_sets::RangeMap;
    ///
    /// let bookings = RangeMap::from([(9..11, "Ada"), (15..16, "Bob")]);
    /// assert_eq!(bookings.span(), Some((&9..&16).into()));
    /// ```
    #[must_use]
    pub fn span(&self) -> Option<RangeSetRange<&K>> {
        self.0.span().map(RangeSetRange::from_proved)
    }

    /// Returns an iterator over the ranges that have a value, from the lowest on and from the
    /// highest down.
    ///
    /// # Examples
    ///
    /// ```
    /// use range_sets::RangeMap;
    ///
    /// let bookings = RangeMap::from([(9..11, "Ada"), (11..14, "Bob")]);
    /// let ranges: Vec<String> = bookings.keys().map(|range| range.to_string()).collect();
    /// assert_eq!(ranges, ["9..11", "11..14"]);
    /// ```
    pub fn keys<'a>(&'a self) -> Keys<'a, K, V, C> {
        self.iter().map(|(range, _)| range)
    }

    /// Returns an iterator over the values, from that of the lowest range on and from that of the
    /// highest down. A value comes as often as it has ranges.
    ///
    /// # Examples
    ///
    /// ```
    /// use range_sets::RangeMap;
    ///
    /// let depth = RangeMap::from([(9..11, 1), (11..14, 2), (14..15, 1)]);
    /// assert_eq!(depth.values().max(), Some(&2));
    /// ```
    pub fn values<'a>(&'a self) -> Values<'a, K, V, C> {
        self.iter().map(|(_, value)| value)
    }

    /// Takes away the value of each range that `keep` returns `false` for, as
    /// [`retain`](Map::retain) does. It takes no memory and copies nothing.
    ///
    /// # Examples
    ///
    /// ```
    /// use range_sets::RangeMap;
    ///
    /// let mut bookings = RangeMap::from([(9..11, "Ada"), (11..14, "Bob"), (15..16, "Ada")]);
    /// bookings.retain_ranges(|range, guest| *guest == "Bob" || range.contains(&10));
    /// assert_eq!(format!("{bookings:?}"), r#"{9..11: "Ada", 11..14: "Bob"}"#);
    /// ```
    pub fn retain_ranges(&mut self, keep: impl FnMut(RangeSetRange<&K>, &V) -> bool) {
        let keep = ByCall::new(keep);
        self.changed(|map| map.retain_ranges(&keep));
    }
}

/// [`Map::keys`] returns it.
pub type Keys<'a, K, V, C> =
    iter::Map<Iter<'a, K, V, C>, fn((RangeSetRange<&'a K>, &'a V)) -> RangeSetRange<&'a K>>;

/// [`Map::values`] returns it.
pub type Values<'a, K, V, C> =
    iter::Map<Iter<'a, K, V, C>, fn((RangeSetRange<&'a K>, &'a V)) -> &'a V>;

/// A range that was found, with its value.
type Found<'a, K, V> = Option<(RangeSetRange<&'a K>, &'a V)>;

/// What both forms do, with keys copied by any copier.
impl<K: Ord, V: Eq, C: Copies<V>> Map<K, V, C> {
    fn try_pop(
        &mut self,
        find: impl FnOnce(&Self) -> Found<'_, K, V>,
        copier: &impl Copier<K>,
    ) -> Result<Option<(RangeSetRange<K>, V)>, AllocError> {
        let (taken, value, range) = match find(self) {
            Some((range, value)) => {
                let taken = range.copied_by(copier)?;
                (taken, C::copied(value)?, range.copied_by(copier)?)
            }
            None => return Ok(None),
        };
        self.try_remove(range)?;
        Ok(Some((taken, value)))
    }

    fn try_modify(
        &mut self,
        key: &K,
        change: impl FnOnce(&mut V) -> Result<(), AllocError>,
        copier: &impl Copier<K>,
    ) -> Result<bool, AllocError> {
        let (range, mut value) = match self.get_key_value(key) {
            Some((range, value)) => (range.copied_by(copier)?, C::copied(value)?),
            None => return Ok(false),
        };
        change(&mut value)?;
        self.try_insert(range, value).map(|()| true)
    }

    fn try_split_off(&mut self, at: &K, copier: &impl Copier<K>) -> Result<Self, AllocError> {
        let above = self.try_restrict(RangeSetRef::single(at), copier)?;
        self.try_remove((copier.copy(at)?..).into())?;
        Ok(above)
    }
}

macro_rules! composed {
    (
        $form:ident, $Clone:ident, $Value:ident, $must_use:meta, $errors:ident,
        $from:literal, $of_pairs:literal, $returned:ident
    ) => {
        /// These copy the keys and values that they take out or change.
        impl<K: Ord + $Clone, V: Eq + $Value> $form::RangeMap<K, V> {
            /// Takes away the value of the first range, and returns both, or `None` if the map is
            /// empty.
            ///
            #[doc = $errors!("If a copy of a key or of the value is refused. The map is then as it \
                was.")]
            #[doc = example!($form "RangeMap";
                "let mut bookings = RangeMap::" $of_pairs "([(9..11, 'a'), (11..14, 'b')])"?
                "let first = bookings.pop_first()"?
                "assert_eq!(first, Some(((9..11).into(), 'a')));",
                "assert_eq!(bookings.len(), 1);",
            )]
            pub fn pop_first(&mut self) -> $form::Returned<Option<(RangeSetRange<K>, V)>> {
                $form::returned::<K, _, _>(self.try_pop(Self::first, &$form::Copier))
            }

            /// Takes away the value of the last range, and returns both, or `None` if the map is
            /// empty.
            ///
            #[doc = $errors!("If a copy of a key or of the value is refused. The map is then as it \
                was.")]
            #[doc = example!($form "RangeMap";
                "let mut bookings = RangeMap::" $of_pairs "([(9..11, 'a'), (11..14, 'b')])"?
                "let last = bookings.pop_last()"?
                "assert_eq!(last, Some(((11..14).into(), 'b')));",
                "assert_eq!(bookings.len(), 1);",
            )]
            pub fn pop_last(&mut self) -> $form::Returned<Option<(RangeSetRange<K>, V)>> {
                $form::returned::<K, _, _>(self.try_pop(Self::last, &$form::Copier))
            }

            /// Changes the value of `key`, and with it that of the longest range around it whose
            /// keys have it. Returns `false` if the key has no value.
            ///
            /// There is no `get_mut`: the range becomes one with a neighbour that has the new
            /// value.
            ///
            #[doc = $errors!("If memory or a copy is refused, or `change` returns an error. The map is \
                then as it was.")]
            #[doc = example!($form "RangeMap";
                "let mut nights = RangeMap::" $of_pairs "([(1..4, 1), (4..7, 2)])"?
                ["let changed = nights.modify(&2, |count| ", $returned!("*count += 1"), ")"]?
                "assert!(changed);",
                "nights" = "{1..7: 2}",
            )]
            pub fn modify(
                &mut self,
                key: &K,
                change: impl FnOnce(&mut V) -> $form::Returned<()>,
            ) -> $form::Returned<bool> {
                let change = |value: &mut V| $form::tried(change(value));
                $form::returned::<K, _, _>(self.try_modify(key, change, &$form::Copier))
            }

            /// Takes away the values of the keys at and above `at`, and returns the map with copies
            /// of them.
            ///
            #[doc = $errors!("If memory, or a copy of a key or of a value, is refused. The map is then \
                as it was.")]
            #[doc = example!($form "RangeMap";
                "let mut bookings = RangeMap::" $of_pairs "([(9..14, 'a')])"?
                "let late = bookings.split_off(&12)"?
                r#"assert_eq!(format!("{bookings:?} {late:?}"), "{9..12: 'a'} {12..14: 'a'}");"#,
            )]
            #[must_use = "`remove` takes the values away and returns none"]
            pub fn split_off(&mut self, at: &K) -> $form::Returned<Self> {
                $form::returned::<K, _, _>(self.try_split_off(at, &$form::Copier))
            }
        }
    };
}

both_maps!(composed);

impl<K: Ord + Clone, V: Eq + Clone> RangeMap<K, V> {
    /// Puts in the ranges of `that` with their values, in place of those that were there, and
    /// leaves `that` empty. If something panics meanwhile, the map is empty.
    ///
    /// # Examples
    ///
    /// ```
    /// use range_sets::RangeMap;
    ///
    /// let mut bookings = RangeMap::from([(9..14, "Ada")]);
    /// let mut more = RangeMap::from([(12..17, "Bob")]);
    /// bookings.append(&mut more);
    /// assert_eq!(format!("{bookings:?}"), r#"{9..12: "Ada", 12..17: "Bob"}"#);
    /// assert!(more.is_empty());
    /// ```
    pub fn append(&mut self, that: &mut Self) {
        chunks::append(self, that);
    }
}

/// The ranges with their values, in any order: the later one's value holds where they overlap.
///
/// # Examples
///
/// ```
/// use range_sets::RangeMap;
///
/// let bookings = RangeMap::from([(9..14, "Ada"), (12..17, "Bob")]);
/// assert_eq!(format!("{bookings:?}"), r#"{9..12: "Ada", 12..17: "Bob"}"#);
/// ```
impl<K: Ord, V: Eq + Clone, R: AnyRange<K>, const N: usize> From<[(R, V); N]> for RangeMap<K, V> {
    fn from(ranges: [(R, V); N]) -> Self {
        ranges.into_iter().collect()
    }
}
