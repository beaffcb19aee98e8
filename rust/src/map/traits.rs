//! The traits of std that maps implement.

use super::{ByClone, IntoIter, Iter, Map, RangeMap};
use crate::any_range::AnyRange;
use crate::chunks;
use crate::generated::range_map as proved;
use crate::memory::expect_memory;
use crate::range::RangeSetRange;
use crate::support::ByBits;
use core::fmt;
use core::hash::{Hash, Hasher};
use core::ops::Index;

/// The empty map.
impl<K: Ord, V: Eq, C> Default for Map<K, V, C> {
    fn default() -> Self {
        Self::new()
    }
}

impl<K: Ord + Clone, V: Eq + Clone> Clone for RangeMap<K, V> {
    fn clone(&self) -> Self {
        let steps = match ByBits::of_steps_of_numbers() {
            Some(bits) => self.0.steps.copied(&bits),
            None => self.0.steps.copied(&ByClone),
        };
        let steps = expect_memory::<K, _, _>(steps);
        Map(proved::RangeMap { steps })
    }
}

/// The ranges with their values, in any order: the later one's value holds where they overlap.
///
/// # Examples
///
/// ```
/// use range_sets::RangeMap;
///
/// let bookings: RangeMap<u8, &str> = [(9..14, "Ada"), (12..17, "Bob")].into_iter().collect();
/// assert_eq!(format!("{bookings:?}"), r#"{9..12: "Ada", 12..17: "Bob"}"#);
/// ```
impl<K: Ord, V: Eq + Clone, R: AnyRange<K>> FromIterator<(R, V)> for RangeMap<K, V> {
    fn from_iter<I: IntoIterator<Item = (R, V)>>(ranges: I) -> Self {
        let mut map = Self::new();
        map.extend(ranges);
        map
    }
}

/// Puts the ranges in with their values, one after the other.
impl<K: Ord, V: Eq + Clone, R: AnyRange<K>> Extend<(R, V)> for RangeMap<K, V> {
    fn extend<I: IntoIterator<Item = (R, V)>>(&mut self, ranges: I) {
        for (range, value) in ranges {
            self.insert(range, value);
        }
    }
}

impl<'a, K: Ord, V: Eq, C> IntoIterator for &'a Map<K, V, C> {
    type Item = (RangeSetRange<&'a K>, &'a V);
    type IntoIter = Iter<'a, K, V, C>;

    fn into_iter(self) -> Iter<'a, K, V, C> {
        self.iter()
    }
}

impl<K: Ord + Clone, V: Eq, C> IntoIterator for Map<K, V, C> {
    type Item = (RangeSetRange<K>, V);
    type IntoIter = IntoIter<K, V, C>;

    fn into_iter(self) -> IntoIter<K, V, C> {
        IntoIter::new(self)
    }
}

/// The value of the key.
///
/// # Panics
///
/// If the key has none.
impl<K: Ord, V: Eq, C> Index<&K> for Map<K, V, C> {
    type Output = V;

    fn index(&self, key: &K) -> &V {
        self.get(key).expect("the key has no value")
    }
}

/// Two maps are equal if each key has equal values in both.
impl<K: Ord, V: Eq, C> PartialEq for Map<K, V, C> {
    fn eq(&self, that: &Self) -> bool {
        self.0 == that.0
    }
}

impl<K: Ord, V: Eq, C> Eq for Map<K, V, C> {}

impl<K: Ord + Hash, V: Eq + Hash, C> Hash for Map<K, V, C> {
    fn hash<H: Hasher>(&self, state: &mut H) {
        chunks::hash(self.iter(), state);
    }
}

/// As `{9..12: "Ada", 20..: "Eve"}`, by the `Debug` of keys and values. Flags as those of `{:#?}`
/// hold as for std's maps.
impl<K: Ord + fmt::Debug, V: Eq + fmt::Debug, C> fmt::Debug for Map<K, V, C> {
    fn fmt(&self, f: &mut fmt::Formatter<'_>) -> fmt::Result {
        f.debug_map().entries(self).finish()
    }
}
