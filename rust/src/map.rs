//! Maps from ranges to values.
//!
//! [`Map`] is one type with two names: [`RangeMap`], whose calls end the process if memory runs
//! out, and [`fallible::RangeMap`](crate::fallible::RangeMap), whose calls return an error.

mod any_keys;
mod changes;
mod combining;
mod composed;
mod forms;
mod iter;
#[cfg(feature = "serde")]
mod json;
mod kept;
mod parts;
mod steps;
mod traits;

pub use any_keys::AnyKeys;
pub use composed::{Keys, Values};
pub use iter::{Gaps, IntoIter, Iter};
pub use kept::ByClone;
pub(crate) use kept::{Copies, Kept};
pub(crate) use steps::Changes;

use crate::any_range::{AnyRange, Overlaps, Within};
use crate::chunks::ByCall;
use crate::generated::range_collections::{self, Comparisons};
use crate::generated::range_entry::EntryClone;
use crate::generated::range_map as proved;
use crate::generated::range_map::places::{option_before, place_below, place_up_to};
use crate::generated::range_map::{InsertError, RangeFilter};
use crate::memory::AllocError;
use crate::range::RangeSetRange;
use crate::support::Global;
use core::mem;
use core::ops::Range;

/// A map from ranges to values, which is changed range by range.
///
/// Each key has the value of the last range that was put around it, or none. Ranges that touch and
/// have equal values are one, so two maps are equal exactly if each key has equal values in both.
///
/// # Examples
///
/// ```
/// use range_sets::RangeMap;
///
/// let mut bookings = RangeMap::new();
/// bookings.insert(9..12, "Ada");
/// bookings.insert(11..14, "Bob");
/// assert_eq!(bookings.get(&10), Some(&"Ada"));
/// assert_eq!(bookings[&11], "Bob");
///
/// bookings.remove(13..);
/// let ranges: Vec<_> = bookings.iter().map(|(range, who)| format!("{range:?} {who}")).collect();
/// assert_eq!(ranges, ["9..11 Ada", "11..13 Bob"]);
/// ```
///
/// # Time
///
/// Among *n* ranges a search makes *O*(log *n*) comparisons. [`get`](Map::get) is one search, a
/// change is two, and [`insert_free`](Map::insert_free) three, since the first finds whether the
/// range is free. The ranges lie in chunks, as those of a
/// [`ChunkedRangeSet`](crate::ChunkedRangeSet) do, so a change moves those of one chunk.
///
/// # Memory
///
/// A value is cloned only where a range becomes two or [`update`](RangeMap::update) ends, or into a
/// new map. A call that is refused memory ends the process, as std's collections do.
/// [`fallible::RangeMap`](crate::fallible::RangeMap) returns an error instead.
///
/// # Panics in keys and values
///
/// If a comparison, a clone or a drop panics, the map is as it was, changed as asked, or empty.
pub type RangeMap<K, V> = Map<K, V, ByClone>;

/// A map from ranges to values. Its names are [`RangeMap`] and
/// [`fallible::RangeMap`](crate::fallible::RangeMap), which say how values are copied: by `Clone`,
/// or by a copy that may fail.
pub struct Map<K: Ord, V: Eq, C>(proved::RangeMap<K, Kept<V, C>>);

impl<K, V, C, F: FnMut(RangeSetRange<&K>, &V) -> bool> RangeFilter<K, Kept<V, C>> for ByCall<F> {
    #[inline(always)]
    fn keeps(&self, range: range_collections::RangeSetRange<&K>, kept: &Kept<V, C>) -> bool {
        (self.0.borrow_mut())(RangeSetRange::from_proved(range), &kept.value)
    }
}

/// What both kinds of maps have.
impl<K: Ord, V: Eq, C> Map<K, V, C> {
    /// Returns the empty map. It takes no memory.
    ///
    /// # Examples
    ///
    /// ```
    /// use range_sets::RangeMap;
    ///
    /// assert!(RangeMap::<u64, char>::new().is_empty());
    /// ```
    #[must_use]
    pub fn new() -> Self {
        Map(proved::RangeMap::new(Global))
    }

    /// Returns the value of `key`, or `None` if it has none.
    ///
    /// # Examples
    ///
    /// ```
    /// use range_sets::RangeMap;
    ///
    /// let bookings = RangeMap::from_iter([(9..12, "Ada")]);
    /// assert_eq!(bookings.get(&11), Some(&"Ada"));
    /// assert_eq!(bookings.get(&12), None);
    /// ```
    #[inline]
    #[must_use]
    pub fn get(&self, key: &K) -> Option<&V> {
        self.0.get(key).map(|kept| &kept.value)
    }

    /// Returns the longest range around `key` whose keys have its value, and that, or `None` if it
    /// has none.
    ///
    /// # Examples
    ///
    /// ```
    /// use range_sets::RangeMap;
    ///
    /// let bookings = RangeMap::from_iter([(9..11, "Ada"), (11..12, "Ada"), (12..14, "Bob")]);
    /// assert_eq!(bookings.get_key_value(&11), Some(((&9..&12).into(), &"Ada")));
    /// assert_eq!(bookings.get_key_value(&14), None);
    /// ```
    #[must_use]
    pub fn get_key_value(&self, key: &K) -> Option<(RangeSetRange<&K>, &V)> {
        let stretch = self.0.range_at(key);
        let range = RangeSetRange::of_ends(stretch.start?, stretch.end);
        Some((range, &stretch.value?.value))
    }

    /// Returns `true` if `key` has a value.
    ///
    /// # Examples
    ///
    /// ```
    /// use range_sets::RangeMap;
    ///
    /// let bookings = RangeMap::from_iter([(9..12, "Ada")]);
    /// assert!(bookings.contains_key(&9) && !bookings.contains_key(&8));
    /// ```
    #[must_use]
    pub fn contains_key(&self, key: &K) -> bool {
        self.0.contains_key(key)
    }

    /// Returns `true` if no key of a range [of any kind](AnyRange) has a value. It is so for an
    /// empty or a reversed range.
    ///
    /// # Examples
    ///
    /// ```
    /// use range_sets::RangeMap;
    ///
    /// let bookings = RangeMap::from_iter([(9..12, "Ada")]);
    /// assert!(bookings.is_free(12..14) && !bookings.is_free(8..10));
    /// assert!(bookings.is_free(12..));
    /// ```
    #[must_use]
    pub fn is_free(&self, range: impl AnyRange<K>) -> bool {
        match range.into() {
            RangeSetRange::Range(range) => self.0.is_free(range),
            RangeSetRange::RangeFrom(range) => self.0.is_free_from(range),
        }
    }

    /// Returns how many ranges have a value, where those that touch and have equal values are one.
    /// It looks at each.
    ///
    /// # Examples
    ///
    /// ```
    /// use range_sets::RangeMap;
    ///
    /// let bookings = RangeMap::from_iter([(9..12, "Ada"), (12..13, "Ada"), (13..14, "Bob")]);
    /// assert_eq!(bookings.len(), 2);
    /// ```
    #[must_use]
    pub fn len(&self) -> usize {
        self.0.len()
    }

    /// Returns `true` if no key has a value.
    ///
    /// # Examples
    ///
    /// ```
    /// use range_sets::RangeMap;
    ///
    /// assert!(RangeMap::from_iter([(9..9, "nobody")]).is_empty());
    /// ```
    #[must_use]
    pub fn is_empty(&self) -> bool {
        self.0.is_empty()
    }

    /// Returns an iterator over the ranges that have a value, from the lowest on, each with its
    /// value. It also runs from the highest range down.
    ///
    /// # Examples
    ///
    /// ```
    /// use range_sets::RangeMap;
    ///
    /// let bookings = RangeMap::from_iter([(11..14, "Bob"), (9..11, "Ada")]);
    /// let starts: Vec<_> = bookings.iter().map(|(range, who)| (**range.start(), *who)).collect();
    /// assert_eq!(starts, [(9, "Ada"), (11, "Bob")]);
    /// ```
    pub fn iter(&self) -> Iter<'_, K, V, C> {
        Iter::new(self.0.iter())
    }

    /// Returns an iterator over the ranges that share a key with a range [of any kind](Overlaps),
    /// from the lowest on, each with its value. They aren't cut.
    ///
    /// It makes *O*(log *n*) comparisons, and none for a step.
    ///
    /// # Examples
    ///
    /// ```
    /// use range_sets::RangeMap;
    ///
    /// let bookings = RangeMap::from_iter([(9..11, "Ada"), (11..14, "Bob"), (15..16, "Eve")]);
    /// let guests: Vec<_> = bookings.overlapping(10..12).map(|(_, guest)| *guest).collect();
    /// assert_eq!(guests, ["Ada", "Bob"]);
    /// ```
    pub fn overlapping(&self, range: impl Overlaps<K>) -> Iter<'_, K, V, C> {
        range.found(|range| match range {
            RangeSetRange::Range(range) => Iter::new(self.0.overlapping(range)),
            RangeSetRange::RangeFrom(range) => {
                let steps = &self.0.steps;
                let above = place_up_to(steps, range.start, &mut Comparisons::new());
                // The step before may begin a range that holds the start.
                let left = steps.between(steps.place_before(above), steps.end());
                Iter::new(proved::Iter::new(left, None))
            }
        })
    }

    /// Returns an iterator over the parts of a range [of any kind](Within) whose keys have no
    /// value, from the lowest on. None of them is empty, and no two touch.
    ///
    /// If the ends are references it makes *O*(log *n*) comparisons, and none for a step, and it
    /// also runs from the highest part down.
    ///
    /// # Examples
    ///
    /// ```
    /// use range_sets::RangeMap;
    ///
    /// let bookings = RangeMap::from_iter([(9..11, "Ada"), (11..12, "Bob"), (15..16, "Eve")]);
    /// assert!(bookings.gaps(8..18).eq([8..9, 12..15, 16..18]));
    /// assert!(bookings.gaps(12..).eq([(12..15).into(), (16..).into()]));
    ///
    /// let free: Vec<_> = bookings.gaps(&8..&18).collect();
    /// assert_eq!(free, [&8..&9, &12..&15, &16..&18]);
    /// ```
    pub fn gaps<'a, R: Within<'a, K, Self>>(&'a self, within: R) -> R::Parts {
        within.parts_of(self, false)
    }

    /// Whether a key has a value, where that changes above it and below a limit, and whether keys
    /// before the limit have one.
    pub(crate) fn changes_within(
        &self,
        start: &K,
        limit: Option<&K>,
    ) -> (bool, Changes<'_, K, V, C>, bool) {
        let (steps, count) = (&self.0.steps, &mut Comparisons::new());
        let from = place_up_to(steps, start, count);
        let to = limit.map_or(steps.end(), |limit| place_below(steps, limit, count));
        let has_value = |at| option_before(steps, at).is_some();
        let changes = Changes::new(steps.between(from, to), has_value(from));
        (has_value(from), changes, has_value(to))
    }

    #[inline(always)]
    pub(crate) fn gaps_between<'a>(&'a self, within: Range<&'a K>) -> Gaps<'a, K, V, C> {
        Gaps::new(self.0.gaps(within))
    }

    /// Takes away each value that `keep` returns `false` for. It takes no memory and copies
    /// nothing.
    ///
    /// `keep` is called once for each range, from the lowest on.
    /// [`retain_ranges`](Map::retain_ranges) shows it the range too.
    ///
    /// # Examples
    ///
    /// ```
    /// use range_sets::RangeMap;
    ///
    /// let mut bookings = RangeMap::from_iter([(9..11, "Ada"), (11..14, "Bob"), (15..16, "Ada")]);
    /// bookings.retain(|guest| *guest == "Ada");
    /// assert_eq!(format!("{bookings:?}"), r#"{9..11: "Ada", 15..16: "Ada"}"#);
    /// ```
    pub fn retain(&mut self, mut keep: impl FnMut(&V) -> bool) {
        self.retain_ranges(|_, value| keep(value));
    }

    /// Takes the value of each key away. It keeps the room for the list of chunks.
    ///
    /// # Examples
    ///
    /// ```
    /// use range_sets::RangeMap;
    ///
    /// let mut bookings = RangeMap::from_iter([(9..12, "Ada")]);
    /// bookings.clear();
    /// assert!(bookings.is_empty());
    /// ```
    pub fn clear(&mut self) {
        self.changed(|map| map.clear());
    }

    /// The same map, with values that are copied in another way.
    pub(crate) fn copied_by<D>(self) -> Map<K, V, D> {
        Map::of_others(self.0, |kept| Kept::new(kept.value))
    }

    /// The map with each value of another one made into a value of this type.
    fn of_others<W: Eq>(map: proved::RangeMap<K, W>, of: impl Fn(W) -> Kept<V, C>) -> Self {
        let steps = steps::of_others(map.steps, |key| key, of);
        Map(proved::RangeMap { steps })
    }

    /// Changes the map. It is empty meanwhile, and stays so if the change panics, since a change
    /// that is made in part may leave steps out of order.
    #[inline(always)]
    fn changed<R>(&mut self, change: impl FnOnce(&mut proved::RangeMap<K, Kept<V, C>>) -> R) -> R {
        let mut taken = mem::replace(&mut self.0, proved::RangeMap::new(Global));
        let result = change(&mut taken);
        self.0 = taken;
        result
    }
}

impl<K: Ord, V: Eq, C> Map<K, V, C> {
    #[inline(always)]
    pub(crate) fn try_insert_free(
        &mut self,
        range: RangeSetRange<K>,
        value: V,
    ) -> Result<(), InsertError<V>> {
        let value = Kept::new(value);
        let result = self.changed(|map| match range {
            RangeSetRange::Range(range) => map.insert_free(range, value),
            RangeSetRange::RangeFrom(range) => map.insert_free_from(range, value),
        });
        result.map_err(|refused| match refused {
            InsertError::NotFree(kept) => InsertError::NotFree(kept.value),
            InsertError::OutOfMemory(kept) => InsertError::OutOfMemory(kept.value),
        })
    }
}

impl<K: Ord, V: Eq, C: Copies<V>> Map<K, V, C> {
    #[inline(always)]
    pub(crate) fn try_insert(
        &mut self,
        range: RangeSetRange<K>,
        value: V,
    ) -> Result<(), AllocError> {
        let value = Kept::new(value);
        self.changed(|map| match range {
            RangeSetRange::Range(range) => map.insert(range, value),
            RangeSetRange::RangeFrom(range) => map.insert_from(range, value),
        })
    }

    /// A copy.
    pub(crate) fn try_copied(&self) -> Result<Self, AllocError>
    where
        K: EntryClone,
    {
        self.0.try_clone().map(Map)
    }

    #[inline(always)]
    pub(crate) fn try_remove(&mut self, range: RangeSetRange<K>) -> Result<(), AllocError> {
        self.changed(|map| match range {
            RangeSetRange::Range(range) => map.remove(range),
            RangeSetRange::RangeFrom(range) => map.remove_from(range),
        })
    }
}
