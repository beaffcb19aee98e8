//! Two maps, and maps and sets.
//!
//! The calls of both forms are declared and documented here. Where the forms differ, each calls a
//! function that both have under the same name: [`RangeMap`](super::RangeMap) in `by_clone`, and
//! [`fallible::RangeMap`](crate::fallible::RangeMap) in `by_map_value`.

mod by_clone;
mod by_map_value;

use super::forms::{as_it_is, both_maps, in_ok};
use super::{AnyKeys, Copies, Kept, Map};
use crate::any_range::{AnyRange, Overlaps};
use crate::array::{Array, List, Sorting};
use crate::chunks::ByCall;
use crate::fallible::{EntryClone, MapValue};
use crate::forms::{ends, fails};
use crate::generated::range_collections::Comparisons;
use crate::generated::range_map::map::depth::depth_of;
use crate::generated::range_map::operations::{LeftFirst, RightFirst};
use crate::generated::range_map::updating::update_range;
use crate::generated::range_map::{MapOperation, MapUpdate};
use crate::generated::range_merge::Copier;
use crate::memory::AllocError;
use crate::range::RangeSetRange;
use crate::range_set::union_of_read;
use crate::support::{Global, Vec};
use core::ops::{Add, RangeFrom};

/// The closure isn't called if both maps have no value.
impl<V, W, U, C, F> MapOperation<Kept<V, C>, Kept<W, C>> for ByCall<F>
where
    U: Eq,
    F: FnMut(Option<&V>, Option<&W>) -> Result<Option<U>, AllocError>,
{
    type Output = Kept<U, C>;

    #[inline(always)]
    fn apply(
        &self,
        left: Option<&Kept<V, C>>,
        right: Option<&Kept<W, C>>,
    ) -> Result<Option<Kept<U, C>>, AllocError> {
        if left.is_none() && right.is_none() {
            return Ok(None);
        }
        let (left, right) = (left.map(|kept| &kept.value), right.map(|kept| &kept.value));
        let made = (self.0.borrow_mut())(left, right);
        made.map(|option| option.map(Kept::new))
    }
}

impl<V, C, F> MapUpdate<Kept<V, C>> for ByCall<F>
where
    V: Eq,
    F: FnMut(Option<&V>) -> Result<Option<V>, AllocError>,
{
    #[inline(always)]
    fn apply(&self, option: Option<&Kept<V, C>>) -> Result<Option<Kept<V, C>>, AllocError> {
        let made = (self.0.borrow_mut())(option.map(|kept| &kept.value));
        made.map(|option| option.map(Kept::new))
    }
}

/// What both forms do, with keys copied by any copier.
impl<K: Ord, V: Eq, C: Copies<V>> Map<K, V, C> {
    fn try_combine<W: Eq, U: Eq>(
        &self,
        that: &Map<K, W, C>,
        op: impl FnMut(Option<&V>, Option<&W>) -> Result<Option<U>, AllocError>,
        copier: &impl Copier<K>,
    ) -> Result<Map<K, U, C>, AllocError> {
        let op = ByCall::new(op);
        let count = &mut Comparisons::new();
        let made = self.0.combine_by(Global, &that.0, &op, copier, count);
        made.map(Map)
    }

    /// Puts in what an operation makes of both maps. Where the other one has no value, it keeps
    /// this one's.
    fn try_put_all(
        &mut self,
        that: &Self,
        op: &impl MapOperation<Kept<V, C>, Kept<V, C>, Output = Kept<V, C>>,
        copier: &impl Copier<K>,
    ) -> Result<(), AllocError> {
        self.0.combine_with(Global, &that.0, op, copier)
    }

    fn try_update(
        &mut self,
        range: RangeSetRange<K>,
        op: impl FnMut(Option<&V>) -> Result<Option<V>, AllocError>,
        copier: &impl Copier<K>,
    ) -> Result<(), AllocError> {
        let op = ByCall::new(op);
        match range {
            RangeSetRange::Range(range) => self.0.update_by(range, &op, copier),
            RangeSetRange::RangeFrom(RangeFrom { start }) => {
                update_range(&mut self.0.steps, &start, &None, &op, copier)
            }
        }
    }

    pub(super) fn try_restrict(
        &self,
        keys: impl AnyKeys<K>,
        copier: &impl Copier<K>,
    ) -> Result<Self, AllocError> {
        keys.viewed(copier, |set| {
            self.0.restrict_by(Global, set.proved(), copier).map(Map)
        })
    }

    fn try_remove_all(
        &mut self,
        keys: impl AnyKeys<K>,
        copier: &impl Copier<K>,
    ) -> Result<(), AllocError> {
        keys.viewed(copier, |set| self.0.remove_all_by(set.proved(), copier))
    }

    fn try_domain_where<L: List<Item = K>>(
        &self,
        mut keep: impl FnMut(&V) -> bool,
        copier: &impl Copier<K>,
        sorting: Sorting,
    ) -> Result<L, AllocError> {
        let mut kept = self.iter().filter(|(_, value)| keep(value));
        let next = || {
            let range = kept.next().map(|(range, _)| range.copied_by(copier));
            range.transpose()
        };
        union_of_read(next, sorting)?
    }
}

impl<K: Ord, C: Copies<usize>> Map<K, usize, C> {
    fn try_depth<R: Overlaps<K>>(
        ranges: impl IntoIterator<Item = R>,
        copier: &impl Copier<K>,
    ) -> Result<Self, AllocError> {
        let (mut ended, mut starts) = (Vec::new(Global), Vec::new(Global));
        for range in ranges {
            match range.found(|range| range.copied_by(copier))? {
                RangeSetRange::Range(range) => ended.push(range)?,
                RangeSetRange::RangeFrom(range) => starts.push(range.start)?,
            }
        }
        let depth = depth_of(Global, ended.as_slice(), copier)?;
        let depth = Map::of_others(depth, Kept::new);
        if starts.is_empty() {
            return Ok(depth);
        }
        // How many ranges without an end have each key.
        starts.as_mut_slice().sort_unstable();
        let mut endless = Self::new();
        for (start, n) in starts.into_iter().zip(1..) {
            endless.try_insert((start..).into(), n)?;
        }
        let sum = |a: Option<&usize>, b: Option<&usize>| {
            Ok(a.into_iter().chain(b).copied().reduce(Add::add))
        };
        depth.try_combine(&endless, sum, copier)
    }
}

macro_rules! operations {
    (
        $form:ident, $Clone:ident, $Value:ident, $must_use:meta, $errors:ident,
        $from:literal, $of_pairs:literal, $returned:ident
    ) => {
        /// These make maps and sets of maps, and copy the keys.
        impl<K: Ord + $Clone, V: Eq + $Value> $form::RangeMap<K, V> {
            /// Returns the map that gives each key what `op` makes of its values in both maps.
            ///
            /// `op` is called once for each step of either map at which one has a value, and with
            /// at least one value.
            ///
            #[doc = $errors!("If memory or a copy of a key is refused, or `op` returns an error.")]
            #[doc = example!($form "RangeMap";
                "let nights = RangeMap::" $of_pairs "([(1..4, 1), (6..9, 2)])"?
                "let more = RangeMap::" $of_pairs "([(3..7, 1)])"?
                ["let sum = nights.combine(&more, |a, b| ", $returned!("Some(a.unwrap_or(&0) + b.unwrap_or(&0))"), ")"]?
                "sum" = "{1..3: 1, 3..4: 2, 4..6: 1, 6..7: 3, 7..9: 2}",
            )]
            #[$must_use]
            pub fn combine<W: Eq, U: Eq>(
                &self,
                that: &$form::RangeMap<K, W>,
                mut op: impl FnMut(Option<&V>, Option<&W>) -> $form::Returned<Option<U>>,
            ) -> $form::Returned<$form::RangeMap<K, U>> {
                let op = |a: Option<&V>, b: Option<&W>| $form::tried(op(a, b));
                $form::returned::<K, _, _>(self.try_combine(that, op, &$form::Copier))
            }

            /// Gives each key of a range [of any kind](AnyRange) what `op` makes of its value, or
            /// of none. An empty or a reversed range changes nothing.
            ///
            /// It makes the steps of the range anew, and copies the value behind it.
            ///
            #[doc = $errors!("If memory, a copy or `op` fails. The map is then as it was.")]
            #[doc = example!($form "RangeMap";
                "let mut depth = RangeMap::" $of_pairs "([(0..5, 1)])"?
                ["depth.update(3..9, |count| ", $returned!("Some(count.unwrap_or(&0) + 1)"), ")"]?
                "depth" = "{0..3: 1, 3..5: 2, 5..9: 1}",
                "",
                ["depth.update(8.., |_| ", $returned!("Some(7)"), ")"]?
                "depth" = "{0..3: 1, 3..5: 2, 5..8: 1, 8..: 7}",
            )]
            pub fn update(
                &mut self,
                range: impl AnyRange<K>,
                mut op: impl FnMut(Option<&V>) -> $form::Returned<Option<V>>,
            ) -> $form::Returned<()> {
                let op = |value: Option<&V>| $form::tried(op(value));
                $form::returned::<K, _, _>(self.try_update(range.into(), op, &$form::Copier))
            }

            /// Returns the map with the values of both. Where both have one, this map's stays.
            ///
            #[doc = $errors!("If memory, or a copy of a key or of a value, is refused.")]
            #[doc = example!($form "RangeMap";
                "let mine = RangeMap::" $of_pairs "([(1..4, 'a')])"?
                "let yours = RangeMap::" $of_pairs "([(3..7, 'b')])"?
                "let union = mine.union_with_left(&yours)"?
                "union" = "{1..4: 'a', 4..7: 'b'}",
            )]
            #[$must_use]
            pub fn union_with_left(&self, that: &Self) -> $form::Returned<Self> {
                let union = self.try_copy().and_then(|mut map| {
                    map.try_put_all(that, &LeftFirst, &$form::Copier)?;
                    Ok(map)
                });
                $form::returned::<K, _, _>(union)
            }

            /// Returns the map with the values of both. Where both have one, that of the other map
            /// stays.
            ///
            #[doc = $errors!("If memory, or a copy of a key or of a value, is refused.")]
            #[doc = example!($form "RangeMap";
                "let mine = RangeMap::" $of_pairs "([(1..4, 'a')])"?
                "let yours = RangeMap::" $of_pairs "([(3..7, 'b')])"?
                "let union = mine.union_with_right(&yours)"?
                "union" = "{1..3: 'a', 3..7: 'b'}",
            )]
            #[$must_use]
            pub fn union_with_right(&self, that: &Self) -> $form::Returned<Self> {
                let union = self.try_copy().and_then(|mut map| {
                    map.try_put_all(that, &RightFirst, &$form::Copier)?;
                    Ok(map)
                });
                $form::returned::<K, _, _>(union)
            }

            /// Puts in the ranges of another map with their values, in place of those that were
            /// there. It makes the ranges from the first key of the other map on, up to its last,
            /// anew.
            ///
            #[doc = $errors!("If memory, or a copy of a key or of a value, is refused. The map is then \
                as it was.")]
            #[doc = example!($form "RangeMap";
                "let mut mine = RangeMap::" $of_pairs "([(1..4, 'a')])"?
                "let yours = RangeMap::" $of_pairs "([(3..7, 'b')])"?
                "mine.insert_all(&yours)"?
                "mine" = "{1..3: 'a', 3..7: 'b'}",
            )]
            pub fn insert_all(&mut self, that: &Self) -> $form::Returned<()> {
                let put = self.try_put_all(that, &RightFirst, &$form::Copier);
                $form::returned::<K, _, _>(put)
            }

            /// Gives each key without a value the one that it has in another map. Else it is as
            /// [`insert_all`](Self::insert_all).
            ///
            #[doc = $errors!("If memory, or a copy of a key or of a value, is refused. The map is then \
                as it was.")]
            #[doc = example!($form "RangeMap";
                "let mut mine = RangeMap::" $of_pairs "([(1..4, 'a')])"?
                "let yours = RangeMap::" $of_pairs "([(3..7, 'b')])"?
                "mine.insert_where_free(&yours)"?
                "mine" = "{1..4: 'a', 4..7: 'b'}",
            )]
            pub fn insert_where_free(&mut self, that: &Self) -> $form::Returned<()> {
                let put = self.try_put_all(that, &LeftFirst, &$form::Copier);
                $form::returned::<K, _, _>(put)
            }

            /// Takes the values of the keys in a set or a range [of any kind](AnyKeys) away. It makes
            /// the ranges from the first of these keys on, up to the last, anew.
            ///
            #[doc = $errors!("If memory, or a copy of a key or of a value, is refused. The map is then \
                as it was.")]
            #[doc = example!($form "{RangeMap, RangeSet2}";
                "let mut bookings = RangeMap::" $of_pairs r#"([(9..14, "Ada")])"#?
                "let hours = RangeSet2::" $from "(10..12)"?
                "bookings.remove_all(&hours)"?
                "bookings" = r#"{9..10: "Ada", 12..14: "Ada"}"#,
            )]
            pub fn remove_all(&mut self, keys: impl AnyKeys<K>) -> $form::Returned<()> {
                $form::returned::<K, _, _>(self.try_remove_all(keys, &$form::Copier))
            }

            /// Takes all values away but those of the keys in a set or a range [of any
            /// kind](AnyKeys).
            ///
            #[doc = $errors!("If memory, or a copy of a key or of a value, is refused. The map is then \
                as it was.")]
            #[doc = example!($form "{RangeMap, RangeSet2}";
                "let mut bookings = RangeMap::" $of_pairs r#"([(9..14, "Ada")])"#?
                "let hours = RangeSet2::" $from "(12..20)"?
                "bookings.retain_all(&hours)"?
                "bookings" = r#"{12..14: "Ada"}"#,
            )]
            pub fn retain_all(&mut self, keys: impl AnyKeys<K>) -> $form::Returned<()> {
                let kept = self.try_restrict(keys, &$form::Copier);
                $form::returned::<K, _, _>(kept.map(|map| *self = map))
            }

            /// Returns the map with the values of the keys in a set or a range [of any
            /// kind](AnyKeys) alone.
            ///
            #[doc = $errors!("If memory, or a copy of a key or of a value, is refused.")]
            #[doc = example!($form "{RangeMap, RangeSet2}";
                "let bookings = RangeMap::" $of_pairs r#"([(9..14, "Ada")])"#?
                "let hours = RangeSet2::" $from "(12..20)"?
                "let day = bookings.restrict(&hours)"?
                "let part = bookings.restrict(12..)"?
                r##"assert_eq!((format!("{day:?}").as_str(), part), (r#"{12..14: "Ada"}"#, day));"##,
            )]
            #[doc(alias = "part")]
            #[$must_use]
            pub fn restrict(&self, keys: impl AnyKeys<K>) -> $form::Returned<Self> {
                $form::returned::<K, _, _>(self.try_restrict(keys, &$form::Copier))
            }

            /// Returns the map with the values of the keys that aren't in a set or a range [of any
            /// kind](AnyKeys).
            ///
            #[doc = $errors!("If memory, or a copy of a key or of a value, is refused.")]
            #[doc = example!($form "{RangeMap, RangeSet2}";
                "let bookings = RangeMap::" $of_pairs r#"([(9..14, "Ada")])"#?
                "let hours = RangeSet2::" $from "(10..12)"?
                "let rest = bookings.without(&hours)"?
                "rest" = r#"{9..10: "Ada", 12..14: "Ada"}"#,
            )]
            #[$must_use]
            pub fn without(&self, keys: impl AnyKeys<K>) -> $form::Returned<Self> {
                let rest = self.try_copy().and_then(|mut map| {
                    map.try_remove_all(keys, &$form::Copier)?;
                    Ok(map)
                });
                $form::returned::<K, _, _>(rest)
            }

            /// Returns the set of the keys that have a value.
            ///
            #[doc = $errors!("If memory or a copy of a key is refused.")]
            #[doc = example!($form "{RangeMap, RangeSet2}";
                "let bookings = RangeMap::" $of_pairs r#"([(9..11, "Ada"), (11..14, "Bob")])"#?
                "let taken: RangeSet2<i32> = bookings.domain()"?
                "taken" => "9..14",
            )]
            #[$must_use]
            pub fn domain<A: Array<Item = K>>(&self) -> $form::Returned<$form::RangeSet<A>> {
                let list = self.try_domain::<A::List>();
                $form::returned::<K, _, _>(list.map($form::RangeSet::of_list))
            }

            /// Returns the set of the keys whose value `keep` returns `true` for. It is called once for
            /// each range, from the lowest on.
            ///
            #[doc = $errors!("If memory or a copy of a key is refused.")]
            #[doc = example!($form "{RangeMap, RangeSet2}";
                "let depth = RangeMap::depth([0..5, 3..9])"?
                "let twice: RangeSet2<i32> = depth.domain_where(|n| *n > 1)"?
                "twice" => "3..5",
            )]
            #[$must_use]
            pub fn domain_where<A: Array<Item = K>>(
                &self,
                keep: impl FnMut(&V) -> bool,
            ) -> $form::Returned<$form::RangeSet<A>> {
                let list = self.try_domain_where::<A::List>(keep, &$form::Copier, $form::SORTING);
                $form::returned::<K, _, _>(list.map($form::RangeSet::of_list))
            }

            /// Returns the map that gives each key what `change` makes of its value. It is called once
            /// for each range, from the lowest on. Ranges that touch and get equal values become one.
            ///
            #[doc = $errors!("If memory or a copy of a key is refused, or `change` returns an error.")]
            #[doc = example!($form "RangeMap";
                "let nights = RangeMap::" $of_pairs "([(1..4, 1), (4..7, 2)])"?
                ["let many = nights.map_values(|count| ", $returned!("*count > 1"), ")"]?
                "many" = "{1..4: false, 4..7: true}",
            )]
            #[$must_use]
            pub fn map_values<W: Eq>(
                &self,
                mut change: impl FnMut(&V) -> $form::Returned<W>,
            ) -> $form::Returned<$form::RangeMap<K, W>> {
                let op = |value: Option<&V>, _: Option<&V>| {
                    value.map(|value| $form::tried(change(value))).transpose()
                };
                $form::returned::<K, _, _>(self.try_combine(&Self::new(), op, &$form::Copier))
            }

            /// Returns the set of the keys that have this value.
            ///
            #[doc = $errors!("If memory, or a copy of a key or of the value, is refused.")]
            #[doc = example!($form "{RangeMap, RangeSet2}";
                "let bookings = RangeMap::" $of_pairs r#"([(9..11, "Ada"), (11..14, "Bob")])"#?
                r#"let bobs: RangeSet2<i32> = bookings.where_equal(&"Bob")"#?
                "bobs" => "11..14",
            )]
            #[$must_use]
            pub fn where_equal<A>(&self, value: &V) -> $form::Returned<$form::RangeSet<A>>
            where
                A: Array<Item = K>,
            {
                let list = self.try_where_equal::<A::List>(value);
                $form::returned::<K, _, _>(list.map($form::RangeSet::of_list))
            }
        }

        impl<K: Ord + $Clone> $form::RangeMap<K, usize> {
            /// Returns the map that gives each key the number of the ranges that have it, if some
            /// do. They may be [of any kind](Overlaps), as those that a set's `iter` yields, and come
            /// in any order.
            ///
            /// It takes *O*(*n* log *n*) time, and memory for copies of all ends.
            ///
            #[doc = $errors!("If memory or a copy of a key is refused.")]
            #[doc = example!($form "RangeMap";
                "let depth = RangeMap::depth([0..=4, 3..=8, 4..=5])"?
                "depth" = "{0..3: 1, 3..4: 2, 4..5: 3, 5..6: 2, 6..9: 1}",
            )]
            #[$must_use]
            pub fn depth<R>(ranges: impl IntoIterator<Item = R>) -> $form::Returned<Self>
            where
                R: Overlaps<K>,
            {
                $form::returned::<K, _, _>(Self::try_depth(ranges, &$form::Copier))
            }
        }
    };
}

both_maps!(operations);
