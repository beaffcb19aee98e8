//! Maps of starts to ends, without values and with them, as the crate rangemap keeps ranges: each change finds the ranges that
//! it meets in the tree.

use std::collections::BTreeMap;
use std::ops::Range;

/// Ranges that neither overlap nor touch.
#[derive(Default)]
pub struct Tree {
    ends: BTreeMap<i64, i64>,
}

impl Tree {
    /// Adds a range: those that it overlaps or touches become one with it.
    pub fn insert(&mut self, range: Range<i64>) {
        let Range { mut start, mut end } = range;
        if start >= end {
            return;
        }
        if let Some((&first, &last)) = self.ends.range(..=start).next_back() {
            if last >= end {
                return;
            }
            if last >= start {
                start = first;
            }
        }
        while let Some((&first, &last)) = self.ends.range(start..=end).next() {
            self.ends.remove(&first);
            end = end.max(last);
        }
        self.ends.insert(start, end);
    }

    /// Removes a range: of those that it cuts, what lies outside of it stays.
    pub fn remove(&mut self, range: Range<i64>) {
        let Range { start, end } = range;
        if start >= end {
            return;
        }
        if let Some((_, last)) = self.ends.range_mut(..start).next_back() {
            if *last > start {
                let cut = std::mem::replace(last, start);
                if cut > end {
                    self.ends.insert(end, cut);
                    return;
                }
            }
        }
        while let Some((&first, &last)) = self.ends.range(start..end).next() {
            self.ends.remove(&first);
            if last > end {
                self.ends.insert(end, last);
            }
        }
    }

    pub fn contains(&self, value: i64) -> bool {
        matches!(self.ends.range(..=value).next_back(), Some((_, &end)) if end > value)
    }

    /// The ranges, from the lowest on.
    pub fn iter(&self) -> impl Iterator<Item = Range<i64>> + '_ {
        self.ends.iter().map(|(&start, &end)| start..end)
    }
}

/// Ranges that don't overlap. Those that touch have other values.
#[derive(Default)]
pub struct TreeMap {
    ends: BTreeMap<i64, (i64, u64)>,
}

impl TreeMap {
    /// Gives a range a value: what it overlaps is cut, and what it touches with that value becomes one with it.
    pub fn insert(&mut self, range: Range<i64>, value: u64) {
        let Range { mut start, mut end } = range;
        if start >= end {
            return;
        }
        if let Some((&first, &(last, before))) = self.ends.range(..start).next_back() {
            if before == value && last >= start {
                start = first;
            } else if last > start {
                self.ends.insert(first, (start, before));
                if last > end {
                    self.ends.insert(end, (last, before));
                }
            }
        }
        while let Some((&first, &(last, after))) = self.ends.range(start..=end).next() {
            if first == end && after != value {
                break;
            }
            self.ends.remove(&first);
            if after == value {
                end = end.max(last);
            } else if last > end {
                self.ends.insert(end, (last, after));
            }
        }
        self.ends.insert(start, (end, value));
    }

    pub fn get(&self, key: i64) -> Option<u64> {
        let (_, &(end, value)) = self.ends.range(..=key).next_back()?;
        (end > key).then_some(value)
    }

    /// The map of the sums: each range of the other is laid over a copy of this one, piece by piece.
    pub fn sum(&self, that: &TreeMap) -> TreeMap {
        let mut sums = TreeMap {
            ends: self.ends.clone(),
        };
        for (Range { mut start, end }, value) in that.iter() {
            while start < end {
                let (to, before) = self.stretch_at(start);
                sums.insert(start..to.min(end), value + before.unwrap_or(0));
                start = to;
            }
        }
        sums
    }

    /// How far the value of a key goes on, and that.
    fn stretch_at(&self, key: i64) -> (i64, Option<u64>) {
        match self.ends.range(..=key).next_back() {
            Some((_, &(end, value))) if end > key => (end, Some(value)),
            _ => (self.ends.range(key..).next().map_or(i64::MAX, |(&next, _)| next), None),
        }
    }

    /// The ranges with their values, from the lowest on.
    pub fn iter(&self) -> impl Iterator<Item = (Range<i64>, u64)> + '_ {
        self.ends
            .iter()
            .map(|(&start, &(end, value))| (start..end, value))
    }
}
