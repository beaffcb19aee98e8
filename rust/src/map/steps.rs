//! The steps of a map, and others made of them.

use super::Kept;
use crate::chunks::{self, IntoItems};
use crate::generated::range_list::{Chunks, Items};
use crate::generated::range_map::step::Step;

impl<K: Clone, V: Clone> Clone for Step<K, V> {
    #[inline(always)]
    fn clone(&self) -> Self {
        Step {
            key: self.key.clone(),
            option: self.option.clone(),
        }
    }
}

/// A list with a key and a value made of those of each step. If both types of steps have the same
/// size, the memory is used again.
pub(super) fn of_others<K, V, L, W>(
    steps: Chunks<Step<K, V>, ()>,
    key: impl Fn(K) -> L,
    value: impl Fn(V) -> W,
) -> Chunks<Step<L, W>, ()> {
    chunks::of_items(steps, |step| Step {
        key: key(step.key),
        option: step.option.map(&value),
    })
}

/// The steps one by one, as they are moved out.
pub(super) type IntoSteps<K, V> = IntoItems<Step<K, V>, ()>;

/// The keys at which the gaps of a map begin and end, in order.
pub struct Changes<'a, K, V, C> {
    steps: Items<'a, Step<K, Kept<V, C>>, ()>,
    has_value: bool,
}

impl<'a, K, V, C> Changes<'a, K, V, C> {
    pub(super) fn new(steps: Items<'a, Step<K, Kept<V, C>>, ()>, has_value: bool) -> Self {
        Changes { steps, has_value }
    }
}

impl<'a, K, V, C> Iterator for Changes<'a, K, V, C> {
    type Item = &'a K;

    fn next(&mut self) -> Option<&'a K> {
        loop {
            let step = self.steps.take_first()?;
            if step.option.is_some() != self.has_value {
                self.has_value = !self.has_value;
                return Some(&step.key);
            }
        }
    }
}

impl<'a, K, V, C> DoubleEndedIterator for Changes<'a, K, V, C> {
    fn next_back(&mut self) -> Option<&'a K> {
        loop {
            let step = self.steps.take_last()?;
            let before = self.steps.clone().take_last();
            let had_value = before.map_or(self.has_value, |it| it.option.is_some());
            if step.option.is_some() != had_value {
                return Some(&step.key);
            }
        }
    }
}

impl<K, V, C> Clone for Changes<'_, K, V, C> {
    fn clone(&self) -> Self {
        let steps = self.steps.clone();
        Changes { steps, ..*self }
    }
}
