//! A stable sort that returns an error if an allocation fails. std's ends the process.

use super::by_bits::is_number;
use super::{AllocError, Global};
use alloc::vec::Vec;
use core::cmp::Ordering;

/// So few items are sorted without memory.
const FEW: usize = 20;

/// Sorting that may be refused.
pub trait SortIn {
    /// Sorts the items. Equal ones stay in the order in which they stood.
    ///
    /// Numbers, and up to 20 items, take no memory; more items take room for as many indices. If
    /// that fails, the items are as they were.
    fn sort_in(&mut self, alloc: Global) -> Result<(), AllocError>;
}

impl<T: Ord> SortIn for [T] {
    fn sort_in(&mut self, _: Global) -> Result<(), AllocError> {
        if self.len() <= FEW {
            insertion_sort(self);
            return Ok(());
        }
        if is_number::<T>() {
            // Equal numbers are the same, so none can change places.
            self.sort_unstable();
            return Ok(());
        }
        if self.windows(2).all(|pair| pair[0] <= pair[1]) {
            return Ok(());
        }
        let mut order = Vec::new();
        order.try_reserve_exact(self.len())?;
        order.extend(0..self.len());
        order.sort_unstable_by(|&i, &j| self[i].cmp(&self[j]).then(i.cmp(&j)));
        arrange(self, order);
        Ok(())
    }
}

/// Moves each item down to where it belongs among those before it.
fn insertion_sort<T: Ord>(items: &mut [T]) {
    for end in 1..items.len() {
        let mut i = end;
        while i > 0 && items[i].cmp(&items[i - 1]) == Ordering::Less {
            items.swap(i, i - 1);
            i -= 1;
        }
    }
}

/// Brings the item at index `order[i]` to index `i`, for every `i`.
fn arrange<T>(items: &mut [T], mut order: Vec<usize>) {
    for first in 0..items.len() {
        let mut to = first;
        loop {
            let from = core::mem::replace(&mut order[to], to);
            if from == first {
                break;
            }
            items.swap(to, from);
            to = from;
        }
    }
}
