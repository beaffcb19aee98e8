//! What sets in chunks and maps share: lists in chunks made of others, their items as references,
//! as clones and moved out, a hash, what is put into one after the other, and calls of a closure.

use crate::generated::range_list::chunk::Chunk;
use crate::generated::range_list::chunk_list::ChunkList;
use crate::generated::range_list::{Chunks, Mark};
use crate::support;
use alloc::vec::{self, Vec};
use core::cell::RefCell;
use core::hash::{Hash, Hasher};
use core::iter::{self, FusedIterator};
use core::mem;

/// A list with an item made of each, in chunks of the same lengths. If both types have the same
/// size, the memory is used again.
pub(crate) fn of_items<T, U, M: Mark>(items: Chunks<T, M>, item: impl Fn(T) -> U) -> Chunks<U, M> {
    let chunks = items.chunks.list.into_iter().map(|chunk| Chunk {
        first: item(chunk.first),
        rest: list(chunk.rest.into_iter().map(&item)),
        mark: chunk.mark,
    });
    Chunks {
        chunks: ChunkList { list: list(chunks) },
        len: items.len,
    }
}

/// The items in order.
pub(crate) fn items<T, M: Mark>(items: &Chunks<T, M>) -> impl Iterator<Item = &T> {
    let chunks = items.chunks.list.iter();
    chunks.flat_map(|chunk| iter::once(&chunk.first).chain(chunk.rest.iter()))
}

/// Clones of the items.
pub(crate) fn clones<T: Clone, M: Mark>(items: &Chunks<T, M>) -> Vec<T> {
    let mut clones = Vec::with_capacity(items.len);
    for chunk in items.chunks.list.iter() {
        clones.push(chunk.first.clone());
        clones.extend_from_slice(&chunk.rest);
    }
    clones
}

/// The items one by one, as they are moved out, from either end. It knows how many are left.
///
/// A chunk is opened when its first or its last item is asked for. Those between stay as they are.
pub(crate) struct IntoItems<T, M> {
    left: usize,
    /// What is left of the lowest chunk that was opened. Its first item was moved out at once.
    lowest: vec::IntoIter<T>,
    chunks: vec::IntoIter<Chunk<T, M>>,
    /// The first item of the highest chunk that was opened, and what is left of its others.
    highest_first: Option<T>,
    highest: vec::IntoIter<T>,
}

impl<T, M: Mark> IntoItems<T, M> {
    pub(crate) fn new(items: Chunks<T, M>) -> Self {
        IntoItems {
            left: items.len,
            lowest: Vec::new().into_iter(),
            chunks: items.chunks.list.into_inner().into_iter(),
            highest_first: None,
            highest: Vec::new().into_iter(),
        }
    }
}

impl<T, M> Iterator for IntoItems<T, M> {
    type Item = T;

    fn next(&mut self) -> Option<T> {
        self.left = self.left.checked_sub(1)?;
        if let Some(item) = self.lowest.next() {
            return Some(item);
        }
        if let Some(Chunk { first, rest, .. }) = self.chunks.next() {
            self.lowest = rest.into_inner().into_iter();
            return Some(first);
        }
        self.highest_first.take().or_else(|| self.highest.next())
    }

    fn size_hint(&self) -> (usize, Option<usize>) {
        (self.left, Some(self.left))
    }
}

impl<T, M> DoubleEndedIterator for IntoItems<T, M> {
    fn next_back(&mut self) -> Option<T> {
        self.left = self.left.checked_sub(1)?;
        if self.highest.len() == 0 && self.highest_first.is_none() {
            if let Some(Chunk { first, rest, .. }) = self.chunks.next_back() {
                self.highest_first = Some(first);
                self.highest = rest.into_inner().into_iter();
            }
        }
        let last = self.highest.next_back();
        last.or_else(|| self.highest_first.take())
            .or_else(|| self.lowest.next_back())
    }
}

impl<T, M> ExactSizeIterator for IntoItems<T, M> {}

impl<T, M> FusedIterator for IntoItems<T, M> {}

/// Hashes the items, and then how many they are.
pub(crate) fn hash<H: Hasher>(items: impl Iterator<Item = impl Hash>, state: &mut H) {
    let mut len = 0;
    for item in items {
        item.hash(state);
        len += 1;
    }
    state.write_usize(len);
}

/// Moves all ranges of `that` into `own`. Both are empty meanwhile, so that a panic leaves no part
/// of the ranges behind.
pub(crate) fn append<C>(own: &mut C, that: &mut C)
where
    C: Default + IntoIterator + Extend<C::Item>,
{
    let mut taken = mem::take(own);
    taken.extend(mem::take(that));
    *own = taken;
}

/// A filter or an operation by a closure.
pub(crate) struct ByCall<F>(pub RefCell<F>);

impl<F> ByCall<F> {
    #[inline(always)]
    pub(crate) fn new(call: F) -> Self {
        ByCall(RefCell::new(call))
    }
}

fn list<T>(items: impl Iterator<Item = T>) -> support::Vec<T> {
    items.collect::<Vec<_>>().into()
}
