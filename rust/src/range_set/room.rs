//! How much room a set has.

use crate::array::{Array, List};
use crate::forms::{ends, fails};

macro_rules! room {
    ($form:ident, $Clone:ident, $must_use:meta, $errors:ident, $from:literal) => {
        impl<T, A: Array<Item = T>> $form::RangeSet<A> {
            /// Returns an empty set with room for `room` boundaries, two for each range. It may
            /// have room for more.
            ///
            #[doc = $errors!("# Panics\n\nIf they take more than `isize::MAX` bytes, as \
                [`Vec::with_capacity`](alloc::vec::Vec::with_capacity) does." or "If memory runs out.")]
            #[doc = example!($form "RangeSet2";
                "let set: RangeSet2<u64> = RangeSet2::with_capacity(200)"?
                "assert!(set.capacity() >= 200);",
            )]
            #[$must_use]
            pub fn with_capacity(boundaries: usize) -> $form::Returned<Self> {
                let list = A::List::with_capacity(boundaries);
                $form::reserved::<T, _>(list.map(Self::of_list), Some(boundaries))
            }

            /// Returns how many boundaries the set has room for.
            ///
            #[doc = example!($form "RangeSet";
                "assert_eq!(RangeSet::<[u64; 8]>::empty().capacity(), 8);",
            )]
            #[must_use]
            pub fn capacity(&self) -> usize {
                self.list.capacity()
            }

            /// Makes room for `more` boundaries more, two for each range. Changes keep it, and need
            /// no other room until the set has grown by as many.
            ///
            #[doc = $errors!("# Panics\n\nIf all boundaries would then take more than `isize::MAX` \
                bytes, as [`Vec::reserve`](alloc::vec::Vec::reserve) does."
                or "If memory runs out. The set is then as it was.")]
            #[doc = example!($form "RangeSet2";
                "let mut set = RangeSet2::" $from "(0..10)"?
                "set.reserve(20)"?
                "assert!(set.capacity() >= 22);",
            )]
            pub fn reserve(&mut self, boundaries: usize) -> $form::Returned<()> {
                let items = self.boundaries().len().checked_add(boundaries);
                $form::reserved::<T, _>(self.list.reserve(boundaries), items)
            }

            /// Gives back the room that the boundaries don't need. They come to lie in the set
            /// itself where they fit. If the allocator refuses a smaller room, it stays.
            ///
            #[doc = example!($form "RangeSet2";
                "let mut set: RangeSet2<u64> = RangeSet2::with_capacity(200)"?
                "set.insert(0..10)"?
                "set.shrink_to_fit();",
                "assert_eq!(set.capacity(), 2);",
            )]
            pub fn shrink_to_fit(&mut self) {
                self.list.shrink_to_fit();
            }
        }
    };
}

both_forms!(room);
