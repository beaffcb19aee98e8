//! Merges in place, where the list lies.
//!
//! In Rattle a hole in a list is filled with blank items, which ask for a default value. Here
//! nothing lies in a hole, so that any element will do: the merge runs over [`Slot`]s of lists that
//! are [`Opened`].

use super::by_bits::ByBits;
use super::opened::{Emptied, Opened};
use super::slot::{BySlots, OfSlots, Slot};
use super::{AllocError, SmallVec};
use crate::generated::range_merge::fast::in_place_plain::merged_plainly;
use crate::generated::range_merge::in_place::borrowed::{BorrowedRight, CopiedRight};
use crate::generated::range_merge::in_place::memory::{prepared, prepared_copies};
use crate::generated::range_merge::in_place::owned::OwnedRight;
use crate::generated::range_merge::in_place::right::Supply;
use crate::generated::range_merge::in_place::InPlaceState;
use crate::generated::range_merge::{Compare, Copier, MergeOperation};
use core::marker::PhantomData;

/// A merge into its own left list, which takes the items of a right list that it owns.
pub struct InPlaceMergeState<K, const N: usize>(PhantomData<K>);

/// A merge into its own left list, which takes copies of the items of a right list that it borrows.
pub struct InPlaceMergeStateRef<K, P, const N: usize>(PhantomData<(K, P)>);

impl<K, const N: usize> InPlaceMergeState<K, N> {
    /// Leaves in `a` the items at which the connective of `op` changes between two strictly sorted
    /// lists. Of two equal items it is the one of `a` that stays.
    ///
    /// It asks for room in `a` for the items of `b`, which stays, before it changes anything.
    /// Numbers it merges as [`merged_plainly`] does. If that fails, `a` is as it was and `b` comes
    /// back.
    pub fn merge<O: MergeOperation, C: Compare<K>>(
        a: &mut SmallVec<K, N>,
        mut b: SmallVec<K, N>,
        op: &O,
        cmp: &mut C,
    ) -> Result<(), (AllocError, SmallVec<K, N>)> {
        // Numbers are copied, whatever their list is: calls by an owned list ask for `Ord` alone.
        if let Some(by_bits) = ByBits::of_numbers() {
            match merged_plainly(a, b.as_slice(), &by_bits, op, cmp) {
                Ok(false) => {}
                Ok(true) => return Ok(()),
                Err(error) => return Err((error, b)),
            }
        }
        let extra = b.len();
        if let Err(error) = prepared(a, extra) {
            return Err((error, b));
        }
        let mut emptied = Emptied::over(&mut b);
        merge_opened(a, OwnedRight::over(&mut emptied), extra, op, cmp);
        Ok(())
    }
}

impl<K, P: Copier<K>, const N: usize> InPlaceMergeStateRef<K, P, N> {
    /// Leaves in `a` the items at which the connective of `op` changes between two strictly sorted
    /// lists: its own, and copies of those of `b`. Of two equal items it is the one of `a` that
    /// stays.
    ///
    /// It asks for room in `a` for the items of `b`, which stays, and, unless copies never fail,
    /// for a copy of each item of `b`, before it changes anything. Plain data it merges as
    /// [`merged_plainly`] does. Where one is refused, `a` is as it was.
    pub fn merge<O: MergeOperation, C: Compare<K>>(
        a: &mut SmallVec<K, N>,
        b: &[K],
        copier: &P,
        op: &O,
        cmp: &mut C,
    ) -> Result<(), AllocError> {
        if merged_plainly(a, b, copier, op, cmp)? {
            return Ok(());
        }
        let slots = Slot::slots(b);
        if copier.all_infallible() {
            prepared(a, b.len())?;
            let copier = OfSlots(copier);
            merge_opened(a, BorrowedRight::over(slots, &copier), b.len(), op, cmp);
            return Ok(());
        }
        let mut copies = prepared_copies(a, b, copier)?;
        let mut emptied = Emptied::over(&mut copies);
        let right = CopiedRight::<_, OfSlots<P>, _>::over(slots, &mut emptied);
        merge_opened(a, right, b.len(), op, cmp);
        Ok(())
    }
}

/// Merges into a list that has room for `extra` more items; the right side puts no more.
#[inline(always)]
fn merge_opened<K, R: Supply<Slot<K>>, O: MergeOperation, C: Compare<K>, const N: usize>(
    a: &mut SmallVec<K, N>,
    right: R,
    extra: usize,
    op: &O,
    cmp: &mut C,
) {
    let state = InPlaceState::<Slot<K>, N, R, _>::over(Opened::over(a), right, extra);
    state.merged(op, &mut BySlots(cmp)).close();
}
