//! Copies of numbers, for calls that ask for an order alone.

use super::{AllocError, Vec};
use crate::generated::range_map::step::Step;
use crate::generated::range_merge::Copier;
use crate::map::Kept;
use core::any::TypeId;
use core::marker::PhantomData;
use core::mem;
use core::ptr;

/// Copies numbers and characters, where no bound of the type says that they are such, and steps of
/// a map that have such a key and such a value.
///
/// Not of other items without a drop, though their bits could be moved: a merge that reads short
/// runs compares copies while the items are there. A comparison that took a `&mut` out of a `Cell`
/// in a copy would leave it in the item.
pub struct ByBits<K>(PhantomData<K>);

impl<K> ByBits<K> {
    /// A copier, if items are numbers or characters.
    #[inline(always)]
    pub fn of_numbers() -> Option<Self> {
        is_number::<K>().then_some(ByBits(PhantomData))
    }

    #[inline(always)]
    fn copied(&self, item: &K) -> K {
        // SAFETY: `K` is a type of numbers or `char`, or a step of these, or there were no `ByBits`
        // of it. All their fields are `Copy`.
        unsafe { ptr::read(item) }
    }
}

impl<K, V, C> ByBits<Step<K, Kept<V, C>>> {
    /// A copier, if keys and values are numbers or characters.
    #[inline(always)]
    pub fn of_steps_of_numbers() -> Option<Self> {
        (is_number::<K>() && is_number::<V>()).then_some(ByBits(PhantomData))
    }
}

impl<K> Copier<K> for ByBits<K> {
    #[inline(always)]
    fn copy(&self, item: &K) -> Result<K, AllocError> {
        Ok(self.copied(item))
    }

    #[inline(always)]
    fn is_plain(&self) -> bool {
        true
    }

    #[inline(always)]
    fn append(&self, list: &mut Vec<K>, items: &[K]) -> Result<(), AllocError> {
        list.reserve(items.len())?;
        list.as_inner_mut()
            .extend(items.iter().map(|item| self.copied(item)));
        Ok(())
    }
}

/// Whether `K` is one of std's types of whole numbers, or `char`: those that are plain by their
/// `EntryClone`.
///
/// The result is known when the call is compiled.
#[inline(always)]
pub fn is_number<K>() -> bool {
    let id = id::<K>();
    macro_rules! is_one_of {
        ($($number:ty)*) => {
            false $(|| id == TypeId::of::<$number>())*
        };
    }
    is_one_of!(u8 u16 u32 u64 u128 usize i8 i16 i32 i64 i128 isize char)
}

/// The id of `K`, by `'static` for each of its lifetimes. Numbers have none, so no other type has
/// an id of theirs.
#[inline(always)]
fn id<K>() -> TypeId {
    trait Id {
        fn id(&self) -> TypeId
        where
            Self: 'static;
    }

    impl<K> Id for PhantomData<K> {
        #[inline(always)]
        fn id(&self) -> TypeId
        where
            Self: 'static,
        {
            TypeId::of::<K>()
        }
    }

    let of: &dyn Id = &PhantomData::<K>;
    // SAFETY: the two types differ in a lifetime alone, and the call reads nothing that ends with
    // it: there is no item.
    let of = unsafe { mem::transmute::<&dyn Id, &(dyn Id + 'static)>(of) };
    of.id()
}
