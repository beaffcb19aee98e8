//! Element types with a least value.

use crate::generated::range_collections::{Countable, FromPlace, Unsigned};
use crate::generated::range_entry;
use crate::memory::AllocError;
use crate::support::Global;
use alloc::string::String;
use alloc::vec::Vec;
use core::num::{NonZeroU128, NonZeroU16, NonZeroU32, NonZeroU64, NonZeroU8, NonZeroUsize};
use core::time::Duration;
#[cfg(feature = "std")]
use std::net::{Ipv4Addr, Ipv6Addr};

/// An element type that has a least value.
///
/// "All values", `..end`, `!` and `combine` ask for it: they need a boundary below which there is
/// nothing. Other calls ask for [`Ord`], and those that copy boundaries for [`Clone`].
///
/// It is implemented for whole numbers, `NonZero` numbers without a sign, `char`, [`String`],
/// `&str`, [`Vec`], slices, [`Option`] and [`Duration`], and with the feature `std` for `Ipv4Addr`
/// and `Ipv6Addr`. What the impls here say is tested, and no contract is proved of it. Floats have
/// no order of their own: a wrapper with `Ord`, as `OrderedFloat` of the crate ordered-float, can
/// be an element.
///
/// # Examples
///
/// An element type of your own:
///
/// ```
/// use range_sets::range_set::{RangeSet2, RangeSetEntry};
///
/// #[derive(Clone, PartialEq, Eq, PartialOrd, Ord)]
/// struct Version(u8, u8);
///
/// impl RangeSetEntry for Version {
///     fn min_value() -> Self {
///         Version(0, 0)
///     }
///
///     fn is_min_value(&self) -> bool {
///         *self == Version(0, 0)
///     }
/// }
///
/// let old: RangeSet2<Version> = (..Version(2, 0)).into();
/// assert!(old.contains(&Version(1, 9)));
/// assert!(!(!old).contains(&Version(1, 9)));
/// ```
pub trait RangeSetEntry: Ord {
    /// Returns the least value.
    ///
    /// # Examples
    ///
    /// ```
    /// use range_sets::RangeSetEntry;
    ///
    /// assert_eq!(<i8 as RangeSetEntry>::min_value(), -128);
    /// assert_eq!(<Option<u8> as RangeSetEntry>::min_value(), None);
    /// ```
    fn min_value() -> Self;

    /// Returns `true` if this is the least value. It makes no value to compare with.
    ///
    /// # Examples
    ///
    /// ```
    /// use range_sets::RangeSetEntry;
    ///
    /// assert!("".is_min_value());
    /// assert!(!"a".is_min_value());
    /// ```
    fn is_min_value(&self) -> bool;
}

/// Gives types a least value, and says whether a value is that.
macro_rules! least_values {
    ($($(#[$attribute:meta])* [$($T:ident)?] $entry:ty = $least:expr, |$it:ident| $is_least:expr;)*) => {$(
        $(#[$attribute])*
        impl$(<$T: Ord>)? RangeSetEntry for $entry {
            #[inline]
            fn min_value() -> Self {
                $least
            }

            #[inline]
            fn is_min_value(&self) -> bool {
                let $it = self;
                $is_least
            }
        }
    )*};
}

least_values! {
    [] char = '\0', |it| *it == '\0';
    /// A nanosecond is the least step between two.
    [] Duration = Duration::ZERO, |it| it.is_zero();
    [] String = String::new(), |it| it.is_empty();
    [] &str = "", |it| it.is_empty();
    [T] Vec<T> = Vec::new(), |it| it.is_empty();
    [T] &[T] = &[], |it| it.is_empty();
    [T] Option<T> = None, |it| it.is_none();
}

macro_rules! numbers {
    ($($number:ty)*) => {
        least_values! { $([] $number = <$number>::MIN, |it| *it == <$number>::MIN;)* }
    };
}

numbers!(u8 u16 u32 u64 u128 usize i8 i16 i32 i64 i128 isize);

macro_rules! non_zero_numbers {
    ($($number:ty)*) => {$(
        least_values! {
            [] $number = <$number>::new(1).expect("one is not zero"), |it| it.get() == 1;
        }

        /// Its place is how many numbers from 1 on are below it.
        impl Countable for $number {
            #[inline]
            fn place(&self) -> u128 {
                (self.get() - 1).place()
            }
        }
    )*};
}

non_zero_numbers!(NonZeroU8 NonZeroU16 NonZeroU32 NonZeroU64 NonZeroU128 NonZeroUsize);

/// Its place is how many nanoseconds it has.
impl Countable for Duration {
    #[inline]
    fn place(&self) -> u128 {
        self.as_nanos()
    }
}

impl FromPlace for Duration {
    #[inline]
    fn zero() -> u128 {
        0
    }

    #[inline]
    fn from_place(place: u128) -> Option<Self> {
        let nanos = u32::try_from(place % NANOS).ok()?;
        Some(Duration::new(u64::try_from(place / NANOS).ok()?, nanos))
    }

    #[inline]
    fn greatest() -> Self {
        Duration::MAX
    }
}

/// How many nanoseconds a second has.
const NANOS: u128 = 1_000_000_000;

/// An element type whose values are lengths too, as [`first_fit`](crate::RangeSetRef::first_fit)
/// asks for one.
///
/// It is implemented for all [`Unsigned`] types, for whole numbers with a sign and for
/// [`Duration`], and it is tested.
///
/// # Examples
///
/// ```
/// use range_sets::RangeSet2;
/// use std::time::Duration;
///
/// let hours = |n: u64| Duration::from_secs(3600 * n);
/// let busy = RangeSet2::from(hours(9)..hours(12));
/// assert_eq!(busy.first_fit(hours(8)..hours(18), hours(2)), Some(hours(12)));
///
/// let used = RangeSet2::from(-8..8);
/// assert_eq!(used.first_fit(-16..16, 8), Some(-16));
/// assert_eq!(used.first_fit(-16..16, -1), None);
/// ```
pub trait Length: Countable + Copy {
    /// Returns how many values a range of this length has, or `None` if the length is below 0.
    ///
    /// # Examples
    ///
    /// ```
    /// use range_sets::Length;
    ///
    /// assert_eq!((7i8.count(), (-7i8).count()), (Some(7), None));
    /// ```
    fn count(self) -> Option<u128>;
}

/// As many as numbers are below it.
impl<T: Unsigned> Length for T {
    #[inline]
    fn count(self) -> Option<u128> {
        Some(self.place())
    }
}

/// As many as it has nanoseconds.
impl Length for Duration {
    #[inline]
    fn count(self) -> Option<u128> {
        Some(self.place())
    }
}

macro_rules! signed_lengths {
    ($($number:ty)*) => {$(
        impl Length for $number {
            #[inline]
            fn count(self) -> Option<u128> {
                u128::try_from(self).ok()
            }
        }
    )*};
}

signed_lengths!(i8 i16 i32 i64 i128 isize);

macro_rules! addresses {
    ($($(#[$doc:meta])* $address:ident of $number:ident;)*) => {$(
        least_values! {
            $(#[$doc])*
            #[cfg(feature = "std")]
            #[cfg_attr(docsrs, doc(cfg(feature = "std")))]
            [] $address = $address::UNSPECIFIED, |it| it.is_unspecified();
        }

        /// Its place is its number.
        #[cfg(feature = "std")]
        impl Countable for $address {
            #[inline]
            fn place(&self) -> u128 {
                $number::from(*self).into()
            }
        }

        #[cfg(feature = "std")]
        impl FromPlace for $address {
            #[inline]
            fn zero() -> u128 {
                0
            }

            #[inline]
            fn from_place(place: u128) -> Option<Self> {
                $number::from_place(place).map(Self::from)
            }

            #[inline]
            fn greatest() -> Self {
                $number::MAX.into()
            }
        }
    )*};
}

addresses! {
    /// The addresses from 0.0.0.0 on, in the order of their numbers.
    ///
    /// A block up to the greatest address has no end: 224.0.0.0/3 is `insert(first..)` or
    /// `insert(first..=last)`. The set that has it has no end either, so its
    /// [`covered`](crate::RangeSetRef::covered) is `None`. Its size is the
    /// [`rank`](crate::RangeSetRef::rank) of the greatest address, plus 1.
    ///
    /// # Examples
    ///
    /// ```
    /// use range_sets::RangeSet2;
    /// use std::net::Ipv4Addr;
    ///
    /// let (first, last) = (Ipv4Addr::new(224, 0, 0, 0), Ipv4Addr::BROADCAST);
    /// let set = RangeSet2::from(first..=last);
    /// assert_eq!((set.covered(), set.rank(&last) + 1), (None, 1 << 29));
    /// ```
    Ipv4Addr of u32;
    /// The addresses from :: on, in the order of their numbers.
    Ipv6Addr of u128;
}

/// The generated code asks for a least value that may run out of memory.
impl<T: RangeSetEntry> range_entry::RangeSetEntry for T {
    #[inline(always)]
    fn min_value(_: Global) -> Result<Self, AllocError> {
        Ok(<T as RangeSetEntry>::min_value())
    }

    #[inline(always)]
    fn is_min_value(&self) -> bool {
        <T as RangeSetEntry>::is_min_value(self)
    }
}
