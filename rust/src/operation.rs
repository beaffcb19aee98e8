//! The operations on two sets, by name.

/// # Examples
///
/// ```
/// use range_sets::{Connective, RangeSetRef};
///
/// let a = RangeSetRef::new(&[0u8, 10]).unwrap();
/// let b = RangeSetRef::new(&[5, 20]).unwrap();
/// assert_eq!(a.combine::<[u8; 4]>(b, Connective::SAME).boundaries(), [5, 10, 20]);
/// ```
pub use crate::generated::range_merge::Connective;
/// # Examples
///
/// ```
/// use range_sets::{Connective, NoRoom, RangeSetRef};
///
/// let a = RangeSetRef::new(&[0, 10]).unwrap();
/// assert_eq!(a.merge_into(a, Connective::UNION, &mut []), Err(NoRoom { needed: 2 }));
/// ```
pub use crate::generated::range_merge::NoRoom;

use core::fmt;

impl fmt::Display for NoRoom {
    fn fmt(&self, f: &mut fmt::Formatter<'_>) -> fmt::Result {
        write!(
            f,
            "the result has {} boundaries, and the slice has no room for them",
            self.needed
        )
    }
}

#[cfg(feature = "std")]
impl std::error::Error for NoRoom {}

const fn connective(neither: bool, left: bool, right: bool, both: bool) -> Connective {
    Connective {
        neither,
        left,
        right,
        both,
    }
}

/// The usual ones of the sixteen. The others are made of their four truths:
///
/// ```
/// use range_sets::{Connective, RangeSetRef};
///
/// // What is in the right set and not in the left.
/// let op = Connective { neither: false, left: false, right: true, both: false };
/// let a = RangeSetRef::new(&[0, 10]).unwrap();
/// let b = RangeSetRef::new(&[5, 20]).unwrap();
/// assert_eq!(a.combine::<[i32; 2]>(b, op).boundaries(), [10, 20]);
/// ```
impl Connective {
    /// In one of the two sets, or in both.
    pub const UNION: Self = connective(false, true, true, true);
    /// In both sets.
    pub const INTERSECTION: Self = connective(false, false, false, true);
    /// In the left set and not in the right.
    pub const DIFFERENCE: Self = connective(false, true, false, false);
    /// In one of the two sets and not in the other.
    pub const SYMMETRIC_DIFFERENCE: Self = connective(false, true, true, false);
    /// In neither set.
    pub const NEITHER: Self = connective(true, false, false, false);
    /// Not in both sets.
    pub const NOT_BOTH: Self = connective(true, true, true, false);
    /// Not in the left set, whatever the right one has.
    pub const NOT_LEFT: Self = connective(true, false, true, false);
    /// In both sets, or in neither.
    pub const SAME: Self = connective(true, false, false, true);
}
