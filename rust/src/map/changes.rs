//! Calls that change a map.

use super::forms::both_maps;
use super::RangeMap;
use crate::any_range::AnyRange;
use crate::fallible::MapValue;
use crate::forms::{ends, fails};
use crate::generated::range_map::InsertError;
use crate::memory::out_of_memory;

macro_rules! changes {
    (
        $form:ident, $Clone:ident, $Value:ident, $must_use:meta, $errors:ident,
        $from:literal, $of_pairs:literal, $returned:ident
    ) => {
        impl<K: Ord, V: Eq + $Value> $form::RangeMap<K, V> {
            /// Gives each key of a range [of any kind](AnyRange) the value, in place of the one
            /// that it had. An empty or a reversed range changes nothing.
            ///
            /// A value is copied only if the range lies within another one, which becomes two.
            ///
            #[doc = $errors!("If memory is refused, which is asked for only if there are more ranges \
                after it, or a copy of a value. The map is then as it was.")]
            #[doc = example!($form "RangeMap";
                "let mut bookings = RangeMap::new();",
                r#"bookings.insert(9..17, "Ada")"#?
                r#"bookings.insert(12..=13, "Bob")"#?
                r#"bookings.insert(20.., "Eve")"#?
                r##"let ranges = r#"{9..12: "Ada", 12..14: "Bob", 14..17: "Ada", 20..: "Eve"}"#;"##,
                r#"assert_eq!(format!("{bookings:?}"), ranges);"#,
            )]
            pub fn insert(&mut self, range: impl AnyRange<K>, value: V) -> $form::Returned<()> {
                $form::returned::<K, _, _>(self.try_insert(range.into(), value))
            }

            /// Takes the value of each key of a range [of any kind](AnyRange) away. An empty or a
            /// reversed range changes nothing.
            ///
            /// It takes memory, and copies a value, only if the range lies within another one,
            /// which becomes two.
            ///
            #[doc = $errors!("If memory or a copy of a value is refused. The map is then as it was.")]
            #[doc = example!($form "RangeMap";
                "let mut bookings = RangeMap::" $of_pairs r#"([(9..17, "Ada")])"#?
                "bookings.remove(12..13)"?
                "bookings.remove(16..)"?
                "bookings" = r#"{9..12: "Ada", 13..16: "Ada"}"#,
            )]
            pub fn remove(&mut self, range: impl AnyRange<K>) -> $form::Returned<()> {
                $form::returned::<K, _, _>(self.try_remove(range.into()))
            }
        }
    };
}

both_maps!(changes);

impl<K: Ord, V: Eq + Clone> RangeMap<K, V> {
    /// Gives each key of a range [of any kind](AnyRange) the value if none of them has one. It
    /// copies nothing.
    ///
    /// # Errors
    ///
    /// The value, if a key has one.
    ///
    /// # Examples
    ///
    /// ```
    /// use range_sets::RangeMap;
    ///
    /// let mut bookings = RangeMap::new();
    /// assert_eq!(bookings.insert_free(9..12, "Ada"), Ok(()));
    /// assert_eq!(bookings.insert_free(11..14, "Bob"), Err("Bob"));
    /// assert_eq!(bookings.get(&12), None);
    /// assert_eq!(bookings.insert_free(20.., "Eve"), Ok(()));
    /// ```
    pub fn insert_free(&mut self, range: impl AnyRange<K>, value: V) -> Result<(), V> {
        let result = self.try_insert_free(range.into(), value);
        result.map_err(|refused| match refused {
            InsertError::NotFree(value) => value,
            InsertError::OutOfMemory(_) => out_of_memory::<K>(),
        })
    }
}
