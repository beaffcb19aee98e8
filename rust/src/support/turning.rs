//! Two items that were pushed at the end of a list, moved to their place.

/// Moves the last two items before those from index `at` on.
///
/// # Panics
///
/// Where there are fewer than two from there on.
#[inline(always)]
pub fn move_last_two<T>(items: &mut [T], at: usize) {
    items[at..].rotate_right(2);
}
