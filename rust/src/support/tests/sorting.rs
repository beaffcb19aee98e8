//! Tests of the stable sort.

use super::*;

#[test]
fn sorting_is_stable() {
    let mut seed = 3;
    for len in (0..60).chain([200, 1000]) {
        let mut items: alloc::vec::Vec<(u8, usize)> = (0..len)
            .map(|place| ((made_up(&mut seed) % 16) as u8, place))
            .collect();
        let mut expected = items.clone();
        expected.sort_by_key(|item| item.0);
        let mut by_first: alloc::vec::Vec<ByFirst> = items.drain(..).map(ByFirst).collect();
        by_first.sort_in(Global).unwrap();
        let sorted: alloc::vec::Vec<_> = by_first.iter().map(|item| item.0).collect();
        assert_eq!(sorted, expected);
    }
}

/// A pair that is ordered by its first half.
#[derive(Clone, Copy, Debug)]
struct ByFirst((u8, usize));

impl PartialEq for ByFirst {
    fn eq(&self, other: &Self) -> bool {
        self.cmp(other).is_eq()
    }
}

impl Eq for ByFirst {}

impl PartialOrd for ByFirst {
    fn partial_cmp(&self, other: &Self) -> Option<Ordering> {
        Some(self.cmp(other))
    }
}

impl Ord for ByFirst {
    fn cmp(&self, other: &Self) -> Ordering {
        self.0 .0.cmp(&other.0 .0)
    }
}
