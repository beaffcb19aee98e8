//! All calls that compare or clone.

use crate::changes::{changes, CallOn};
use crate::element::{read, Hostile};
use range_sets::{fallible, Array, Connective, RangeSet, RangeSetRef};

pub type Call<A> = CallOn<RangeSet<A>, A>;

/// Everything that compares or clones. Where a call is refused or panics, what its first set then
/// has is read.
pub fn calls<A: Array<Item = Hostile>>() -> Vec<(&'static str, Call<A>)> {
    fn fallibly<A: Array<Item = Hostile>, R>(
        set: &mut RangeSet<A>,
        call: impl FnOnce(&mut fallible::RangeSet<A>) -> R,
    ) -> R {
        let mut changed = fallible::RangeSet::from(std::mem::take(set));
        let result = call(&mut changed);
        *set = changed.into();
        result
    }
    let others: Vec<(&'static str, Call<A>)> = vec![
        ("|", |a, b, _, _| *a = &*a | &b),
        ("&", |a, b, _, _| *a = &*a & &b),
        ("-", |a, b, _, _| *a = &*a - &b),
        ("^", |a, b, _, _| *a = &*a ^ &b),
        ("! of a value", |a, _, _, _| *a = !std::mem::take(a)),
        ("! of a reference", |a, _, _, _| *a = !&*a),
        ("| of views", |a, b, _, _| {
            *a = RangeSet::from(&*(&**a | &*b))
        }),
        ("from ranges of any kind", |a, _, x, y| {
            *a = RangeSet::from([x.clone()..y.clone(), y..x]);
        }),
        ("combine", |a, b, _, _| {
            *a = a.combine(&b, Connective::NEITHER)
        }),
        ("from_ranges", |a, b, x, y| {
            *a = std::mem::take(a)
                .into_iter()
                .chain(b)
                .chain([(x..y).into()])
                .collect();
        }),
        ("union_all", |a, b, x, _| {
            *a = RangeSet::union_all([&**a, &b, RangeSetRef::single(&x), a])
        }),
        ("from_unsorted", |a, b, x, y| {
            let mixed = std::mem::take(a)
                .into_inner()
                .into_iter()
                .chain(b.into_inner())
                .chain([y, x]);
            *a = RangeSet::from_unsorted(mixed);
        }),
        ("new", |a, b, x, y| {
            let mixed = std::mem::take(a)
                .into_inner()
                .into_iter()
                .chain(b.into_inner())
                .chain([x, y]);
            *a = RangeSet::new(mixed.collect()).unwrap_or_default();
        }),
        ("clone", |a, _, _, _| *a = a.clone()),
        ("from a range", |a, _, x, y| *a = RangeSet::from(x..y)),
        ("from an end", |a, _, x, _| *a = RangeSet::from(..x)),
        ("questions", |a, b, x, y| {
            let _ = (
                a.contains(&x),
                a.is_all(),
                a.range_at(&x),
                a.is_disjoint(&b),
                a.is_subset(&b),
            );
            let _ = (
                a.is_superset(&b),
                a.intersects(&b),
                *a == b,
                (*a).cmp(&b),
                a.first(),
            );
            let _ = (
                a.gaps(&x..&y).count(),
                a.ranges_within(&x..&y).count(),
                a.span(),
                a.last(),
            );
            let _ = (
                a.contains_range(x.clone()..y.clone()),
                a.intersects_range(y.clone()..x.clone()),
                a.contains_range(x.clone()..),
                a.intersects_range(..x.clone()),
            );
            let _ = (
                a.overlapping(&x..&y).count(),
                a.gaps(&x..).count(),
                a.gaps(..&y).count(),
                a.ranges_within(&x..=&y).count(),
                a.gaps(..).count(),
            );
            let _ = (
                a.merge_len(&b, Connective::UNION),
                a.merge_len(&b, Connective::DIFFERENCE),
            );
            let (left, right) = a.split(x.clone());
            let _ = (read(left), read(right));
            let mut cursor = a.cursor();
            let _ = [&x, &y, &x].map(|value| cursor.contains(value));
        }),
        ("parts between values", |a, _, x, y| {
            let _ = (
                a.gaps(x.clone()..y.clone()).count(),
                a.ranges_within(x.clone()..y).count(),
                a.gaps(x..).count(),
            );
        }),
        ("fallible in place", |a, b, x, y| {
            fallibly(a, |a| {
                let _ = a.union_with(&b);
                let _ = a.insert(x..y);
                let _ = a.sub_assign(b.into());
            });
        }),
        ("fallible into new sets", |a, b, _, _| {
            fallibly(a, |a| {
                let _ = a
                    .union::<A>(&b)
                    .and_then(|set| set.try_clone())
                    .and_then(|set| set.negated());
                let _ = a.symmetric_difference::<A>(&b);
                let _ = fallible::RangeSet::<A>::union_all([&**a, &b]);
            });
        }),
    ];
    changes()
        .into_iter()
        .map(|(name, call, _)| (name, call))
        .chain(others)
        .collect()
}
