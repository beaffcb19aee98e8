//! The two forms of a map: [`RangeMap`](super::RangeMap), whose calls end the process if memory runs
//! out, and [`fallible::RangeMap`](crate::fallible::RangeMap), whose calls return an error.

/// Calls a macro for each form of a map. What both kinds of types have is as `both_forms` has it.
macro_rules! both_maps {
    ($calls:ident) => {
        $calls! {
            // `$form`: the module of the form.
            ends,
            // `$Clone`: the trait that copies keys.
            Clone,
            // `$Value`: the trait that copies values.
            Clone,
            // `$must_use`: the attribute of a call whose result has to be used.
            must_use,
            // `$errors`: the macro that writes the documentation of errors.
            no_errors,
            // `$from`: the call by which an example makes a set of a range.
            "from",
            // `$of_pairs`: the call by which an example makes a map of ranges and values.
            "from_iter",
            // `$returned`: the macro that writes what the function of an example returns.
            as_it_is
        }
        $calls! {
            fails,
            EntryClone,
            MapValue,
            // No attribute, as in `both_forms`.
            cfg_attr(any(), must_use),
            errors,
            "try_from",
            "from_ranges",
            in_ok
        }
    };
}

macro_rules! as_it_is {
    ($code:literal) => {
        $code
    };
}

macro_rules! in_ok {
    ($code:literal) => {
        concat!("Ok(", $code, ")")
    };
}

pub(crate) use {as_it_is, both_maps, in_ok};
