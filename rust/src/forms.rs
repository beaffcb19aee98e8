//! The two forms of a type: its calls end the process if memory runs out, or they return an error.
//!
//! A macro writes the calls of both from one text. [`both_forms`] passes it what differs.

/// Calls a macro for each form.
macro_rules! both_forms {
    ($calls:ident) => {
        $calls! {
            // `$form`: the module of the form.
            ends,
            // `$Clone`: the trait that copies elements.
            Clone,
            // `$must_use`: the attribute of a call whose result has to be used.
            must_use,
            // `$errors`: the macro that writes the documentation of errors.
            no_errors,
            // `$from`: the call by which an example makes a set of a range.
            "from"
        }
        $calls! {
            fails,
            EntryClone,
            // No attribute, since `any()` is false: a `Result` has to be used anyway, and clippy
            // calls a second `must_use` one too many.
            cfg_attr(any(), must_use),
            errors,
            "try_from"
        }
    };
}

/// Writes the section of the documentation about errors. `$ends` is what the other form has in its
/// place.
macro_rules! errors {
    ($errors:literal) => {
        concat!("# Errors\n\n", $errors, "\n\n")
    };
    ($ends:literal or $errors:literal) => {
        errors!($errors)
    };
}

macro_rules! no_errors {
    ($errors:literal) => {
        ""
    };
    ($ends:literal or $errors:literal) => {
        concat!($ends, "\n\n")
    };
}

/// Writes the section of the documentation with an example, as [`code`] does. rustfmt would move
/// its lines each time it runs: where it could, the macro around it has `rustfmt::skip`.
macro_rules! example {
    ($($code:tt)*) => {
        concat!("# Examples\n\n", code!($($code)*))
    };
}

/// Writes the code of an example of a form, or of a tracker by `tracks`, with what it uses first. A
/// line that ends in `?` may fail, which is an error in `fallible`. Others end in a comma: with
/// `=>` they say what a set is as a text, and with `=` what `{:?}` makes of a map. A last line `Ok`
/// has the type of other errors.
macro_rules! code {
    (ends $($code:tt)*) => {
        code!(@ "range_sets", ";", "": $($code)*)
    };
    (fails $($code:tt)*) => {
        code!(
            @ "range_sets::fallible", "?;", "\n# Ok::<(), range_sets::fallible::AllocError>(())":
            $($code)*
        )
    };
    (tracks $ok:literal $($code:tt)*) => {
        code!(
            @ "range_sets::tracker", $ok, "\n# Ok::<(), range_sets::tracker::TrackError>(())":
            $($code)*
        )
    };
    (
        @ $at:literal, $ok:literal, $end:literal:
        $($of:literal)+ $(, $used:literal)*; $($lines:tt)*
    ) => {
        concat!(
            "```\nuse ", $at, "::", $($of,)+ ";\n", $("use ", $used, ";\n",)*
            code!(@lines $ok, $end: $($lines)*), "\n```"
        )
    };
    (@lines $ok:literal, $end:literal: $($part:literal)+ ? $($lines:tt)*) => {
        concat!("\n", $($part,)+ $ok, code!(@lines $ok, $end: $($lines)*))
    };
    (@lines $ok:literal, $end:literal: [$($part:tt)+] ? $($lines:tt)*) => {
        concat!("\n", $($part)+, $ok, code!(@lines $ok, $end: $($lines)*))
    };
    (@lines $ok:literal, $end:literal: $($part:literal)+, $($lines:tt)*) => {
        concat!("\n", $($part,)+ code!(@lines $ok, $end: $($lines)*))
    };
    (@lines $ok:literal, $end:literal: $set:literal => $text:literal, $($lines:tt)*) => {
        concat!(
            "\nassert_eq!(", $set, ".to_string(), ", stringify!($text), ");",
            code!(@lines $ok, $end: $($lines)*)
        )
    };
    (@lines $ok:literal, $end:literal: $map:literal = $shown:literal, $($lines:tt)*) => {
        concat!(
            "\nassert_eq!(format!(\"{", $map, ":?}\"), ", stringify!($shown), ");",
            code!(@lines $ok, $end: $($lines)*)
        )
    };
    (@lines $ok:literal, $end:literal: Ok $error:literal) => {
        concat!("\n# Ok::<(), ", $error, ">(())")
    };
    (@lines $ok:literal, $end:literal:) => {
        $end
    };
}

/// Writes the documentation of operations in place with a view, of sets in one list and of those in
/// chunks. Before `=>` stands the value from which on the view of an example has all, and behind it
/// what `0..10` then is.
macro_rules! operations_with {
    (
        $Set:literal, $form:ident, $errors:ident:
        $(
            $(#[$does:meta])*
            pub fn $call:ident($self:ident, $that:ident), $value:literal => $after:literal $body:block
        )*
    ) => {$(
        $(#[$does])*
        ///
        #[doc = $errors!("If memory runs out or a copy of a boundary fails. The set is then as it \
            was.")]
        #[doc = example!($form $Set, "range_sets::RangeSetRef";
            "let mut set = " $Set "::from_ranges([0..10])"?
            ["set.", stringify!($call), "(RangeSetRef::single(&", $value, "))"]?
            "set" => $after,
        )]
        pub fn $call(&mut $self, $that: &RangeSetRef<T>) -> $form::Returned<()> $body
    )*};
}

/// If memory runs out, a call ends the process, as those of std's collections do.
pub(crate) mod ends {
    use crate::array::Sorting;
    use crate::generated::range_collections::ParseError;
    pub(crate) use crate::memory::{
        expect_memory as returned, expect_room as reserved, ByClone as Copier,
    };
    use crate::memory::{out_of_memory, AllocError};
    pub use crate::{
        chunked::ChunkedRangeSet, map::RangeMap, range_set::RangeSet, space::ChunkedSpace,
    };

    /// What a call returns that may ask for memory.
    pub type Returned<R> = R;
    pub(crate) const SORTING: Sorting = Sorting::ByStd;

    /// The result of reading a text, which doesn't fail for lack of memory.
    pub(crate) fn parsed<T, R>(result: Result<R, ParseError>) -> Result<R, ParseError> {
        match result {
            Err(ParseError::OutOfMemory) => out_of_memory::<T>(),
            _ => result,
        }
    }

    /// The result of a caller's function, which returns no error.
    pub(crate) fn tried<R>(result: R) -> Result<R, AllocError> {
        Ok(result)
    }

    /// The result of a call whose own errors are of another type.
    pub(crate) fn or_error<T, R, E>(
        result: Result<R, AllocError>,
        _error: impl FnOnce(AllocError) -> E,
    ) -> Result<R, E> {
        Ok(returned::<T, _, _>(result))
    }
}

/// If memory runs out, a call returns an error. The functions do what those of `ends` do.
// `T` says there for how large an element there was no memory.
#[allow(clippy::extra_unused_type_parameters)]
pub(crate) mod fails {
    use crate::array::Sorting;
    use crate::fallible::AllocError;
    pub use crate::fallible::{ChunkedRangeSet, ChunkedSpace, RangeMap, RangeSet};
    pub use crate::generated::range_collections::EntryCopier as Copier;
    use crate::generated::range_collections::ParseError;

    pub type Returned<R> = Result<R, AllocError>;
    pub(crate) const SORTING: Sorting = Sorting::Fallible;

    pub(crate) fn returned<T, R, E>(result: Result<R, E>) -> Result<R, E> {
        result
    }

    pub(crate) fn reserved<T, R>(result: Returned<R>, _items: Option<usize>) -> Returned<R> {
        result
    }

    pub(crate) fn parsed<T, R>(result: Result<R, ParseError>) -> Result<R, ParseError> {
        result
    }

    pub(crate) fn tried<R>(result: Returned<R>) -> Returned<R> {
        result
    }

    pub(crate) fn or_error<T, R, E>(
        result: Returned<R>,
        error: impl FnOnce(AllocError) -> E,
    ) -> Result<R, E> {
        result.map_err(error)
    }
}
