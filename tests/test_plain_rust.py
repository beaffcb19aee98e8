#!/usr/bin/env python3
"""Tests of tools/plain-rust: each form that it knows on a text of a few lines, and forms that it refuses.

    tests/test_plain_rust.py
"""

import sys
import tempfile
import unittest
from pathlib import Path
from unittest import mock

sys.path.insert(0, str(Path(__file__).resolve().parent.parent / "tools"))
sys.dont_write_bytecode = True

from plain_rust import tables, writing  # noqa: E402
from plain_rust.sources import Failed, rust_of  # noqa: E402
from plain_rust.tokens import Refused, closing, closing_angle, text_of, tokenized  # noqa: E402

FILE = "range_merge/sample"


def rust(text, **others):
    """The Rust of a file, without blanks at its ends and without the tables' names of files."""
    with mock.patch.multiple(tables, ITEMS_LEFT_OUT={}, SHOWN={}, LEFT_OUT=set(), **others):
        return rust_of({FILE: text})[FILE].strip()


class Tokens(unittest.TestCase):
    def test_a_text_comes_back(self):
        text = "//! a\nfn f<'a>(x: &'a str) -> char { /* /* b */ */ '\\'' } // \"c\n\"d\\\"\" x'' 0..1 λ ≡\n"
        self.assertEqual(text_of(tokenized(text)), text)

    def test_kinds(self):
        kinds = [(token.text, token.kind) for token in tokenized("a' 'b 'c' \"d\" b\"e\" ≡")[:-1]]
        expected = [("a'", "word"), ("'b", "life"), ("'c'", "char"), ('"d"', "str"), ('b"e"', "str"), ("≡", "punct")]
        self.assertEqual(kinds, expected)
        quoted = [(token.text, token.kind) for token in tokenized("'\\'' '\\\\' '\\u{41}' b")[:-1]]
        self.assertEqual(quoted, [("'\\''", "char"), ("'\\\\'", "char"), ("'\\u{41}'", "char"), ("b", "word")])

    def test_lines(self):
        self.assertEqual([token.line for token in tokenized("a\n/*\n*/ b\n// c\nd")], [1, 3, 5, 5])

    def test_brackets(self):
        found = tokenized("{ ( [ ] ) } }")
        self.assertEqual(closing(found, 0), 5)
        self.assertEqual(closing_angle(tokenized("<A: Fn() -> B, C<D>> E"), 0), 14)


class Forms(unittest.TestCase):
    def test_clauses_of_a_public_function_are_its_contract(self):
        text = """\
/// Doubles.
pub fn double(n: u8) -> u16
    ensures value { result ≡
        2 * n }

    // A remark.
    ensures { result ≤ 510 }
{
    n + n
}
"""
        expected = """\
/// Doubles.
///
/// # Contract
///
/// ```text
/// ensures value: result ≡ 2 * n
/// // A remark.
/// ensures result ≤ 510
/// ```
pub fn double(n: u8) -> u16 {
    n + n
}"""
        self.assertEqual(rust(text), expected)

    def test_a_function_that_asks_for_something_is_seen_by_the_crate_alone(self):
        self.assertIn("/// requires 0 < n\n/// ```\npub(crate) fn f(n: u8) {", rust("pub fn f(n: u8) requires { 0 < n } { g(n); }"))
        self.assertEqual(rust("fn f(n: u8) requires { 0 < n } { g(n); }"), "fn f(n: u8) { g(n); }")

    def test_so_are_its_names(self):
        text = "pub use a::{f, g};\npub fn f(n: u8) requires { 0 < n } { h(n); }\npub fn g(n: u8) { h(n); }\n"
        self.assertIn("pub(crate) use a::f;\npub use a::g;", rust(text))

    def test_methods_of_a_public_trait_have_contracts(self):
        found = rust("pub trait T {\n    fn f(&self) -> u8\n        ensures { result ≡ 1 };\n}")
        self.assertEqual(found, "pub trait T {\n    /// # Contract\n    ///\n    /// ```text\n    /// ensures result ≡ 1\n    /// ```\n    fn f(&self) -> u8;\n}")

    def test_long_clauses_are_wrapped(self):
        found = rust(f"pub fn f() -> u8 ensures {{ {'word ' * 30}}} {{ 1 }}")
        self.assertTrue(all(len(line) < 100 for line in found.split("\n")))
        self.assertIn("\n///     word", found)

    def test_ghosts_go(self):
        text = """\
//! Head.
ghost use Rattle.std.specs.Prelude.{◌≡◌, ℕ};

trait T {
    // The count.
    ghost count: { Self → ℕ };

    fn f(&self) -> u8;
}

impl T for u8 {
    ghost use Rattle.x.{y};

    ghost count = { λ x. { x } };

    fn f(&self) -> u8 {
        1
    }
}
"""
        expected = "//! Head.\n\ntrait T {\n\n    fn f(&self) -> u8;\n}\n\nimpl T for u8 {\n\n    fn f(&self) -> u8 {\n        1\n    }\n}"
        self.assertEqual(rust(text), expected)

    def test_fields_beside_a_ghost_are_seen_by_the_crate_alone(self):
        found = rust("pub struct S<'a> {\n    pub items: &'a [u8],\n    pub ghost sorted: { P items } by { Prim.hlevel props },\n}")
        self.assertEqual("".join(found.split()), "pubstructS<'a>{pub(crate)items:&'a[u8],}")
        found = rust("pub struct S<'a> {\n    pub items: &'a [u8],\n    ghost sorted: { P items },\n    ghost some: { Q items },\n}")
        self.assertEqual(found, "pub struct S<'a> {\n    pub(crate) items: &'a [u8],\n}")

    def test_impls_of_models_go(self):
        self.assertEqual(rust("pub struct S;\n\n/// Seen.\nimpl<'a, T> Model for S {\n    ghost Value = { T };\n}\n"), "pub struct S;")

    def test_attributes(self):
        text = "#![tactic(auto)]\n#[derive(Clone, Drop, Debug)]\nstruct A;\n\n#[tactic(a, using(b))]\n#[inline(always)]\nfn f() -> u8 { 1 }"
        self.assertEqual(rust(text), "#[derive(Clone, Debug)]\nstruct A;\n\n#[inline(always)]\nfn f() -> u8 { 1 }")

    def test_exports_take_slices_as_c_passes_them(self):
        text = '/// Whether.\n#[unsafe(no_mangle)]\npub extern "C" fn proved_range_set_u32_is_all(a: &[u32]) -> bool ensures { p } { f(a) }'
        expected = """\
use crate::support::items_at;
/// Whether.
#[no_mangle]
pub unsafe extern "C" fn plain_range_set_u32_is_all(a: *const u32, a_len: usize) -> bool {
    let a = unsafe { items_at(a, a_len) }; f(a) }"""
        self.assertEqual(rust(text), expected)
        self.assertIn("#[repr(C)]\nstruct A;", rust("#[repr(C)]\nstruct A;"))

    def test_exports_take_no_allocator(self):
        head = '#[unsafe(no_mangle)]\npub extern "C" fn proved_range_map_i64_get(map: &mut MappedI64, alloc: Global, out: &mut [u8], key: i64,)'
        found = rust(f"{head}\n    requires {{ p }}\n{{ 1 }}")
        self.assertIn("fn plain_range_map_i64_get(map: &mut MappedI64, out: *mut u8, out_len: usize, key: i64) {", found)
        self.assertIn("let alloc = Global;\n    let out = unsafe { room_at(out, out_len) }; 1 }", found)

    def test_exports_are_laid_out_alone(self):
        found = rust('fn f() -> u8 { 1 }\n\n#[unsafe(no_mangle)]\npub extern "C" fn proved_range_set_u32_f(a: u32) -> u32 { a }')
        self.assertIn("fn f() -> u8 { 1 }\n\n#[no_mangle]\n", found)
        self.assertIn("fn plain_range_set_u32_f(a: u32) -> u32 { a }", found)

    def test_derive_where_is_written_out(self):
        found = rust("#[derive_where(Clone, Copy)]\nstruct S<'a, T>(&'a T);")
        self.assertIn("struct S<'a, T>(&'a T);", found)
        self.assertIn("impl<'a, T> Clone for S<'a, T> { #[inline(always)] fn clone(&self) -> Self { *self } }", found)
        self.assertIn("impl<'a, T> Copy for S<'a, T> {}", found)

    def test_structs_of_references_are_cloned(self):
        with mock.patch.multiple(tables, CLONED={FILE: {"S"}}):
            found = rust("struct S<'a, T> {\n    a: &'a [T],\n    b: Option<&'a T>,\n}\n\nstruct U<T> {\n    a: T,\n}")
        clone = "S { a: Clone::clone(&self.a), b: Clone::clone(&self.b) }"
        self.assertIn(f"impl<'a, T> Clone for S<'a, T> {{ #[inline] fn clone(&self) -> Self {{ {clone} }} }}", found)
        self.assertNotIn("for U", found)
        with mock.patch.multiple(tables, CLONED={FILE: {"S"}}):
            found = rust("struct S<'a, T: A> {\n    a: &'a [T],\n}")
        self.assertIn("impl<'a, T: A> Clone for S<'a, T> {", found)

    def test_bounds(self):
        self.assertEqual(rust("fn f<T: A + MadeWith<Global> + Drop, U: Drop>(x: T, y: U) {}"), "fn f<T: A, U>(x: T, y: U) {}")
        self.assertEqual(rust("fn f<T: Drop + A>(x: T) {}"), "fn f<T: A>(x: T) {}")
        self.assertEqual(rust("fn f<T>(x: T) where T: Drop, requires { p } {}"), "fn f<T>(x: T) {}")
        self.assertEqual(rust("fn f<T, U>(x: T) where T: Drop, U: A {}").replace("  ", " "), "fn f<T, U>(x: T) where U: A {}")
        self.assertEqual(rust("trait T<K>: Drop {\n}"), "trait T<K> {\n}")

    def test_laws_go_with_their_calls_and_imports(self):
        text = "use crate::laws::holds;\npub fn holds<K>() ensures { p } {}\npub fn f(n: u8) -> u8 {\n    holds::<u8>();\n    n\n}"
        found = rust(text)
        self.assertNotIn("holds", found)
        self.assertIn("fn f(n: u8) -> u8 {\n    n\n}", found)

    def test_hints_go_and_calls_that_do_nothing(self):
        text = "fn f(x: &[u8]) -> usize {\n    // `len` is called for its clause that the length is within usize, which the proof cites.\n    let _len = x.len();\n    x.known();\n    R::left_items_stay();\n    1\n}"
        self.assertEqual(rust(text), "fn f(x: &[u8]) -> usize {\n    1\n}")

    def test_a_block_before_a_call_that_does_nothing_stays(self):
        text = "fn f(x: &[u8]) -> usize {\n    if g() {\n        h();\n    }\n    x.known();\n    1\n}"
        self.assertEqual(rust(text), "fn f(x: &[u8]) -> usize {\n    if g() {\n        h();\n    }\n    1\n}")

    def test_a_name_that_a_method_has_too_stays(self):
        self.assertEqual(rust("fn f(known: u8) -> u8 {\n    known\n}"), "fn f(known: u8) -> u8 {\n    known\n}")

    def test_else_of_a_let(self):
        found = rust("fn f() -> u8 {\n    let Some(x) = g(1) else { return 2; };\n    x\n}")
        self.assertIn("let x = match g(1) { Some(x) => x, _ => return 2 };", found)
        found = rust("fn f() -> u8 {\n    let A::B(x) = g(1)? else { h(); return 2; };\n    x\n}")
        self.assertIn("let x = match g(1)? { A::B(x) => x, _ => { h(); return 2; } };", found)
        found = rust("fn f() -> u8 {\n    let Some((x, y)) = g(1) else { return 2; };\n    x\n}")
        self.assertIn("let (x, y) = match g(1) { Some((x, y)) => (x, y), _ => return 2 };", found)

    def test_formatters(self):
        text = "impl fmt::Display for S {\n    fn fmt<W: fmt::Write>(&self, f: &mut fmt::Formatter<W>) -> fmt::Result {\n        g(self, f)\n    }\n}\nfn g<T, W: fmt::Write>(x: &T, f: &mut fmt::Formatter<W>) -> fmt::Result { h(x, f) }"
        found = rust(text)
        self.assertIn("fn fmt(&self, f: &mut fmt::Formatter<'_>)", found)
        self.assertIn("fn g<T>(x: &T, f: &mut fmt::Formatter<'_>)", found)

    def test_clones(self):
        copied = "impl Clone for A {\n    fn clone(&self) -> Result<Self, AllocError> {\n        Ok(*self)\n    }\n}"
        self.assertEqual("".join(rust(copied).split()), "implCloneforA{fnclone(&self)->Self{*self}}")
        refused = "struct B;\nimpl Clone for B {\n    fn clone(&self) -> Result<Self, AllocError> {\n        B::clone(self)\n    }\n}"
        self.assertEqual(rust(refused), "struct B;")
        self.assertIn("fn try_clone(&self)", rust("impl B {\n    pub fn clone(&self) -> Result<B, E> { g(self) }\n}"))
        self.assertIn("b.try_clone()?", rust("fn g(b: &B) -> Result<B, E> { Ok(b.clone()?) }"))

    def test_traits_that_give_themselves_have_a_size(self):
        self.assertTrue(rust("trait T: Ord {\n    fn f() -> Result<Self, E>;\n}").startswith("trait T: Ord + Sized {"))
        self.assertTrue(rust("trait T {\n    fn f() -> Self;\n}").startswith("trait T: Sized {"))
        self.assertTrue(rust("trait T: Copy {\n    fn f() -> Self;\n}").startswith("trait T: Copy {"))

    def test_imports(self):
        text = "use crate::a::B;\nuse range_entry::C;\nuse std::alloc::{AllocError, Global};\nuse std::marker::{Model, PhantomData};\nuse std::fmt;\nfn f(b: B, c: C, g: Global) -> Result<Vec<PhantomData<u8>>, AllocError> { fmt(b) }"
        uses = [line for line in rust(text).split("\n") if line.startswith("use")]
        expected = [
            "use core::fmt;",
            "use core::marker::PhantomData;",
            "use crate::generated::range_entry::C;",
            "use crate::generated::range_merge::a::B;",
            "use crate::support::{AllocError, Global, Vec};",
        ]
        self.assertEqual(uses, expected)

    def test_names_of_clauses_alone_are_not_imported(self):
        self.assertNotIn("use", rust("use crate::a::B;\npub fn f() -> u8 ensures { B } { 1 }"))
        self.assertIn("use", rust("use crate::a::B;\npub fn f() -> u8 ensures { C } { 1 }"))

    def test_methods_of_another_name(self):
        found = rust("fn f(x: &mut [u8], alloc: Global) -> Result<(), E> { x.sort(alloc) }")
        self.assertIn("use crate::support::SortIn;", found)
        self.assertIn("x.sort_in(alloc)", found)

    def test_modules_are_seen_by_the_crate(self):
        self.assertEqual(rust("mod a;\npub mod b;\npub(crate) mod c;"), "pub(crate) mod a;\npub mod b;\npub(crate) mod c;")

    def test_what_the_tables_name_is_left_out_or_shown(self):
        text = "struct S {\n    inner: u8,\n}\n\n/// Gone.\nfn f() -> u8 {\n    1\n}\n"
        with mock.patch.multiple(tables, ITEMS_LEFT_OUT={FILE: {"fn f"}}, SHOWN={FILE: {"inner"}}, LEFT_OUT=set()):
            self.assertEqual(rust_of({FILE: text})[FILE].strip(), "struct S {\n    pub(crate) inner: u8,\n}")


    def test_what_nothing_calls_goes(self):
        text = "impl A {\n    fn f(&self) -> u8 { 1 }\n\n    fn g(&self) -> u8 { 2 }\n}\n\nimpl B {\n    fn f(&self) -> u8 { 3 }\n}\n\nfn h() -> u8 { 4 }\n"
        found = rust(text, UNCALLED={FILE: {"B::f", "A::g", "fn h"}})
        self.assertEqual([digit for digit in "1234" if f"{{ {digit} }}" in found], ["1"])
        self.assertNotIn("impl B", found)
        with mock.patch.multiple(tables, ITEMS_LEFT_OUT={}, SHOWN={}, LEFT_OUT=set(), UNCALLED={FILE: {"fn h"}}):
            other = "pub use crate::sample::{A, h};\nfn f(a: A) -> u8 { a.g }\n"
            found = rust_of({FILE: text, "range_merge/other": other})["range_merge/other"]
        self.assertIn("pub use crate::generated::range_merge::sample::A;", found)

    def test_fields_of_clauses_go(self):
        text = "pub struct A {\n    pub a: u8,\n    pub b: [u8; 2],\n}\nfn f(a: u8, b: u8) -> A {\n    A { a, b: [b, (1, 2).0] }\n}\n"
        found = rust(text, FIELDS_LEFT_OUT={FILE: {"b"}})
        self.assertIn("pub struct A {\n    pub a: u8,\n}", found)
        self.assertIn("A { a }", found)

    def test_a_trait_has_its_message(self):
        found = rust("/// Copies.\npub trait A: Ord {\n    fn a(&self) -> u8;\n}\n", MESSAGES={FILE: {"A": ("no `A`", "say so")}})
        attribute = '#[cfg_attr(range_sets_messages, diagnostic::on_unimplemented(message = "no `A`", note = "say so"))]'
        self.assertEqual(found.split("\n")[:3], ["/// Copies.", attribute, "pub trait A: Ord {"])
        with self.assertRaises(Failed):
            rust("struct A;", MESSAGES={FILE: {"A": ("", "")}})

    def test_an_enum_that_may_grow_says_so(self):
        found = rust("/// Why.\n#[derive(Debug)]\npub enum A {\n    B,\n}\n", GROWING={FILE: {"A"}})
        self.assertEqual(found.split("\n")[:4], ["/// Why.", "#[derive(Debug)]", "#[non_exhaustive]", "pub enum A {"])
        with self.assertRaises(Failed):
            rust("enum B { C }", GROWING={FILE: {"A"}})

    def test_of_some_files_the_tables_name_what_is_written(self):
        text = "use crate::a::B;\ntrait A {\n    fn f(b: B);\n}\nimpl A for u8 {\n    fn f(b: B) { g(b); }\n}\n"
        with mock.patch.dict(tables.ITEMS_KEPT, {FILE: {"trait A"}}):
            found = rust(text)
            self.assertIn("trait A {\n    fn f(b: B);\n}", found)
            self.assertNotIn("impl", found)
            with self.assertRaises(Failed):
                rust("struct A;")


class Refusals(unittest.TestCase):
    """Forms that aren't known: each is an error with its file and line."""

    def refused(self, text, line, why):
        with self.assertRaises(Failed) as caught:
            rust(text)
        self.assertEqual(str(caught.exception), f"crates/range_merge/src/sample.rt:{line}: {why}")

    def test_clauses(self):
        self.refused("fn f()\n    requires good;", 2, "requires without a clause in braces")
        self.refused("ensures { p }\nfn f() -> u8 { 1 }", 1, "ensures of no function")
        self.refused("fn f() -> u8 {\n    a.requires\n}", 2, "requires as a name")

    def test_ghosts(self):
        self.refused("\nghost fn f() {}", 2, "a ghost that is none of use, name: and name =: fn")
        self.refused("pub ghost fn f() {}", 1, "a public ghost that is no field")
        self.refused("struct A {\n    pub ghost b: { p },\n    pub c: u8,\n}", 2, "a ghost before other fields")

    def test_attributes(self):
        self.refused("fn f() -> u8 { 1 }\n#[cfg(test)]\nmod a;", 2, "the attribute cfg isn't known")
        self.refused("#[derive(Clone, Model)]\nstruct A;", 1, "a derive of Model isn't known")
        self.refused("#[derive_where(Debug)]\nstruct A<T>(T);", 1, "a derive_where of others than Clone and Copy")

    def test_exports(self):
        self.refused('\n#[unsafe(link_section)]\npub extern "C" fn f() {}', 2, "an unsafe attribute other than no_mangle")
        self.refused("#[unsafe(no_mangle)]\npub fn f() {}", 2, 'no_mangle before something else than pub extern "C" fn')
        why = "the export range_set_u8_f has a name of another form than proved_range_set_i64_call"
        self.refused('#[unsafe(no_mangle)]\npub extern "C" fn range_set_u8_f() {}', 2, why)
        why = "an export with a parameter of the type &str"
        self.refused('#[unsafe(no_mangle)]\npub extern "C" fn proved_range_set_u8_f(a: &str) -> u8 { 1 }', 2, why)

    def test_bounds(self):
        self.refused("\n\nfn f(x: Box<dyn A, Drop>) {}", 3, "Drop as something else than a bound")

    def test_items(self):
        self.refused("extern crate alloc;", 1, "an item that begins with extern")
        self.refused("struct A;\nmacro_rules! a { () => {} }", 2, "an item that begins with macro_rules")

    def test_code(self):
        self.refused("fn f() -> u8 {\n    unsafe { g() }\n}", 2, "unsafe isn't known")
        self.refused('fn f() -> u8 {\n    println!("a")\n}', 2, "the macro println! isn't known")
        self.refused("fn f() -> Vec<u8> {\n    vec![1]\n}", 2, "the macro vec! isn't known")
        self.refused("fn f(x: &[u8]) -> u8 {\n    x.select_nth(3)\n}", 2, "the method select_nth isn't known")
        self.refused("fn f(x: &[u8]) -> u8 {\n    x.sum::<u8>()\n}", 2, "the method sum isn't known")
        self.refused("fn f(x: u8) -> u8 {\n    let (a, b) = g(x) else { return 1; };\n    a\n}", 2, "an else of another form than let Name(name) = value else { .. };")
        self.refused("fn f() -> u8 {\n    let Some(Some(x)) = g() else { return 1; };\n    x\n}", 2, "an else of another form than let Name(name) = value else { .. };")
        self.refused("fn f(x: u8) -> u8 {\n    let y = x.known() + 1;\n    y\n}", 2, "known as something else than a statement of its own")
        self.refused("fn f(x: u8) -> u8 {\n    // It is called for its clause, which the proof cites.\n    g(x)\n}", 3, "'which the proof cites.' before something else than let _name")

    def test_paths(self):
        self.refused("use std::sync::Mutex;\nfn f(x: Mutex) {}", 1, "std::sync::Mutex isn't known")
        for root in ("std", "crate", "smallvec", "range_entry"):
            self.refused(f"fn f(x: u8) -> u8 {{\n    {root}::a::g(x)\n}}", 2, f"a path from {root} outside of a use")
        self.refused("use crate::a::*;", 1, "* in a use")
        self.refused("use crate::a::B as C;\nfn f(x: C) {}", 1, "as in a use")

    def test_brackets(self):
        self.refused("fn f() -> u8 {\n    (1\n}", 3, "a } that closes nothing")
        self.refused("fn f() -> u8 {\n    1\n", 1, "nothing closes this {")
        self.refused("fn f<T(x: T) {}\n#[derive_where(Clone, Copy)]\nstruct A<T;", 3, "nothing closes this <")

    def test_texts(self):
        self.refused('\nconst A: &str = "b;', 2, "a string without an end")
        self.refused("\n\n/* a", 3, "a comment without an end")

    def test_tables(self):
        with mock.patch.multiple(tables, ITEMS_LEFT_OUT={FILE: {"fn g"}}, SHOWN={}, LEFT_OUT=set()):
            with self.assertRaises(Failed) as caught:
                rust_of({FILE: "fn f(n: u8) -> u8 { n }"})
        self.assertTrue(str(caught.exception).endswith("the tables name what isn't there: fn g"))
        for names in ({"FIELDS_LEFT_OUT": {FILE: {"S"}}}, {"UNCALLED": {FILE: {"S"}}}):
            with self.assertRaises(Failed) as caught:
                rust("fn f(n: u8) -> u8 { n }", **names)
            self.assertTrue(str(caught.exception).endswith("the tables name what isn't there: S"))
        with mock.patch.multiple(tables, CLONED={FILE: {"S"}}):
            with self.assertRaises(Failed) as caught:
                rust_of({FILE: "fn f(n: u8) -> u8 { n }"})
        self.assertTrue(str(caught.exception).endswith("the tables name what isn't there: S"))


class Writing(unittest.TestCase):
    """A folder is compared with what would be written there."""

    def setUp(self):
        folder = tempfile.TemporaryDirectory()
        self.addCleanup(folder.cleanup)
        self.root = Path(folder.name)
        source = self.root / "crates" / "range_merge" / "src"
        source.mkdir(parents=True)
        (source / "lib.rt").write_text("mod a;\npub use a::f;\n", encoding="utf-8")
        (source / "a.rt").write_text("use std::mem;\nuse std::fmt;\npub fn f(x: mem::A, y: fmt::B) -> u8 { g(x, y) }\n", encoding="utf-8")
        names = {"ITEMS_LEFT_OUT": {}, "SHOWN": {}, "LEFT_OUT": set(), "CRATES": ("range_merge",)}
        patched = mock.patch.multiple(tables, **names)
        patched.start()
        self.addCleanup(patched.stop)

    def without_rustfmt(self):
        return mock.patch.object(writing, "rustfmt", lambda: None)

    def written(self):
        folder = self.root / "out"
        writing.put(folder, writing.files_of(self.root / "crates"))
        return folder

    def test_a_file_for_each_crate(self):
        files = writing.files_of(self.root / "crates")
        self.assertEqual(sorted(files), ["mod.rs", "range_merge.rs"])
        self.assertIn("#[forbid(unsafe_code)]\npub mod range_merge;\n", files["mod.rs"])
        self.assertEqual(files["range_merge.rs"], """\
// @generated by tools/plain-rust, from crates/range_merge/src. Not edited by hand.
// From crates/range_merge/src/lib.rt.
pub use a::f;

pub(crate) mod a {
// From crates/range_merge/src/a.rt.
use core::{fmt, mem};
pub fn f(x: mem::A, y: fmt::B) -> u8 { g(x, y) }
}
""")

    def test_modules_stand_below_with_their_comments(self):
        source = self.root / "crates" / "range_merge" / "src"
        (source / "lib.rt").write_text("//! A.\n\n// First.\n// Second.\nmod a;\n\npub struct S;\n", encoding="utf-8")
        (source / "a.rt").write_text("mod b;\npub fn g() -> u8 { 1 }\n", encoding="utf-8")
        (source / "a").mkdir()
        (source / "a" / "b.rt").write_text("pub fn h() -> u8 { 2 }\n", encoding="utf-8")
        text = writing.files_of(self.root / "crates")["range_merge.rs"]
        told = ["//! A.", "struct S", "// First.\n// Second.\npub(crate) mod a {", "src/a.rt.", "fn g", "pub(crate) mod b {", "src/a/b.rt.", "fn h"]
        self.assertEqual(sorted(told, key=text.index), told)

    def test_a_crate_with_a_feature(self):
        with mock.patch.multiple(tables, FEATURES={"range_merge": "merging"}):
            self.assertIn('#[cfg(feature = "merging")]\n#[forbid(unsafe_code)]\npub mod range_merge;\n', writing.files_of(self.root / "crates")["mod.rs"])
        self.assertNotIn("#[cfg(", writing.files_of(self.root / "crates")["mod.rs"])

    def test_a_crate_with_unsafe_code(self):
        with mock.patch.multiple(tables, UNSAFE={"range_merge"}):
            self.assertIn("#[allow(unsafe_code)]\npub mod range_merge;\n", writing.files_of(self.root / "crates")["mod.rs"])

    def test_wide_paragraphs_are_laid_out_anew(self):
        block = "    /// ```text\n    /// requires a b c\n    ///     d\n    /// ```\n"
        text = "//! a b\n//! c\n\n    /// a b c d e\n    /// f g\n    ///\n    /// # Contract\n    ///\n" + block
        self.assertEqual(writing.narrowed(text, 14), text.replace("a b c d e\n    /// f g", "a b c\n    /// d e f\n    /// g"))
        self.assertEqual(writing.narrowed(text, 17), text)

    def test_a_layout_makes_no_difference_without_rustfmt(self):
        file = self.written() / "range_merge.rs"
        text = file.read_text(encoding="utf-8").replace("{fmt, mem}", "{mem, fmt}")
        file.write_text(text.replace("{ g(x, y) }", "{\n    g(\n        x,\n        y,\n    )\n}"), encoding="utf-8")
        with self.without_rustfmt():
            self.assertEqual(writing.differences(self.root / "crates", file.parent), ([], False))

    def test_differences(self):
        folder = self.written()
        file = folder / "range_merge.rs"
        file.write_text(file.read_text(encoding="utf-8").replace("g(x, y)", "g(y, x)"), encoding="utf-8")
        (folder / "mod.rs").unlink()
        (folder / "range_merge").mkdir()
        (folder / "range_merge" / "b.rs").write_text("", encoding="utf-8")
        with self.without_rustfmt():
            found, _ = writing.differences(self.root / "crates", folder)
        self.assertEqual(found, ["range_merge/b.rs isn't written by this script", "mod.rs is missing", "range_merge.rs differs"])

    def differs(self, old, new):
        file = self.written() / "range_merge.rs"
        text = file.read_text(encoding="utf-8")
        self.assertIn(old, text)
        file.write_text(text.replace(old, new), encoding="utf-8")
        with self.without_rustfmt():
            self.assertEqual(writing.differences(self.root / "crates", file.parent)[0], ["range_merge.rs differs"])

    def test_who_sees_an_import_makes_a_difference_without_rustfmt(self):
        self.differs("pub use a::f;", "pub(crate) use a::f;")

    def test_which_module_has_an_import_makes_a_difference_without_rustfmt(self):
        self.differs("pub use a::f;\n\npub(crate) mod a {", "pub(crate) mod a {\npub use a::f;")

    @unittest.skipIf(writing.rustfmt() is None, f"{tables.RUSTFMT} isn't there")
    def test_layouts_are_compared_with_rustfmt(self):
        folder = self.root / "out"
        writing.put(folder, {"range_merge/gone.rs": ""})
        writing.write(self.root / "crates", folder)
        self.assertEqual(writing.differences(self.root / "crates", folder), ([], True))
        file = folder / "range_merge.rs"
        file.write_text(file.read_text(encoding="utf-8").replace("    g(x, y)", "  g(x, y)"), encoding="utf-8")
        self.assertEqual(writing.differences(self.root / "crates", folder)[0], ["range_merge.rs differs"])


if __name__ == "__main__":
    unittest.main()
