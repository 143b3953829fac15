"""Tests of `tools/bodies.py` and of the modules that it uses: `python3 -m unittest discover -s tools/tests`.

`PLANTED` are changes of the real tree in one place, which are made in memory, and `HARMLESS` changes that have no
meaning. Those of a group are made at once.
"""

import contextlib
import io
import re
import sys
import tempfile
import unittest
from pathlib import Path
from unittest import mock

sys.path.insert(0, str(Path(__file__).resolve().parent.parent))

import bodies
import proved_table
import rattle
import translation
from departures import Listed
from entries import entries_of, inherent_functions, joined, normal, normal_body
from planted import HARMLESS, PLANTED

ROOT = Path(__file__).resolve().parent.parent.parent


def item(text):
    """The only item in a text."""
    items = rattle.file_of(text, "text").items
    assert len(items) == 1, items
    return items[0]


def text_of(tokens):
    return " ".join(token.text for token in tokens)


def entries(text):
    """The entries of a text by name. Entries with one name have to be equal."""
    found = {}
    for entry in entries_of(rattle.file_of(text, "text")):
        assert found.setdefault(entry.name, entry).text() == entry.text(), entry
    return found


class Tokens(unittest.TestCase):
    def test_kinds(self):
        text = """'a' 'name b"x\\"y" b'\\n' r#"a "b" c"# 0xff_u8 1_000 r#type <= ..= a::b // gone"""
        kinds = [(token.kind, token.text) for token in rattle.tokens_of(text)]
        self.assertEqual(kinds[:5], [
            ("character", "'a'"), ("lifetime", "'name"), ("string", 'b"x\\"y"'), ("character", "b'\\n'"),
            ("string", 'r#"a "b" c"#'),
        ])
        self.assertEqual([text for _, text in kinds[5:]], ["0xff_u8", "1_000", "r#type", "<=", "..=", "a", "::", "b"])

    def test_two_references_are_no_and(self):
        texts = [[token.text for token in rattle.tokens_of(text)] for text in ("a && b", "a & &b")]
        self.assertEqual(texts, [["a", "&&", "b"], ["a", "&", "&", "b"]])

    def test_lines(self):
        lines = [token.line for token in rattle.tokens_of('a\n// b\n"c\nd" /* e\n */ f')]
        self.assertEqual(lines, [1, 3, 5])

    def test_text_has_one_space_for_any(self):
        self.assertEqual(rattle.text_of(rattle.tokens_of("  f(a,\n\n   b) // c\n  ")), "f(a, b)")

    def test_split_outside_brackets(self):
        parts = rattle.split(rattle.tokens_of("a: Map<B, C>, d: (E, F), g: fn(H, I) -> J,"))
        self.assertEqual(len(parts), 3)


class Items(unittest.TestCase):
    def test_function_of_rattle(self):
        found = item(
            "/// Docs.\n#[inline]\npub(crate) final fn f<const N: usize, G: Rng<N>>(g: &mut G) -> [u8; N]\n"
            "where\n    G: Drop,\n    requires some { 1 ≤ N }\n    ensures { result ≡ block g.old }\n{ g.rand() }"
        )
        self.assertEqual((found.name, found.line, found.docs), ("f", 3, [" Docs."]))
        self.assertEqual(text_of(found.visibility), "pub ( crate )")
        self.assertEqual([text_of(part) for part in found.generics], ["const N : usize", "G : Rng < N >"])
        self.assertEqual([(clause.name, clause.text) for clause in found.requires], [("some", "1 ≤ N")])
        self.assertEqual([clause.text for clause in found.ensures], ["result ≡ block g.old"])
        self.assertEqual(text_of(found.conditions[0]), "G : Drop")
        self.assertEqual(text_of(found.body), "g . rand ( )")

    def test_ghosts(self):
        items = rattle.file_of("ghost use A.{◌≡◌, b'};\n\nimpl M for T { ghost v = { λ g. g.a }; }", "text").items
        self.assertIsInstance(items[0], rattle.Ghost)
        self.assertIsInstance(items[1].items[0], rattle.Ghost)

    def test_uses(self):
        use = item("pub use a::{self, b::{C, D as E}, f::*};")
        found = [(path.text, path.name) for path in use.paths]
        self.assertEqual(found, [("a", "a"), ("a::b::C", "C"), ("a::b::D", "E"), ("a::f::*", "*")])

    def test_data(self):
        found = item("#[derive(A)]\npub struct S<'a, T>\nwhere\n    T: A,\n{\n    pub a: &'a T,\n    b: Map<T, T>,\n}")
        self.assertEqual((found.kind, found.name, len(found.parts), len(found.conditions)), ("record", "S", 2, 1))
        self.assertEqual(item("struct S(pub u8, u8);").kind, "tuple")
        self.assertEqual(item("struct S;").kind, "unit")
        found = item("enum E {\n    #[error(\"a\")]\n    A(u8),\n    /// B.\n    B { c: u8 } = 1 << 3,\n}")
        self.assertEqual([part.tokens[0].text for part in found.parts], ["A", "B"])
        self.assertEqual((found.parts[1].docs, found.parts[1].line), ([" B."], 5))

    def test_rust(self):
        texts = {
            "macro_rules! m { ($a:expr) => { $a + 1 }; }": rattle.Other,
            "m! { 1 2 }": rattle.Other,
            "m!(1, 2);": rattle.Other,
            "extern crate std;": rattle.Other,
            "extern \"C\" { fn f(); }": rattle.Other,
            "extern \"C\" fn f() {}": rattle.Function,
            "pub const unsafe fn f() {}": rattle.Function,
            "const _: () = assert!(1 << 2 > 3);": rattle.Constant,
            "static mut A: [u8; 2] = [1, 2];": rattle.Constant,
            "unsafe impl<T> Send for S<T> where T: Send {}": rattle.Implementation,
            "#[cfg(test)] mod tests { use super::*; #[test] fn f() {} }": rattle.Module,
            "pub(in crate::a) type T<'a> = Vec<&'a u8>;": rattle.Alias,
            "union U { a: u8, b: Pair<u8, u8> }": rattle.Data,
        }
        for text, kind in texts.items():
            with self.subTest(text):
                self.assertIsInstance(item(text), kind)

    def test_associated_items(self):
        found = item("pub trait T<A>: B + C<A> { type I: D; const N: u8 = 1; fn f(self) -> u8; fn g(&self) {} }")
        self.assertEqual([text_of(bound) for bound in found.bounds], ["B", "C < A >"])
        self.assertEqual([type(inner).__name__ for inner in found.items], ["Alias", "Constant", "Function", "Function"])
        self.assertIsNone(found.items[2].body)
        self.assertEqual(found.items[3].body, ())

    def test_places(self):
        text = (
            "//! A.\n\n// B.\n/// C.\n#[inline]\npub fn f(a: u8)\n    ensures { a ≡ '}' } { { a } } // D.\n\n"
            "impl<T> S<T> {\n    // E.\n    const F: [u8; 1] = [{ 1 }];\n\n    ghost use G.{h};\n}\nstruct I;\n"
        )
        found = rattle.file_of(text, "text").items
        inner = found[1].members()
        comments = [one.comment() for one in (*found, *inner)]
        self.assertEqual(comments, ["// B.\n/// C.\n", "// D.\n", "", "    // E.\n", ""])
        heads = [one.code(one.brace) for one in (*found, *inner)]
        self.assertEqual(heads, [
            "pub fn f(a: u8)\n    ensures { a ≡ '}' }", "impl<T> S<T>", "struct I;",
            "    const F: [u8; 1] = [{ 1 }];", "    ghost use G.{h};",
        ])
        self.assertEqual(text[found[0].brace : found[0].end], "{ { a } }")
        self.assertEqual([one.is_public for one in found], [True, False, False])
        self.assertEqual([one.word for one in (*found, *inner)], ["fn", "impl", "struct", "const", "ghost use"])

    def test_names(self):
        found = item(
            "#[derive(A, b::C)] #[repr(C)] struct S<'a> { pub a: Map<u8, [T; 2]>, pub(crate) b: &'a u8, c: u8 }"
        )
        fields = [(*rattle.name_and_type(part.tokens), part.is_public) for part in found.parts]
        self.assertEqual(fields, [("a", "Map<u8, [T; 2]>", True), ("b", "&'a u8", False), ("c", "u8", False)])
        self.assertEqual([rattle.text_of(name) for name in rattle.derives_of(found.attributes)], ["A", "b::C"])
        self.assertTrue(rattle.is_laid_out_as_in_c(found))
        heads = {"impl<T> A<T> for b::C<D<T>, 2> {}": "impl A for b::C", "impl F<fn(u8) -> u8> {}": "impl F"}
        self.assertEqual({text: item(text).name for text in heads}, heads)

    def test_exports(self):
        export = '#[unsafe(no_mangle)] pub extern "C" fn f() {}'
        items = rattle.file_of(f"{export} #[no_mangle] fn g() {{}} #[inline] fn h() {{}}", "text").items
        self.assertEqual([one.name for one in rattle.exports_of(items)], ["f", "g"])

    def test_what_is_not_understood(self):
        for text in ("fn f() { (] }", "what is this", "fn f(", "struct", "#[inline]", "#[] fn f() {}", "use a::{b;",
                     "use a::b};", "enum E { A,, }", "impl A {", "fn f() {}}", "#![] fn f() {}", "use ;", "const A"):
            with self.subTest(text), self.assertRaisesRegex(rattle.Unreadable, "^text:1: "):
                rattle.file_of(text, "text")

    def test_every_file_of_the_repository_is_read(self):
        paths = [*ROOT.glob("crates/*/src/**/*.rt"), *ROOT.glob("rust/**/*.rs")]
        count = sum(len(rattle.file_of(path.read_text(), str(path)).items) for path in paths if path.is_file())
        self.assertGreater(count, 4000)


class Normal(unittest.TestCase):
    """What has no meaning, and what only looks as if it had none."""

    def same(self, first, second, form=normal_body):
        return text_of(form(rattle.tokens_of(first))) == text_of(form(rattle.tokens_of(second)))

    def test_what_is_the_same(self):
        for first, second in (
            ("f(a,\n b,)", "f(a, b)"), ("[a, b,]", "[a, b]"), ("S { a, b, }", "S { a, b }"), ("f::<T,>()", "f::<T>()"),
            ("match a { A => { b } C => d, }", "match a { A => b, C => d }"),
            ("match a { A => { b; }, C => d }", "match a { A => { b; } C => d }"),
            ("'a: loop { b }", "loop { b }"), ("#[allow(x)] a", "a"), ("f(a /* b */)", "f(a)"),
        ):
            with self.subTest(first):
                self.assertTrue(self.same(first, second))

    def test_what_is_not_the_same(self):
        for first, second in (
            ("(a,)", "(a)"), ("x = (a,)", "x = (a)"), ("return (a,)", "return (a)"),
            ("'a: loop { break 'a }", "loop { break 'a }"), ("'a: loop { break 'a }", "'b: loop { break 'b }"),
            ("#[cfg(x)] a", "a"), ("match a { A => { b; } }", "match a { A => b }"), ("a & &b", "a && b"),
            ("{ a; }", "{ a }"), ("1u8", "1u16"), ('"a b"', '"a  b"'),
        ):
            with self.subTest(first):
                self.assertFalse(self.same(first, second))

    def test_a_lifetime_with_bounds_is_no_label(self):
        self.assertFalse(self.same("'a: 'b, T", "'b, T", normal))

    def test_attributes_of_entries(self):
        first = entries("#[inline(always)] #[must_use] #[cfg_attr(x, diagnostic::y(z))] #[cfg(b)] fn f() {}")
        second = entries("#[cfg(b)]\n#[cold]\nfn f() {}")
        self.assertEqual(first["fn f"].text(), second["fn f"].text())
        self.assertNotEqual(first["fn f"].text(), entries("#[cfg_attr(x, inline, no_mangle)] fn f() {}")["fn f"].text())

    def test_entries_of_one_head_are_one(self):
        found = entries("impl A for B { fn f() {} } impl A for B { fn g() {} } impl A for C { fn f() {} }")
        names = ["impl A for B", "impl A for B: fn f", "impl A for B: fn g", "impl A for C", "impl A for C: fn f"]
        self.assertEqual(list(found), names)

    def test_names_of_implementations(self):
        found = entries("impl<'a, T: B>\n    From<&'a [T; 2]> for S<'a, (T, u8)>\n{\n}")
        self.assertEqual(list(found), ["impl From<&'a [T; 2]> for S<'a, (T, u8)>"])

    def test_methods_of_types(self):
        text = (
            "impl<T: A<B>> S<T> { pub fn f(&self) {} } impl A for S { fn g() {} } impl B { const fn h() {} }"
            " macro_rules! m { ($t:ty) => { impl $t { fn i() { j() } } impl<'a> X for $t { fn k() {} } } }"
        )
        found = [name for name, _, _ in inherent_functions(text)]
        self.assertEqual(found, ["impl S<T>: fn f", "impl B: fn h", "impl $ t: fn i"])


class Rules(unittest.TestCase):
    """Each rule of the translation, and what it leaves unchanged."""

    CHECKS = {"1 ≤ n": joined(rattle.tokens_of("assert!(1 <= n);")), "F.IsCallable f": ""}

    def rust(self, text, module="crate::a", without_std=False):
        crates = {"nanorand_core": "crate", "nanorand": "nanorand_proved"}
        setting = translation.Setting(module, crates, without_std, self.CHECKS)
        return translation.in_rust(entries_of(rattle.file_of(text, "text")), setting)

    def becomes(self, rattle_text, rust_text, **setting):
        found = {entry.name: entry.text() for entry in self.rust(rattle_text, **setting)}
        self.assertEqual(found, {name: entry.text() for name, entry in entries(rust_text).items()})

    def stays(self, text):
        self.becomes(text, text)

    def test_contracts(self):
        self.becomes("fn f(n: u8) requires { 1 ≤ n } ensures { result ≡ n } { n }", "fn f(n: u8) { n }")
        self.becomes("ghost use A.B; impl Model for S { ghost v = { λ s. s }; } mod laws; mod other;", "mod other;")

    def test_preconditions(self):
        self.becomes("pub fn f(n: u8) requires { 1 ≤ n } { n }", "pub fn f(n: u8) { assert!(1 <= n); n }")
        self.becomes("pub(crate) fn f(n: u8) requires { 1 ≤ n } { n }", "pub(crate) fn f(n: u8) { n }")
        self.becomes("pub fn f(f: F) requires { F.IsCallable f } { f() }", "pub fn f(f: F) { f() }")
        self.becomes(
            "pub trait T { fn f(n: u8) requires { 1 ≤ n } { n } }", "pub trait T { fn f(n: u8) { assert!(1 <= n); n } }"
        )
        for text in ("pub fn f() requires { 2 ≤ n } {}", "pub trait T { fn f(n: u8) requires { 1 ≤ n }; }"):
            with self.assertRaises(rattle.Unreadable):
                self.rust(text)

    def test_allocators(self):
        self.becomes(
            "fn f<'a, A: Allocator, T>(alloc: &'a A, t: &[T]) -> Result<Vec<u8, &'a A>, AllocError>"
            " { let v = Vec::new(alloc); g(&alloc, t, h(alloc))?; Ok(v) }",
            "fn f<T>(t: &[T]) -> Result<Vec<u8>, std::collections::TryReserveError>"
            " { let v = Vec::new(); g(t, h())?; Ok(v) }",
        )
        self.becomes("fn f<A: Allocator>(t: T, alloc: &A) { g(t, alloc, 1); h(t, &alloc); i(&alloc) }",
                     "fn f(t: T) { g(t, 1); h(t); i() }")
        self.becomes("struct S<A: Allocator> { a: Vec<u8, A>, b: String<A> }", "struct S { a: Vec<u8>, b: String }")
        self.stays("fn f(alloc: u8) { g(other, alloc) }".replace("alloc: u8", "alloc_size: u8"))
        self.stays("fn f() { g(alloc, x) }")

    def test_growth(self):
        self.becomes(
            "fn f() { let mut v = Vec::new(); v.push(x)?; t.push('\\n')?; t.push_str(s)?; v.extend_from_slice(x)?; }",
            "fn f() { let mut v = Vec::new(); v.try_reserve(1)?; v.push(x); t.try_reserve(1)?; t.push('\\n');"
            " t.try_reserve(s.len())?; t.push_str(s); v.try_reserve(x.len())?; v.extend_from_slice(x); }",
        )
        for text in (
            "t.push(x)?", "t.push('é')?", "v.push_str(f())?", "self.v.push(x)?", "v.push(x)", "let a = v.push(x)?",
        ):
            with self.subTest(text):
                self.stays(f"fn f() {{ {text}; }}")

    def test_clones(self):
        self.becomes(
            "impl<T: Clone + Drop> Clone for S<T> { fn clone(&self) -> Result<Self, AllocError>"
            " { Ok(S { a: self.a.clone()?, b: g()? }) } }",
            "impl<T: Clone> Clone for S<T> { fn clone(&self) -> Self { S { a: self.a.clone(), b: g()? } } }",
        )
        for body in ("g(self)", "Ok(a); Ok(b)", "Ok(a).map(b)"):
            with self.subTest(body), self.assertRaises(rattle.Unreadable):
                self.rust(f"impl Clone for S {{ fn clone(&self) -> Result<Self, AllocError> {{ {body} }} }}")

    def test_errors(self):
        self.becomes(
            '#[derive(Clone, Drop, Error)] #[error("a")] pub struct E;',
            '#[derive(Clone)] pub struct E; impl core::fmt::Display for E { fn fmt(&self, f:'
            " &mut core::fmt::Formatter<'_>) -> core::fmt::Result { f.write_str(\"a\") } }"
            ' #[cfg(feature = "std")] impl std::error::Error for E {}',
            without_std=True,
        )
        body = self.rust('enum E { #[error("a")] A, #[error("b {0}")] B(u8), #[error("{c}")] C { c: u8 } }')[2].text()
        self.assertIn('E :: A => f . write_str ( "a" )', body)
        self.assertIn(r'E :: B ( field ) => write ! ( f , "b\x20{field}" )', body)
        self.assertIn('E :: C { c } => write ! ( f , "{c}" )', body)
        for line in ('#[error("a", b)]', "#[error(a)]", "#[error]"):
            with self.subTest(line), self.assertRaises(rattle.Unreadable):
                self.rust(f"{line} struct E;")

    def test_refused_memory(self):
        refused = "std::collections::TryReserveError"
        for text in ("impl From<AllocError> for E { fn from(_e: AllocError) -> E { E } }",
                     "impl<T: Drop> From<AllocFailed<T>> for E { fn from(_e: AllocFailed<T>) -> E { E } }"):
            self.becomes(text, f"impl From<{refused}> for E {{ fn from(_e: {refused}) -> E {{ E }} }}")

    def test_drop(self):
        self.becomes("fn f<T: Drop, U: A + Drop>() where T: Drop, U: B + Drop {}", "fn f<T, U: A>() where U: B {}")
        self.becomes("trait T: Sized + Drop {}", "trait T: Sized {}")
        self.becomes("#[derive(Drop)] #[repr(C)] struct S;", "#[repr(C)] struct S;")

    def test_formatters(self):
        self.becomes(
            "impl fmt::Debug for S { fn fmt<W: fmt::Write>(&self, f: &mut fmt::Formatter<W>) -> fmt::Result { a } }",
            "impl fmt::Debug for S { fn fmt(&self, f: &mut fmt::Formatter<'_>) -> fmt::Result { a } }",
        )

    def test_blocks(self):
        self.becomes(
            "trait Blocks<const N: usize> { fn rand(&mut self); } trait Rng<const N: usize>: A + Blocks<N> { fn f(); }"
            " impl Blocks<8> for S { fn rand(&mut self) {} } impl Rng<8> for S { fn f() {} } fn g<G: Blocks<N>>() {}",
            "trait Rng<const N: usize>: A { fn rand(&mut self); fn f(); }"
            " impl Rng<8> for S { fn rand(&mut self) {} fn f() {} } fn g<G: Rng<N>>() {}",
        )
        self.becomes("trait Other: Blocks<8> {}", "trait Other: Rng<8> {}")
        self.becomes("impl<G: Blocks<N> + Clone, const N: usize> Rng<N> for S<G> {}",
                     "impl<G: Rng<N>, const N: usize> Rng<N> for S<G> {}")

    def test_bindings(self):
        self.becomes("fn f() { let Some(a) = b else { return c; }; a }",
                     "fn f() { let a = if let Some(a) = b { a } else { return c; }; a }")
        self.becomes("fn f() { let [a, b] = c else { return; }; let Ok(d) = e else { return; }; }",
                     "fn f() { let (a, b) = if let [a, b] = c { (a, b) } else { return; };"
                     " let d = if let Ok(d) = e { d } else { return; }; }")
        self.stays("fn f() { let a = if b { c } else { d }; if let Some(a) = b { c } else { d } }")

    def test_functions_of_other_modules(self):
        self.becomes("fn f() { str::from_utf8(a).ok(); Sha256::digest(b) }",
                     "fn f() { std::str::from_utf8(a).ok(); sha256::digest(b) }")
        self.stays("fn f() { core::str::from_utf8(a); str::from_utf8_lossy(b); Sha256::new(); Sha512::digest(c) }")

    def test_signed_casts(self):
        self.becomes("fn f() { u8::random(rng).cast_signed() }", "fn f() { u8::random(rng) as i8 }")
        self.stays("fn f() { usize::random(rng).cast_signed(); u8::random(g).cast_signed(); a.cast_signed() }")

    def test_uses(self):
        self.becomes(
            "use nanorand_core::rand::{Blocks, Rng}; use std::alloc::Allocator; use std::fmt; use a::laws::b;"
            " use std::io::Read; use nanorand::x as y; use crate::a::own; pub use super::c;",
            "use crate::rand::Rng; use core::fmt; #[cfg(feature = \"std\")] use std::io::Read;"
            " use nanorand_proved::x as y; pub use super::c;",
            without_std=True,
        )

    def test_std(self):
        text = "fn f<R: Read>(r: &mut R) {} fn g(v: &mut Vec<u8>) {} fn h() {} impl Read for S { fn f(v: Vec<u8>) {} }"
        std = '#[cfg(feature = "std")]'
        marked = text
        for head in ("fn f<", "fn g", "impl"):
            marked = marked.replace(head, f"{std} {head}")
        self.becomes(text, marked, without_std=True)
        self.stays(text)

    def test_vectors_and_words(self):
        self.becomes("final fn f(a: u32x4) -> u32x8 { u32x4::splat(a) }", "fn f(a: U32x4) -> U32x8 { U32x4::splat(a) }")

    def test_what_no_rule_has(self):
        with self.assertRaises(rattle.Unreadable):
            self.rust("m! { a }")

    def test_each_rule_has_a_sentence(self):
        for row in translation.SENTENCES:
            self.assertEqual(len(row), 3)
            self.assertTrue(row[2].endswith("."), row)


def groups(changes):
    """The changes in groups. Those of a group are in files with different names, as a difference names both sides."""
    found = []
    for change in changes:
        name = Path(change[0]).stem
        group = next((group for group in found if name not in group), None)
        if group is None:
            found.append(group := {})
        group[name] = change
    return [list(group.values()) for group in found]


class InTree(unittest.TestCase):
    """Shared by the tests that change the real tree in memory."""

    @classmethod
    def setUpClass(cls):
        cls.tree = bodies.read_tree(ROOT)

    def differences(self, changes=(), **files):
        tree = {**self.tree, **dict(changes), **files}
        return bodies.compared({name: text for name, text in tree.items() if text is not None}).differences

    def changed(self, name, old, new):
        text = self.tree[name]
        self.assertIn(old, text, f"{name} has no such text any more")
        return {name: text.replace(old, new, 1)}

    def all_changed(self, group):
        return {name: text for change in group for name, text in self.changed(*change).items()}


class Tree(InTree):
    """The sources."""

    def test_the_tree_passes(self):
        report = bodies.checked(self.tree)
        self.assertEqual(report.differences, [])
        self.assertGreater(report.passed, 600)

    def test_planted_differences_are_found(self):
        self.assertGreaterEqual(len(PLANTED), 80)
        for group in groups(PLANTED):
            found = self.differences(self.all_changed(group))
            self.assertLess(len(found), 12 * len(group), found)
            for name, old, new in group:
                with self.subTest(name, old=old, new=new):
                    self.assertTrue(0 < sum(name in line for line in found) < 12, found)

    def test_planted_differences_are_of_all_kinds(self):
        crates = ("nanorand", "nanorand_core", "nanorand_replay", "lots_core", "lots_record", "draw_core")
        for folder in ("rust/nanorand-proved/src/", "rust/lots/", "rust/draw/", *(f"crates/{one}/" for one in crates)):
            self.assertGreater(sum(name.startswith(folder) for name, _, _ in PLANTED), 2, folder)

    def test_harmless_changes_are_not_found(self):
        for group in groups(HARMLESS):
            self.assertEqual(self.differences(self.all_changed(group)), [])

    def test_a_message_names_both_places(self):
        change = self.changed("rust/nanorand-proved/src/values/word.rs", "low >= size ||", "low > size ||")
        found = self.differences(change)
        self.assertRegex(
            found[0],
            r"^rust/nanorand-proved/src/values/word\.rs:\d+: fn pick_below: body differs from"
            r" crates/nanorand_core/src/values/word\.rt:\d+: '.*low > size.*' here, '.*low >= size.*' there$",
        )

    def test_files(self):
        name = "rust/nanorand-proved/src/layer/new.rs"
        self.assertEqual(len(self.differences({name: ""})), 1)
        self.assertIn("rust/draw/src/table.txt", self.differences({"rust/draw/src/table.txt": ""})[0])
        self.assertIn("rust/departures.toml", self.differences({"rust/nanorand-proved/src/simd.rs": None})[0])
        self.assertIn("crates/lots_core/src/text.rt", self.differences({"rust/lots/src/text.rs": None})[0])
        found = self.differences({"crates/nanorand/src/rand/new.rt": "fn f() {}"})
        self.assertIn("rust/nanorand-proved/src/rand/new.rs", found[0])
        self.assertTrue(self.differences({"crates/draw_core/src/kinds.rt": None}))

    def test_files_that_are_not_understood(self):
        for name in ("rust/nanorand-proved/src/samples.rs", "crates/lots_core/src/run.rt", "rust/draw/src/lib.rs"):
            found = self.differences({name: self.tree[name] + "what is this"})
            self.assertIn(name, found[0])

    def test_methods_that_take_the_place_of_proved_ones(self):
        method = "impl Pcg64 {\n    pub fn fill_bytes(&mut self, buffer: &mut [u8]) {}\n}\n"
        macro = f"macro_rules! m {{ () => {{ {method} }} }}\n"
        name = "rust/nanorand-proved/src/system.rs"
        for text in (method, macro):
            found = self.differences({name: self.tree[name] + text})
            self.assertEqual(len(found), 1)
            self.assertRegex(found[0], r"^rust/nanorand-proved/src/system\.rs:\d+: impl Pcg64: fn fill_bytes: ")


class List(InTree):
    """The list of departures."""

    def of_list(self, old, new):
        return self.differences(self.changed(bodies.LIST, old, new))

    def test_rows_are_read_as_they_are_written(self):
        self.assertEqual(Listed.read(self.tree[bodies.LIST]).text(), self.tree[bodies.LIST])
        texts = ["plain", 'some "quoted"', "it's", 'it\'s "both"', 'two\n"lines"', "a \\ b", "1 ≤ 2"]
        listed = Listed("# Head.\n\n", [])
        for text in texts:
            listed.add("departure", file=text, files=[text])
        again = Listed.read(listed.text())
        self.assertEqual([row.values for row in again.rows], [row.values for row in listed.rows])
        self.assertEqual([row.line for row in again.rows[:2]], [3, 10])

    def test_a_reason_is_missing(self):
        reason = 'reason = "SHA-256, which Rattle has as a crate."'
        for text in ('reason = ""', ""):
            self.assertIn("a person should write the reason", self.of_list(reason, text)[0])

    def test_a_row_matches_nothing(self):
        for text in (
            '[[departure]]\nfile = "rust/nanorand-proved/src/swap.rs"\nitem = "fn swop"\n',
            '[[hand_written]]\nfile = "rust/nanorand-proved/src/swap.rs"\nitem = "fn swop"\n',
            '[[hand_written]]\nfiles = ["rust/nanorand-proved/src/gone.rs"]\n',
            '[[precondition]]\nclause = "1 ≤ 2"\n', "[[typo]]\n",
            '[[departure]]\nfile = "rust/nanorand-proved/src/swap.rs"\nitem = "fn swap"\n',
        ):
            found = self.differences({bodies.LIST: f'{self.tree[bodies.LIST]}\n{text}reason = "It is."\n'})
            self.assertEqual(len(found), 1, found)
            self.assertIn("matches nothing", found[0])

    def test_a_row_is_missing(self):
        listed = Listed.read(self.tree[bodies.LIST])
        clauses = listed.of("precondition")
        others = [row for row in listed.rows if row not in clauses]
        for missing in [*([row] for row in clauses), others[::2], others[1::2]]:
            left = Listed(listed.head, [row for row in listed.rows if row not in missing])
            found = self.differences({bodies.LIST: left.text()})
            for row in missing:
                named = row.get("item") or row.get("file") or row.get("files")[:1]
                with self.subTest(row.values):
                    self.assertTrue(any(row in clauses or "".join(named) in text for text in found))

    def test_a_digest_is_another(self):
        listed = Listed.read(self.tree[bodies.LIST])
        for side in ("proved", "rust"):
            rows = [row for row in listed.rows if row.kind != "precondition" and row.get(side)]
            text = re.sub(rf'^{side} = "[0-9a-f]+"$', f'{side} = "0123456789ab"', self.tree[bodies.LIST], flags=re.M)
            found = self.differences({bodies.LIST: text})
            self.assertEqual(len(found), len(rows), found)
            self.assertGreater(len(rows), 20)
            for row in rows:
                named = row.get("item") or row.get("file")
                with self.subTest(row.values):
                    self.assertTrue(any(named in one and row.get("file") in one for one in found))

    def test_a_departure_that_departs_no_more(self):
        name = "rust/nanorand-proved/src/replay.rs"
        change = self.changed(name, "Answer::Signed(i128::from(i64::random(rng))),\n        Kind::I128", "?")
        self.assertIn("fn draw", self.differences(change)[0])
        body = self.tree[name].replace(
            "Kind::Isize => Answer::Signed(i128::from(i64::random(rng)))",
            "Kind::Isize => Answer::Signed(isize::random(rng) as i128)",
        ).replace(
            "Kind::Usize => Answer::Unsigned(u128::from(u64::random(rng)))",
            "Kind::Usize => Answer::Unsigned(usize::random(rng) as u128)",
        )
        found = self.differences({name: body})
        self.assertEqual(len(found), 1, found)
        self.assertIn("departs no more", found[0])


class Command(unittest.TestCase):
    """The command, in a copy of the tree."""

    def setUp(self):
        self.room = tempfile.TemporaryDirectory()
        self.addCleanup(self.room.cleanup)
        self.root = Path(self.room.name)
        for name, text in bodies.read_tree(ROOT).items():
            (self.root / name).parent.mkdir(parents=True, exist_ok=True)
            (self.root / name).write_text(text, encoding="utf-8")

    def run_with(self, *arguments):
        """The status and the lines of the command."""
        output = io.StringIO()
        with mock.patch.object(bodies, "ROOT", self.root), contextlib.redirect_stdout(output):
            with contextlib.redirect_stderr(output):
                status = bodies.main(list(arguments))
        return status, output.getvalue().splitlines()

    def change(self, name, old, new):
        path = self.root / name
        path.write_text(path.read_text(encoding="utf-8").replace(old, new, 1), encoding="utf-8")

    def test_it_passes(self):
        for arguments in ([], ["--check"]):
            status, lines = self.run_with(*arguments)
            self.assertEqual((status, len(lines)), (0, 1))
            self.assertRegex(lines[0], r"^\d+ passed, 0 failed$")

    def test_it_fails(self):
        self.change("rust/nanorand-proved/src/samples.rs", "slot + 1", "slot + 2")
        status, lines = self.run_with()
        self.assertEqual((status, len(lines)), (1, 2))
        self.assertRegex(lines[1], r"^\d+ passed, 1 failed$")

    def test_arguments(self):
        self.assertEqual(self.run_with("--wrte")[0], 2)

    def test_a_list_that_is_no_toml(self):
        self.change(bodies.LIST, "\n[[departure]]", "\n[[departure")
        status, lines = self.run_with()
        self.assertEqual(status, 1)
        self.assertIn(bodies.LIST, lines[0])

    def test_write_changes_nothing_if_nothing_changed(self):
        before = {name: (self.root / name).read_bytes() for name in (bodies.LIST, bodies.TABLE)}
        self.assertEqual(self.run_with("--write")[0], 0)
        self.assertEqual(before, {name: (self.root / name).read_bytes() for name in before})

    def test_write_leaves_reasons_to_a_person(self):
        self.change("rust/nanorand-proved/src/samples.rs", "slot + 1", "slot + 2")
        self.change("rust/nanorand-proved/src/samples.rs", "fn place_at", "fn more() {}\n\nfn place_at")
        self.change("rust/nanorand-proved/src/rand.rs", "self.generate()\n    }\n}", "self.generate::<u64>()\n    }\n}")
        (self.root / "rust/nanorand-proved/src/new.rs").write_text("")
        status, lines = self.run_with("--write")
        self.assertEqual(status, 1)
        self.assertEqual(sum("a new row; write its reason" in line for line in lines[:4]), 3, lines)
        self.assertEqual(sum("renewed; does its reason still hold?" in line for line in lines[:4]), 1, lines)
        self.assertEqual(len(lines), 8, lines)
        for name in ("samples.rs: fn link", "samples.rs: fn more", "rust/nanorand-proved/src/new.rs"):
            asks = rf"^{bodies.LIST}:\d+: .*{name}: a person should write the reason$"
            self.assertEqual(sum(bool(re.search(asks, line)) for line in lines[4:7]), 1, name)
        path = self.root / bodies.LIST
        path.write_text(path.read_text().replace('reason = ""', 'reason = "It is."'))
        self.assertEqual(self.run_with("--write")[0], 0)
        self.assertIn("`fn more`", (self.root / bodies.TABLE).read_text())

    def test_write_removes_what_nothing_needs(self):
        before = (self.root / bodies.LIST).read_text()
        self.change("rust/nanorand-proved/src/samples.rs", "slot + 1", "slot + 2")
        self.run_with("--write")
        rows = (self.root / bodies.LIST).read_text()
        self.assertIn('samples.rs"\nitem = "fn link"', rows)
        self.assertLess(rows.index('item = "fn link"'), rows.index('file = "rust/nanorand-proved/src/swap.rs"'))
        self.change("rust/nanorand-proved/src/samples.rs", "slot + 2", "slot + 1")
        status, lines = self.run_with("--write")
        self.assertEqual(status, 0)
        self.assertTrue(lines[0].endswith("fn link: gone, as nothing needs it"), lines)
        self.assertEqual((self.root / bodies.LIST).read_text(), before)

    def test_a_stale_table(self):
        for old, new in (("## Modules", "## Module"), (proved_table.END, "")):
            before = (self.root / bodies.TABLE).read_text()
            self.change(bodies.TABLE, old, new)
            status, lines = self.run_with()
            self.assertEqual((status, len(lines)), (1, 2))
            self.assertIn(bodies.TABLE, lines[0])
            (self.root / bodies.TABLE).write_text(before)


if __name__ == "__main__":
    result = unittest.main(exit=False).result
    failed = len(result.failures) + len(result.errors)
    print(f"{result.testsRun - failed} passed, {failed} failed")
    sys.exit(1 if failed else 0)
