#!/usr/bin/env python3
"""Tests tools/statements.py by worked cases: what changes the statements of a file, and what doesn't; and that the sum of a crate
rests on the crates below it alone. Each test is a line `test statements::NAME ... ok` or `test statements::NAME ... FAILED`."""
import os
import re
import sys
import tempfile
import traceback

TOP = os.path.dirname(os.path.dirname(os.path.realpath(__file__)))
sys.dont_write_bytecode = True
sys.path.insert(0, f"{TOP}/tools")
import statements as of  # pylint: disable=wrong-import-position

FILE = """//! A counter.
#![tactic(auto)]
ghost use Rattle.std.specs.Prelude.{◌≡◌, ◌+◌};

use std::alloc::Allocator;

/// The most that it counts.
pub const MOST: [char; 2] = ['{', '\\''];

/// A counter.
#[derive(Drop)]
pub struct Counter<'a> {
    name: &'a str,
    count: u64,
    ghost small: { count ≤ 2 ^ 8 }, // '{'
}

impl Model for Counter<'_> {
    ghost model = { λ it. it.count };
}

impl<'a> Counter<'a> {
    /// Counts one more.
    #[tactic(auto, using(crate::proofs::Sums::sum_grows))]
    pub fn count<const N: usize>(&mut self, by: [u8; { N + 1 }]) -> Option<Vec<Vec<u8>>>
    where
        Place<{ N }>: Copy,
        requires * room { self.count < 2 ^ 8 -- } not the end
        }
        ensures { self.new.count ≡ self.old.count + 1 }
    {
        // A brace }
        let open = '{';
        let text = "}\\"{";
        let raw = r#"}"{"#;
        let again = |x: u8| requires small { x' < 3 {- } -} } -> u8 { x + 1 };
        /* } /* } */ } */
        'rows: for it in 0..3 { break 'rows; }
        self.helper(again(1));
        None
    }

    fn helper(&self, by: u8) -> u8
        ensures { result ≡ by }
    {
        by
    }
}

pub trait Named {
    ghost name: { Self → List ℕ } = { λ _. [] };

    fn name_of(&self) -> u8
        ensures { result ≡ 1 }
    {
        1
    }

    fn other(&self) -> fn(u8) -> u8;
}

impl<'a> Named for Counter<'a> {
    fn name_of(&self) -> u8 {
        1
    }

    fn other(&self) -> fn(u8) -> u8 {
        twice
    }
}

const fn twice(x: u8) -> u8 {
    x + x
}

pub(crate) fn inside(x: u8) -> u8 {
    x
}

pub fn last() {}
"""
# What is left of it, worked by hand; a line here is joined to the next one by a blank.
LEFT = """ghost use Rattle.std.specs.Prelude.{◌≡◌, ◌+◌} ;
use std : : alloc : : Allocator ;
pub const MOST : [ char ; 2 ] = [ '{' , '\\'' ] ;
# [ derive ( Drop ) ] pub struct Counter < 'a > { name : & 'a str , count : u64 , ghost small : { count ≤ 2 ^ 8} , }
impl Model for Counter < '_ > { ghost model = { λ it. it.count} ; }
impl < 'a > Counter < 'a > {
pub fn count < const N : usize > ( & mut self , by : [ u8 ; { N + 1 } ] ) -> Option < Vec < Vec < u8 > > >
where Place < { N } > : Copy , requires * room { self.count < 2 ^ 8} ensures { self.new.count ≡ self.old.count + 1} ; }
pub trait Named { ghost name : { Self → List ℕ} = { λ _. []} ;
fn name_of ( & self ) -> u8 ensures { result ≡ 1} ;
fn other ( & self ) -> fn ( u8 ) -> u8 ; }
impl < 'a > Named for Counter < 'a > { fn name_of ( & self ) -> u8 ; fn other ( & self ) -> fn ( u8 ) -> u8 ; }
const fn twice ( x : u8 ) -> u8 { x + x }
pub fn last ( ) ;
"""
# Changes that leave the statements as they are, and changes that don't.
SAME = {
    "comment": ("// A brace }", "// Another"),
    "doc_comment": ("/// Counts one more.", "/// Counts."),
    "character_in_a_body": ("let open = '{'", "let open = '}'"),
    "string_in_a_body": ('"}\\"{"', '"{{\\""'),
    "raw_string_in_a_body": ('r#"}"{"#', 'r##"}"#"##'),
    "clause_of_a_closure": ("{ x' < 3 {- } -} }", "{ x' < 4 }"),
    "end_of_a_body": ("        None\n", "        Some(3)\n"),
    "comment_of_a_clause": ("-- } not the end", "-- {"),
    "layout": ("[u8; { N + 1 }]", "[u8;{N+1}]"),
    "tactic": ("using(crate::proofs::Sums::sum_grows)", "using(crate::proofs::Sums::sum_falls)"),
    "private_function": ("fn helper(&self, by: u8) -> u8\n        ensures { result ≡ by }", "fn helped(&self) -> u16"),
    "function_for_the_crate": ("inside(x: u8)", "inside(x: u16)"),
    "body_of_a_default": ("    {\n        1\n    }\n\n    fn other", "    {\n        0 + 1\n    }\n\n    fn other"),
    "body_of_an_impl": ("u8 {\n        1\n    }", "u8 {\n        2 - 1\n    }"),
    "new_private_function": ("pub fn last() {}", "fn more() -> u8 {\n    7\n}\n\npub fn last() {}"),
}
OTHER = {
    "clause": ("self.old.count + 1", "self.old.count"),
    "name_of_a_clause": ("requires * room", "requires * space"),
    "clause_that_is_gone": ("        ensures { self.new.count ≡ self.old.count + 1 }\n", ""),
    "spaces_in_a_clause": ("self.old.count + 1", "self.old.count +1"),
    "signature": ("pub fn last()", "pub fn last(_: u8)"),
    "function_for_all": ("pub(crate) fn inside", "pub fn inside"),
    "type": ("count: u64", "count: u32"),
    "ghost_field": ("count ≤ 2 ^ 8 }", "count ≤ 2 ^ 9 }"),
    "ghost_item": ("λ it. it.count", "λ it. 0"),
    "default_of_a_ghost_item": ("λ _. []", "λ _. 1 ∷ []"),
    "clause_of_a_trait": ("result ≡ 1", "result ≡ 2"),
    "constant": ("['{', '\\'']", "['{', '}']"),
    "constant_function": ("x + x", "x"),
    "derive": ("derive(Drop)", "derive(Drop, Debug)"),
    "import": ("std::alloc::Allocator", "std::alloc::Global"),
    "ghost_import": ("{◌≡◌, ◌+◌}", "{◌≡◌, ◌+◌ as ◌-◌}"),
    "member_of_an_impl": ("fn name_of(&self) -> u8 {", "fn name_of(&self) -> u8\n    ensures { result ≡ 1 }\n    {"),
    "text_that_cannot_be_read": ("pub fn last() {}", "pub fn last() {"),
}
SPEC = """-- A law.
use Rattle.std.specs.Prelude.{◌≡◌}

{- It holds {- always -}. -}
abbrev pub Law : ℕ → Type 0   -- of numbers
Law n = n - 1 ≡ n-1
"""
LEFT_OF_SPEC = """use Rattle.std.specs.Prelude.{◌≡◌}
abbrev pub Law : ℕ → Type 0
Law n = n - 1 ≡ n-1"""


def changed(old, new):
    assert FILE.count(old) == 1, f"{old} stands {FILE.count(old)} times in the file"
    return of.statements_in("src/lib.rt", FILE.replace(old, new))


def file_by_hand():
    assert of.statements_in("src/lib.rt", FILE) == " ".join(LEFT.splitlines())


def changes_that_state_nothing():
    for name, (old, new) in SAME.items():
        assert changed(old, new) == of.statements_in("src/lib.rt", FILE), name


def changes_that_state_something():
    for name, (old, new) in OTHER.items():
        assert changed(old, new) != of.statements_in("src/lib.rt", FILE), name


def spec_by_hand():
    assert of.statements_in("specs/Law.antt", SPEC) == LEFT_OF_SPEC


def macros_stay_whole():
    text = "macro_rules! two {\n    () => { fn f() -> u8 { 2 } };\n}\nconst _: () = prove!({ 1 < 2 });\n"
    left = "macro_rules ! two { ( ) => { fn f ( ) -> u8 { 2 } } ; } const _ : ( ) = prove ! ( { 1 < 2 } ) ;"
    assert of.statements_in("src/lib.rt", text) == left


def modules_and_other_blocks():
    text = "mod tests {\n    fn f() {}\n    pub fn g() {}\n}\nunsafe extern \"C\" {\n    fn h(x: u8);\n}\n"
    assert of.statements_in("src/lib.rt", text) == 'mod tests { pub fn g ( ) ; } unsafe extern "C" { fn h ( x : u8 ) ; }'


def write(folder, files):
    for path, text in files.items():
        os.makedirs(os.path.dirname(f"{folder}/{path}"), exist_ok=True)
        with open(f"{folder}/{path}", "w", encoding="utf-8") as file:
            file.write(text)


def sums_rest_on_crates_below():
    files = {
        "crates.txt": "# Crates.\nlow:\nmiddle: low std\nhigh: middle # and low\nother:\n",
        "crates/low/src/lib.rt": "pub fn low() -> u8\n    ensures { result ≡ 1 }\n{\n    1\n}\n",
        "crates/low/specs/Low.antt": "abbrev pub one : ℕ\none = 1\n",
        "crates/low/proofs/Low.antt": "proof",
        "crates/middle/src/lib.rt": "pub fn middle() {}\n",
        "crates/high/src/lib.rt": "pub fn high() {}\n",
        "crates/other/src/lib.rt": "pub fn other() {}\n",
    }
    # By the file that changes: its new text, and the crates whose sums change.
    body, spec = files["crates/low/src/lib.rt"].replace("    1\n", "    2 - 1\n"), files["crates/low/specs/Low.antt"]
    changes = {
        "crates/low/src/lib.rt": [(body, ""), ("pub fn low() {}\n", "middle high")],
        "crates/low/specs/Low.antt": [(f"-- It is two.\n{spec}", ""), (spec.replace("= 1", "= 2"), "middle high")],
        "crates/low/specs/New.antt": [("", "middle high")],
        "crates/low/proofs/Low.antt": [("another", "")],
        "crates/middle/src/lib.rt": [("pub fn middle(_: u8) {}\n", "high")],
        "crates/high/src/lib.rt": [("pub fn high(_: u8) {}\n", "")],
        "crates.txt": [(files["crates.txt"].replace("low std", "std"), "middle high"), (files["crates.txt"] + "# More.\n", "")],
    }
    with tempfile.TemporaryDirectory() as folder:
        write(folder, files)
        before = of.sums(folder, "logic 1")
        assert all(before[it] != found for it, found in of.sums(folder, "logic 2").items())
        for path, texts in changes.items():
            for text, wanted in texts:
                write(folder, {path: text})
                now = of.sums(folder, "logic 1")
                assert {it for it in now if now[it] != before[it]} == {*wanted.split()}, (path, text)
            write(folder, files)
            if path not in files:
                os.remove(f"{folder}/{path}")
        assert of.sums(folder, "logic 1") == before


def texts_of_crates(part, ending):
    for name in os.listdir(f"{TOP}/crates"):
        for at, _, names in os.walk(f"{TOP}/crates/{name}/{part}"):
            for path in (f"{at}/{it}" for it in names if it.endswith(ending)):
                with open(path, encoding="utf-8") as file:
                    yield path, file.read()


def every_file_of_the_crates_can_be_read():
    found = [of.kept_of(of.words_of(text)) for _, text in texts_of_crates("src", ".rt")]
    assert found


# The sum leaves out proofs/, so no definition may stand there that a clause or a definition of specs/ cites.
def no_statement_cites_proofs():
    names = "|".join(os.listdir(f"{TOP}/crates"))
    for path, text in [*texts_of_crates("src", ".rt"), *texts_of_crates("specs", ".antt")]:
        assert not re.search(rf"\bRattle[.·]({names})[.·]proofs\b", of.statements_in(path, text)), path


TESTS = (
    file_by_hand,
    changes_that_state_nothing,
    changes_that_state_something,
    spec_by_hand,
    macros_stay_whole,
    modules_and_other_blocks,
    sums_rest_on_crates_below,
    every_file_of_the_crates_can_be_read,
    no_statement_cites_proofs,
)


def main():
    failed = 0
    for test in TESTS:
        try:
            test()
            print(f"test statements::{test.__name__} ... ok")
        except Exception:  # pylint: disable=broad-except
            traceback.print_exc()
            print(f"test statements::{test.__name__} ... FAILED")
            failed = 1
    return failed


if __name__ == "__main__":
    sys.exit(main())
