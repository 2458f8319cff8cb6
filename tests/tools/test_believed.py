"""bench/believed: what public clauses reach, and what not. A unit test: no part of what is proved."""

import os
import sys
import unittest

from support import TOP, script

sys.path.insert(0, str(TOP / "bench"))
believed = script("believed", TOP / "bench")
import believed_words

LIB = "pub mod open;\nmod shut;\n"
SPECS = """-- Definitions of a test.
use Rattle.std.specs.Prelude.{ℕ}
use Rattle.low.specs.declared.open.Box.{Box}

abbrev pub one : ℕ
one = 1

abbrev pub two : ℕ
two = one + one

-- one is named in this note alone, and bound below
abbrev pub alone : ℕ → ℕ
alone one = (λ two. two) one

abbrev pub boxed : Box → ℕ
boxed box = box.items

pub record Sum (n : ℕ) : Type 0 where
  pub two : ℕ
  pub is : n ≡ two + two

pub data Colour : Type 0 where
  Red Green : Colour
"""
USES = "ghost use Rattle.low.specs.Words.{%s};\n\n"


def reached(open_text="", shut="", specs=SPECS, lib=LIB):
    """The definitions that must be believed of a crate with these sources, by both scripts."""
    texts = {
        "crates/low/src/lib.rt": lib,
        "crates/low/src/open.rt": open_text,
        "crates/low/src/shut.rt": shut,
        "crates/low/specs/Words.antt": specs,
    }
    tree = believed.Tree(texts)
    found = {name for _, _, name in tree.believed()}
    return found, {name for _, _, name in believed_words.believed(texts)}


def function(clause, words="pub fn", body="{\n    1\n}\n"):
    return f"{words} f(n: u8) -> u8\n    ensures {{ {clause} }}\n{body}"


class Reached(unittest.TestCase):
    def check(self, wanted, *texts, **more):
        found, by_words = reached(*texts, **more)
        self.assertEqual(found, wanted)
        self.assertEqual(by_words, wanted)

    def test_a_public_clause_reaches_what_it_names_and_what_that_cites(self):
        self.check({"two", "one"}, USES % "two" + function("result ≡ two"))

    def test_a_private_function_reaches_nothing(self):
        self.check(set(), USES % "two" + function("result ≡ two", "fn"))
        self.check(set(), USES % "two" + function("result ≡ two", "pub(crate) fn"))

    def test_a_private_module_reaches_nothing_unless_it_is_passed_on(self):
        shut = USES % "one" + function("result ≡ one")
        self.check(set(), "", shut)
        self.check({"one"}, "", shut, lib=LIB + "\npub use shut::f;\n")

    def test_a_body_reaches_nothing(self):
        body = "{\n    let g = |n| -> u8 ensures { two } { n };\n    1\n}\n"
        self.check({"one"}, USES % "one, two" + function("one", body=body))

    def test_a_name_that_is_bound_or_in_a_note_is_no_citation(self):
        found, _ = reached(USES % "alone" + function("result ≡ alone 1 -- two"))
        self.assertEqual(found, {"alone"})

    def test_a_field_is_no_citation(self):
        found, _ = reached(USES % "Sum" + function("Sum result"))
        self.assertEqual(found, {"Sum"})

    def test_a_constructor_reaches_its_type(self):
        self.check({"Colour"}, USES % "Red" + function("f Red"))

    def test_an_import_under_another_name(self):
        self.check({"one"}, USES % "one as first" + function("result ≡ first"))

    def test_a_model_reaches_by_its_value_and_not_by_its_view(self):
        model = "pub struct Box {\n    items: u8,\n}\n\nimpl Model for Box {\n"
        model += "    ghost use Rattle.low.specs.Words.{Sum, one};\n\n"
        model += "    ghost Value = { Sum 1 };\n\n    ghost view = { λ b. one };\n}\n\n"
        found, by_words = reached(USES % "boxed" + model + function("boxed result"))
        self.assertEqual(found, {"boxed", "Sum"})
        self.assertLessEqual(found, by_words)

    def test_a_type_without_a_model_reaches_by_its_fields(self):
        inner = "pub struct Inner;\n\nimpl Model for Inner {\n"
        inner += "    ghost use Rattle.low.specs.Words.{Colour};\n\n    ghost Value = { Colour };\n}\n\n"
        outer = "pub struct Box {\n    items: Vec<Inner>,\n}\n\n"
        self.check({"boxed", "Colour"}, USES % "boxed" + inner + outer + function("boxed result"))

    def test_a_public_trait_and_its_impls_are_public(self):
        trait = "pub trait Gives {\n    ghost gives: { Self → one };\n}\n\n"
        self.check({"one"}, USES % "one, two" + trait)
        shown = "pub struct Box;\n\nimpl Gives for Box {\n    ghost gives = { λ _. two };\n}\n"
        self.check({"one", "two"}, USES % "one, two" + trait + shown)
        hidden = shown.replace("pub struct", "struct")
        self.check({"one"}, USES % "one, two" + trait + hidden)

    def test_methods_of_public_types_are_public(self):
        method = "impl Box {\n    pub fn f(&self)\n        ensures { two }\n    {}\n}\n"
        self.check({"one", "two"}, USES % "two" + "pub struct Box;\n\n" + method)
        self.check(set(), USES % "two" + "struct Box;\n\n" + method)

    def test_a_type_of_a_private_module_that_a_public_function_gives_is_public(self):
        method = "impl Hidden {\n    pub fn g(&self)\n        ensures { one }\n    {}\n}\n"
        shut = USES % "one" + "pub struct Hidden;\n\n" + method
        gives = "use crate::shut::Hidden;\n\npub fn f() -> Hidden {\n    Hidden\n}\n"
        self.check({"one"}, gives, shut)
        self.check(set(), "", shut)


class Sizes(unittest.TestCase):
    def test_notes_and_imports_count_nothing_and_long_lines_count_again(self):
        specs = SPECS.replace("two = one + one", "two = one" + " + one" * 30)
        tree = believed.Tree({"crates/low/specs/Words.antt": specs})
        self.assertEqual(believed.size_of(tree, [("low", "Words", "two")])[:3], (1, 2, 3))
        self.assertEqual(believed.size_of(tree, [("low", "Words", "one")]), (1, 2, 2, 19))

    def test_a_definition_of_the_wrong_folder_is_found(self):
        texts = {
            "crates/low/src/lib.rt": LIB,
            "crates/low/src/open.rt": USES.replace("Words", "inner.More") % "three" + function("three"),
            "crates/low/specs/Words.antt": SPECS,
            "crates/low/specs/inner/More.antt": "abbrev pub three : ℕ\nthree = 3\n\npub record Four : Type 0\n",
        }
        astray = believed.astray(believed.Tree(texts))
        self.assertIn(("low", "inner.More", "three"), astray)
        self.assertNotIn(("low", "inner.More", "Four"), astray)
        self.assertIn(("low", "Words", "one"), astray)


class Crates(unittest.TestCase):
    def test_another_script_finds_the_same_definitions(self):
        os.chdir(TOP)
        texts = believed.texts_of(None)
        found = believed.Tree(texts).believed()
        self.assertGreater(len(found), 500)
        self.assertEqual(sorted(found ^ believed_words.believed(texts)), [])


if __name__ == "__main__":
    unittest.main()
