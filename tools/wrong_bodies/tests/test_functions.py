"""Tests of functions.py."""
import unittest

from support import golden
from wrong_bodies import functions

RING = golden("ring.txt")
MODULES = {"Ring": ["ring"]}


def text_around(name, word):
    """Returns the text of the function of this name around a word of the ring; None if there is none."""
    place = functions.function_around(RING, name, RING.index(word))
    return RING[place.start : place.end] if place else None


def statements():
    """Returns the statements of the ring's functions, by their paths."""
    return {it.path: RING[it.start : it.end] for it in functions.statements_in(RING, ["ring"], MODULES)}


class FunctionAround(unittest.TestCase):
    """The function around a place, with its attributes."""

    def test_method_of_an_impl(self):
        text = text_around("count", "self.octets.len()\n    }")
        self.assertTrue(text.startswith("    #[tactic(auto, using("))
        self.assertTrue(text.endswith("        self.octets.len()\n    }\n"))
        self.assertIn("fn count(&self)", text)

    def test_function_of_a_module_with_the_name_of_a_method(self):
        text = text_around("count", "    octets.len()\n}")
        self.assertEqual(text, "pub fn count(octets: &[u8]) -> usize {\n    octets.len()\n}\n")

    def test_braces_in_strings_comments_and_macros(self):
        text = text_around("pushed", "return false;")
        self.assertTrue(text.startswith("    #[inline]\n    #[must_use]\n    pub(crate) fn pushed("))
        self.assertTrue(text.endswith(' "{} octets {{", self.octets.len());\n        true\n    }\n'))

    def test_nested_braces_of_a_function(self):
        text = text_around("first", "=> Some(*first)")
        self.assertTrue(text.startswith("pub fn first("))
        self.assertTrue(text.endswith("        _ => None,\n    }\n}\n"))

    def test_law_without_statements(self):
        text = text_around("counts", "ensures { length ring.now.octets")
        self.assertTrue(text.startswith("#[tactic(auto)]\npub fn counts<T: Clone>("))
        self.assertTrue(text.endswith("}\n{}\n"))

    def test_method_of_a_trait(self):
        place = functions.function_around(RING, "total", RING.index("self.count()"))
        self.assertTrue(place.is_of_trait)
        self.assertEqual(RING[place.start : place.end], "    fn total(&self) -> usize {\n        self.count()\n    }\n")

    def test_methods_of_a_type_and_functions_are_of_no_trait(self):
        for name, word in (("count", "self.octets.len()\n    }"), ("first", "=> Some(*first)")):
            self.assertFalse(functions.function_around(RING, name, RING.index(word)).is_of_trait)

    def test_default_of_a_trait(self):
        text = text_around("twice", "self.total() * 2")
        self.assertEqual(text, "    fn twice(&self) -> usize {\n        self.total() * 2\n    }\n")

    def test_declaration_of_a_trait_right_before_the_method(self):
        method = "    fn total(&self) -> usize {\n        1\n    }\n"
        text = f"trait Counted {{\n    fn total(&self) -> usize;\n}}\n\nimpl Counted for Ring {{\n{method}}}\n"
        place = functions.function_around(text, "total", text.index("1"))
        self.assertEqual((text[place.start : place.end], place.is_of_trait), (method, True))

    def test_first_and_last_place_of_a_function(self):
        text = "fn one() -> u8 {\n    1\n}\n"
        self.assertEqual(functions.function_around(text, "one", 0), functions.Place(0, len(text), False))
        self.assertEqual(functions.function_around(text, "one", len(text) - 1), functions.Place(0, len(text), False))
        self.assertIsNone(functions.function_around(text, "one", len(text)))

    def test_place_outside_every_function(self):
        self.assertIsNone(text_around("first", "const OPENING"))

    def test_place_in_another_function(self):
        self.assertIsNone(text_around("first", "self.count()"))

    def test_name_that_begins_another(self):
        self.assertIsNone(text_around("cou", "self.octets.len()\n    }"))

    def test_place_has_what_is_within_it(self):
        place = functions.Place(10, 20, False)
        self.assertTrue(place.has(10, 20))
        self.assertFalse(place.has(9, 12))
        self.assertFalse(place.has(12, 21))


class Impls(unittest.TestCase):
    """Heads of `impl` blocks and their types."""

    def test_impl_around_a_method(self):
        self.assertEqual(functions.impl_around(RING, RING.index("self.octets.iter()")), "impl<T: Clone> Ring<T> ")
        self.assertEqual(functions.impl_around(RING, RING.index("self.count()")), "impl<T: Clone> Counted for Ring<T> ")

    def test_no_impl_around_a_function_or_a_trait(self):
        self.assertIsNone(functions.impl_around(RING, RING.index("octets.len()\n}")))
        self.assertIsNone(functions.impl_around(RING, RING.index("self.total() * 2")))

    def test_types(self):
        heads = {
            "impl Ring ": "Ring",
            "impl<T: Clone> Ring<T> ": "Ring",
            "impl<'a, L: Ledger<Share<'a>>> Supply<'a, L> ": "Supply",
            "unsafe impl Ring ": "Ring",
            "impl<T> Counted for Ring<T> ": None,
            "unsafe impl Send for Ring ": None,
            "": None,
        }
        for head, name in heads.items():
            self.assertEqual(functions.type_of_impl(head), name, head)


class Modules(unittest.TestCase):
    """Modules of files and types."""

    def test_modules_of_files(self):
        files = {
            "src/lib.rt": [],
            "src/main.rt": [],
            "src/ring.rt": ["ring"],
            "src/reading/mod.rt": ["reading"],
            "src/reading/keys.rt": ["reading", "keys"],
        }
        for file, module in files.items():
            self.assertEqual(functions.module_of(file), module, file)

    def test_modules_of_types(self):
        texts = {
            "src/ring.rt": RING,
            "src/a.rt": "pub enum Kind {\n}\n\nstruct Twice;\n\n    struct Inner;\n",
            "src/b.rt": "pub(crate) struct Twice(u8);\n",
        }
        self.assertEqual(functions.modules_of_types(texts), {"Ring": ["ring"], "Kind": ["a"], "Twice": None})


class FunctionStatements(unittest.TestCase):
    """The statements of all functions of a file."""

    def test_functions_and_methods_of_types(self):
        self.assertEqual([*statements()], ["ring::Ring::count", "ring::Ring::pushed", "ring::first", "ring::count"])

    def test_exact_statements(self):
        self.assertEqual(statements()["ring::Ring::count"], "self.octets.len()")
        self.assertEqual(statements()["ring::count"], "octets.len()")
        first = "match octets {\n        [first, ..] if *first != OPENING => Some(*first),\n        _ => None,\n    }"
        self.assertEqual(statements()["ring::first"], first)

    def test_statements_with_braces_in_strings_comments_and_macros(self):
        text = statements()["ring::Ring::pushed"]
        self.assertTrue(text.startswith("// A comment with } and {.\n"))
        self.assertTrue(text.endswith("\n        true"))

    def test_methods_of_a_type_that_two_modules_have(self):
        found = functions.statements_in(RING, ["ring"], {"Ring": None})
        self.assertEqual([it.path for it in found], ["ring::first", "ring::count"])

    def test_methods_of_a_type_of_another_module(self):
        found = functions.statements_in(RING, ["ring"], {"Ring": ["rings", "types"]})
        self.assertEqual(found[0].path, "rings::types::Ring::count")

    def test_functions_of_the_root(self):
        self.assertEqual([it.path for it in functions.statements_in(RING, [], {})], ["first", "count"])

    def test_head_of_several_lines(self):
        text = "fn sum(\n    first: u8,\n    second: u8,\n) -> u16 {\n    u16::from(first) + u16::from(second)\n}\n"
        (found,) = functions.statements_in(text, [], {})
        self.assertEqual(text[found.start : found.end], "u16::from(first) + u16::from(second)")


class Attributes(unittest.TestCase):
    """The `tactic` attribute of a function."""

    def test_attribute_and_its_paths(self):
        attribute = functions.tactic_attribute(text_around("count", "self.octets.len()\n    }"))
        using = ["crate::proofs::Rings::counted", "std::proofs::Lists::longer"]
        self.assertEqual(functions.paths_after("using", attribute[1]), using)
        self.assertEqual(functions.paths_after("unfolding", attribute[1]), ["crate::specs::Rings::octets"])

    def test_attribute_of_several_lines(self):
        attribute = "#[tactic(auto, using(crate::proofs::Rings::counted,\n    crate::proofs::Rings::longer))]\n"
        text = f"{attribute}fn one() -> u8 {{\n    1\n}}\n"
        self.assertEqual(functions.function_around(text, "one", len(text) - 1).start, 0)
        using = ["crate::proofs::Rings::counted", "crate::proofs::Rings::longer"]
        self.assertEqual(functions.paths_after("using", functions.tactic_attribute(text)[1]), using)

    def test_function_without_one(self):
        self.assertIsNone(functions.tactic_attribute(text_around("pushed", "return false;")))

    def test_attribute_that_lists_nothing(self):
        attribute = functions.tactic_attribute(text_around("counts", "ensures { length ring.now.octets"))
        self.assertEqual(functions.paths_after("using", attribute[1]), [])


if __name__ == "__main__":
    unittest.main()
