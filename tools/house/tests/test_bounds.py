"""Tests of bounds.py: what exceeds a bound, and how bounds are lowered and raised."""
import subprocess
import tempfile
import unittest
from pathlib import Path

from support import crate_file, of
from house import bounds
from house.counts import counts_of

TEXT = """# The head.

[all]
# Of all.
clauses = 9
twins = { most = 3, why = "a reason" }

[crates]
gone = { clauses = 1, parameters = 1 }
list = { clauses = 2, parameters = 4, proofs_to_source = 1.5, lines_for_laws = 7, why = "a law" }

[functions]
"tools/a.py first" = 50

[lines]
# Data.
"contrib/c.json" = 2
"""
BOUNDS = bounds.bounds_in(TEXT)


def values_of(clauses=2, function=50, lines=2, extra=()):
    """Returns present values as `present` does."""
    crate = {"clauses": clauses, "parameters": 3, "proofs_to_source": 1.5, "lines_for_laws": 7}
    return {
        ("all", "clauses"): {"most": clauses},
        ("all", "twins"): {"most": 3},
        ("crates", "list"): crate,
        ("functions", "tools/a.py first"): {"most": function},
        ("lines", "contrib/c.json"): {"most": lines},
    } | dict(extra)


class Exceeded(unittest.TestCase):
    def test_within(self):
        self.assertEqual(bounds.exceeded(values_of(), BOUNDS), [])

    def test_above(self):
        self.assertEqual(
            bounds.exceeded(values_of(clauses=10, function=51), BOUNDS),
            [
                "[all] clauses: 10, at most 9",
                "[crates] list, clauses: 10, at most 2",
                "[functions] tools/a.py first: 51, at most 50",
            ],
        )

    def test_general_bounds(self):
        extra = {("functions", "a b"): {"most": 41}, ("files", "a"): {"most": 401}}
        self.assertEqual(
            bounds.exceeded(values_of(extra=extra), BOUNDS), ["[functions] a b: 41, at most 40", "[files] a: 401, at most 400"]
        )

    def test_a_crate_without_bounds(self):
        found = bounds.exceeded(values_of(extra={("crates", "new"): {"clauses": 0}}), BOUNDS)
        self.assertEqual(found, ["[crates] new, clauses: no bound; it is 0 now"])


class Lowered(unittest.TestCase):
    def test_lower_only(self):
        found = bounds.lowered(values_of(clauses=1, function=60, lines=1), BOUNDS)
        self.assertEqual(found["all", "clauses"], {"most": 1})
        self.assertEqual(found["all", "twins"], {"most": 3, "why": "a reason"})
        self.assertEqual(found["functions", "tools/a.py first"], {"most": 50})
        self.assertEqual(found["lines", "contrib/c.json"], {"most": 1})
        self.assertEqual(found["crates", "list"]["parameters"], 3)
        self.assertEqual(found["crates", "list"]["why"], "a law")

    def test_gone_and_new(self):
        extra = {("crates", "new"): {"clauses": 4}, ("functions", "a b"): {"most": 41}}
        found = bounds.lowered(values_of(extra=extra), BOUNDS)
        self.assertNotIn(("crates", "gone"), found)
        self.assertEqual(found["crates", "new"], {"clauses": 4})
        # A function isn't named by the command.
        self.assertNotIn(("functions", "a b"), found)

    def test_text(self):
        self.assertEqual(bounds.text_of(TEXT, BOUNDS), TEXT)
        found = bounds.text_of(TEXT, bounds.lowered(values_of(extra={("crates", "a"): {"clauses": 4}}), BOUNDS))
        wanted = TEXT.replace("clauses = 9", "clauses = 2").replace("parameters = 4", "parameters = 3")
        wanted = wanted.replace("gone = { clauses = 1, parameters = 1 }", "a = { clauses = 4 }")
        self.assertEqual(found, wanted)
        self.assertEqual(bounds.text_of(found, bounds.bounds_in(found)), found)


class Raised(unittest.TestCase):
    def test_unchanged_and_lower(self):
        self.assertEqual(bounds.raised(BOUNDS, BOUNDS), [])
        self.assertEqual(bounds.raised(bounds.bounds_in(TEXT.replace("= 9", "= 8")), BOUNDS), [])

    def test_higher(self):
        (found,) = bounds.raised(bounds.bounds_in(TEXT.replace("clauses = 2", "clauses = 3")), BOUNDS)
        self.assertTrue(found.startswith("[crates] list, clauses: 3, and was 2:"), found)

    def test_higher_with_an_old_reason(self):
        self.assertEqual(len(bounds.raised(bounds.bounds_in(TEXT.replace("most = 3", "most = 4")), BOUNDS)), 1)

    def test_higher_with_a_new_reason(self):
        text = TEXT.replace('most = 3, why = "a reason"', 'most = 4, why = "another"').replace("9", '{ most = 10, why = "one" }')
        self.assertEqual(bounds.raised(bounds.bounds_in(text), BOUNDS), [])

    def test_new_names(self):
        new = BOUNDS | {("crates", "new"): {"clauses": 4}, ("functions", "a b"): {"most": 41}, ("lines", "a"): {"most": 1}}
        found = bounds.raised(new, BOUNDS)
        self.assertEqual([it.partition(":")[0] for it in found], ["[functions] a b", "[lines] a"])


class Present(unittest.TestCase):
    def test_named_lines_are_apart(self):
        files = [of("contrib/c.json", f"{'1' * 131}\n" * 2), of("tools/a.py", f"# {'1' * 131}\n"), crate_file("list/src/lib.rt")]
        found = bounds.present(counts_of(files, ["list", "laws_of_lists"]), BOUNDS)
        self.assertEqual(found["lines", "contrib/c.json"], {"most": 2})
        self.assertEqual(found["all", "long_lines"], {"most": 1})
        self.assertNotIn(("lines", "tools/a.py"), found)
        self.assertEqual(found["all", "crates"], {"most": 2})
        self.assertEqual(set(found["crates", "laws_of_lists"]), {"clauses", "parameters"})
        self.assertEqual(found["folders", "tools"], {"parameters": 0})


class Before(unittest.TestCase):
    """The bounds of the commit before, in a repository of its own."""

    def setUp(self):
        room = tempfile.TemporaryDirectory()
        self.addCleanup(room.cleanup)
        self.top = Path(room.name)
        self.file = self.top / bounds.PATH
        self.file.parent.mkdir(parents=True)
        self.git("init", "--quiet")

    def git(self, *words):
        """Runs git there."""
        who = ["-c", "user.name=x", "-c", "user.email=x", "-c", "commit.gpgsign=false"]
        subprocess.run(["git", *who, *words], cwd=self.top, check=True, capture_output=True)

    def commit(self, text):
        """Commits these bounds."""
        self.file.write_text(text, encoding="utf-8")
        self.git("add", ".")
        self.git("commit", "--quiet", "--allow-empty", "-m", "x")

    def before(self):
        """Returns the bounds before the present ones."""
        return bounds.text_before(bounds.read_text(self.top), self.top)

    def test_a_first_commit(self):
        self.file.write_text("a\n", encoding="utf-8")
        self.assertIsNone(self.before())
        self.commit("a\n")
        self.assertIsNone(self.before())

    def test_the_commit_is_the_change(self):
        self.commit("a\n")
        self.commit("b\n")
        self.assertEqual(self.before(), "a\n")

    def test_a_change_that_is_not_committed(self):
        self.commit("a\n")
        self.commit("b\n")
        self.file.write_text("c\n", encoding="utf-8")
        self.assertEqual(self.before(), "b\n")


if __name__ == "__main__":
    unittest.main()
