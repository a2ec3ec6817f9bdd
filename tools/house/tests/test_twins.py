"""Tests of twins.py: which places say the same."""
import unittest

from support import of
from house.twins import lines_of, pairs_of

BODY = """    let sum = first.amount() + second.amount();
    if sum > limit {
        return Err(Refusal::TooMuch);
    }
    self.total = total_of(&self.shares, sum)?;
    self.shares.push(Share::of(first.place(), sum));
    self.shares.push(Share::of(second.place(), sum));
    Ok(self.total)
"""


def pairs(*texts):
    """Returns the pairs of files with these texts, each with the number of lines of its longest run."""
    files = [of(f"crates/a/src/{place}.rt", text) for place, text in enumerate(texts)]
    return [(*(int(path[-4]) for path in it.paths), it.runs, it.length) for it in pairs_of(files)]


class Twins(unittest.TestCase):
    def test_the_same(self):
        self.assertEqual(pairs(BODY, BODY), [(0, 1, 1, 7)])

    def test_other_layout(self):
        other = "".join(f"\n        {line.strip()}\n    // A comment.\n" for line in BODY.splitlines())
        self.assertEqual(pairs(BODY, other), [(0, 1, 1, 7)])

    def test_other_names(self):
        self.assertEqual(pairs(BODY, BODY.replace("sum", "all").replace("limit", "most")), [(0, 1, 1, 7)])

    def test_a_name_for_two_names(self):
        self.assertEqual(pairs(BODY, BODY.replace("second", "first")), [])

    def test_too_many_other_names(self):
        other = BODY
        for name in ("sum", "first", "second", "amount", "total", "shares", "Share", "of", "place"):
            other = other.replace(name, f"x{name}")
        self.assertEqual(pairs(BODY, other), [])

    def test_five_lines(self):
        self.assertEqual(pairs(BODY, "\n".join(BODY.splitlines()[:6]) + "\n"), [])

    def test_one_file(self):
        self.assertEqual(pairs(BODY + "    other();\n" + BODY), [(0, 0, 1, 7)])

    def test_two_runs_are_one_pair(self):
        other = "    other();\n"
        self.assertEqual(pairs(f"{BODY}{other}", f"{BODY}    not(other);\n{BODY}")[0], (0, 1, 2, 7))

    def test_three_places_are_three_pairs(self):
        self.assertEqual(len(pairs(BODY, BODY, BODY)), 3)

    def test_imports_are_left_out(self):
        uses = "".join(f"use crate::a{place}::B;\nghost use Rattle.c{place}.D.{{e}};\n" for place in range(6))
        self.assertEqual(pairs(uses, uses), [])
        self.assertEqual(lines_of(of("a.py", "from a import (\n    b, c,\n)\nprint(b)\n"))[0].number, 4)

    def test_text_is_left_out(self):
        files = [of(f"contrib/{name}.json", '"a": "one word",\n' * 12) for name in ("a", "b")]
        self.assertEqual(pairs_of(files), [])

    def test_place(self):
        (pair,) = pairs_of([of("a.rt", f"//! A file.\n{BODY}"), of("b.rt", f"first();\n\n{BODY}")])
        self.assertEqual((pair.paths, pair.at), (("a.rt", "b.rt"), (2, 3)))


if __name__ == "__main__":
    unittest.main()
