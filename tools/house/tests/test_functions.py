"""Tests of functions.py: bodies, parameters and clauses."""
import unittest

from support import SOURCE, of
from house import functions

PYTHON = '''#!/usr/bin/env python3
"""A program."""


class Counter:
    """A counter."""

    def add(self, one, *others, twice=False, **named):
        """Adds.

        Twice, if wanted.
        """

        # The sum.
        def inner():
            return 0

        return inner() + one


def empty():
    """Nothing."""
'''
C = """static int counts[] = {1, 2};

struct one {
    int it;
};

int both(struct one *one, int (*take)(int a, int b),
         unsigned other) {
    if (other) {
        return 1;
    }
    return take(one->it, 2);
}

void none(void) { return; }
"""
SHELL = """#!/bin/sh
# Ends.
ends() {
    echo "$1" |
        cat
}
ends now
"""


def found(path, text):
    """Returns name, line, length and parameters of each function of a file."""
    return [(it.name, it.line, it.length, it.parameters) for it in functions.functions_of(of(path, text))]


class Functions(unittest.TestCase):
    def test_rattle(self):
        self.assertEqual(
            found("crates/list/src/list.rt", SOURCE),
            [
                ("total", 7, 0, 1),
                ("twice", 9, 1, 1),
                ("sum", 17, 5, 4),
                ("split", 29, 1, 3),
                ("counts", 39, 0, 0),
                ("nothing", 43, 0, 0),
            ],
        )

    def test_clauses(self):
        self.assertEqual(functions.clause_count(of("crates/list/src/list.rt", SOURCE)), 3)
        self.assertEqual(functions.clause_count(of("tools/list.py", "    ensures\n")), 0)

    def test_python(self):
        self.assertEqual(found("tools/it.py", PYTHON), [("add", 8, 4, 5), ("inner", 15, 1, 0), ("empty", 21, 0, 0)])

    def test_c(self):
        self.assertEqual(found("bench/it.c", C), [("both", 7, 4, 3)])

    def test_shell(self):
        self.assertEqual(found(".ci/it", SHELL), [("ends", 3, 2, 0)])

    def test_text_has_none(self):
        self.assertEqual(found("contrib/it.json", "{}\n"), [])

    def test_parameters(self):
        for text, count in (
            ("()", 0),
            ("(self)", 1),
            ("(a: u8, b: (u8, u8),)", 2),
            ("<T: Into<Vec<u8>>>(a: Map<u8, T>, b: T)", 2),
            ("(f: impl Fn(u8, u8) -> u8)", 1),
            (" -> u8", 0),
        ):
            self.assertEqual(functions.parameter_count(text), count, text)


if __name__ == "__main__":
    unittest.main()
