"""Tests of laws.py: which proofs serve laws alone."""
import unittest

from support import crate_file
from house import laws

FILES = [
    crate_file("book/src/lib.rt", "mod book;", "pub mod laws;"),
    crate_file("book/src/book.rt", "#[tactic(auto, using(crate::proofs::Cited::one))]", "fn put() {}"),
    crate_file("book/src/laws.rt", "#[tactic(auto, using(crate::proofs::OfLaws::one))]", "pub fn kept() {}"),
    crate_file("book/proofs/Lib.antt", "mod Cited", "mod OfLaws"),
    crate_file("book/proofs/Cited.antt", "one"),
    crate_file("book/proofs/OfLaws.antt", "use Rattle.book.proofs.Below.{one}", "use Rattle.book.proofs.Both.{one}"),
    crate_file("book/proofs/Below.antt", "one", "two", "three"),
    crate_file("book/proofs/Both.antt", "one"),
    crate_file("book/proofs/Unused.antt", "one"),
    crate_file("book/proofs/Shown.antt", "one"),
    crate_file("book/proofs/laws/kept/Answers.antt", "use Rattle.book.proofs.OfLaws.{one}"),
    crate_file("book/proofs/book/put/Answers.antt", "use Rattle.book.proofs.Both as both"),
    crate_file("laws_of_books/src/lib.rt", "pub fn all() {}"),
    crate_file("laws_of_books/proofs/all/Answers.antt", "use Rattle.book.proofs.Shown.{one}", "one"),
]


class Laws(unittest.TestCase):
    def test_files(self):
        found = sorted(file.path.removeprefix("crates/") for file in laws.files_of_laws(FILES))
        self.assertEqual(
            found,
            [
                "book/proofs/Below.antt",
                "book/proofs/OfLaws.antt",
                "book/proofs/Shown.antt",
                "book/proofs/laws/kept/Answers.antt",
                "laws_of_books/proofs/all/Answers.antt",
            ],
        )

    def test_lines(self):
        self.assertEqual(laws.law_lines(FILES), {"book": 7, "laws_of_books": 2})

    def test_a_folder_of_laws(self):
        self.assertTrue(laws.is_of_laws(crate_file("book/src/laws/kept.rt")))
        self.assertFalse(laws.is_of_laws(crate_file("book/src/lawsuits.rt")))

    def test_a_citation_of_another_crate(self):
        text = "#[tactic(auto, using(outbox::proofs::puts::Put::one))]"
        self.assertEqual(laws.citations(crate_file("book/src/a.rt", text)), {"outbox.proofs.puts.Put"})


if __name__ == "__main__":
    unittest.main()
