"""Shared by the tests: finds the package, and makes files."""
import sys
from pathlib import Path

sys.path.insert(0, str(Path(__file__).resolve().parents[2]))

from house.files import SourceFile  # noqa: E402

# A source in the layout of `rt fmt`.
SOURCE = '''//! A list. Its braces in "} {" end no function.
use crate::other::{
    Other,
};

pub trait Counted {
    fn total(&self) -> usize;

    fn twice(&self) -> usize {
        self.total() * 2
    }
}

impl<T: Fn(u8, u8) -> u8> List<T> {
    /// Returns the sum of three.
    #[tactic(auto, using(crate::proofs::Sums::summed))]
    pub(crate) fn sum<F: Fn(u8) -> u8>(&self, one: (u8, u8), other: &[u8; 2], add: F) -> usize
        requires { 1 ≤ one }
        ensures sum { result ≡ one + other }
        ensures small { result ≤ 9 }
    {
        let text = "} {";
        if text.is_empty() {
            return 0;
        }
        add(one)
    }

    fn split(
        &self,
        first: u8,
        second: u8,
    ) -> u8 {
        first
    }
}

/// A law.
pub fn counts()
    ensures { length [] ≡ 0 }
{}

pub fn nothing() {}
'''


def of(path, text):
    """Returns a file."""
    return SourceFile(path, text)


def crate_file(path, *lines):
    """Returns a file below `crates/` with these lines."""
    return SourceFile(f"crates/{path}", "".join(f"{line}\n" for line in lines))
