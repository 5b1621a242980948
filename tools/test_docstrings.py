#!/usr/bin/env python3
"""Tests of docstrings.py, on sources that are written by hand."""
import unittest

import docstrings

GOOD = """//! A file.

/// A thing.
#[derive(Drop)]
pub struct Thing {
    size: u64,
}

/// What has a size.
pub trait Sized {
    ghost size: { Self -> Nat };

    /// Its size.
    fn size(&self) -> u64
        ensures { result = size self.now };
}

impl Sized for Thing {
    fn size(&self) -> u64 {
        // No one counts.
        self.size
    }
}

fn hidden() {}
"""


class Docstrings(unittest.TestCase):
    def found(self, old, new):
        self.assertEqual(GOOD.count(old), 1)
        return list(docstrings.missing(GOOD.replace(old, new)))

    def test_good(self):
        self.assertEqual(list(docstrings.missing(GOOD)), [])

    def test_file(self):
        self.assertEqual(self.found("//! A file.", "use std::rt;"), [(1, "no //!")])

    def test_item(self):
        self.assertEqual(self.found("/// A thing.\n", ""), [(4, "no ///")])

    def test_two_slashes(self):
        self.assertEqual(self.found("/// A thing.", "// A thing."), [(5, "// in place of ///")])

    def test_trait(self):
        self.assertEqual(self.found("    /// Its size.\n", ""), [(13, "no ///")])


if __name__ == "__main__":
    unittest.main()
