#!/usr/bin/env python3
"""Tests of rt.py, over crates and commands that are written by hand."""
import os
import subprocess
import sys
import tempfile
import unittest
from pathlib import Path

import rt


class Sums(unittest.TestCase):
    """A crate that stands on two others, of which one stands on the other."""

    def crates(self):
        taken = []

        class Crate:
            def __init__(self, folder, *deps):
                self.folder, self.deps = folder, deps

            def stamp(self):
                taken.append(self.folder)
                return [self.folder, *(it.stamp() for it in self.deps)]

            def call(self, *words):
                return self.stamp(), words

            def prove(self, *words):
                raise ValueError(words)

        rt.keep_sums(Crate)
        low = Crate("low")
        return Crate("top", low, Crate("middle", low)), taken

    def test_each_sum_is_taken_once(self):
        top, taken = self.crates()
        self.assertEqual(top.stamp(), ["top", ["low"], ["middle", ["low"]]])
        self.assertEqual(top.stamp(), ["top", ["low"], ["middle", ["low"]]])
        self.assertEqual(sorted(taken), ["low", "middle", "top"])

    def test_sums_are_taken_anew_after_a_command(self):
        top, taken = self.crates()
        top.stamp()
        self.assertEqual(top.call("build", "x"), (["top", ["low"], ["middle", ["low"]]], ("build", "x")))
        top.stamp()
        with self.assertRaises(ValueError):
            top.prove("check")
        top.stamp()
        self.assertEqual(taken.count("low"), 4)


class Commands(unittest.TestCase):
    """What is on the path is run, with these words."""

    def ran(self, text, *words):
        with tempfile.TemporaryDirectory() as folder:
            file = Path(folder, "rt")
            file.write_text(text)
            file.chmod(0o755)
            path = {**os.environ, "PATH": folder + os.pathsep + os.environ["PATH"]}
            done = subprocess.run([sys.executable, "-B", rt.__file__, *words], env=path, stdout=subprocess.PIPE, stderr=subprocess.STDOUT)
        return done.returncode, done.stdout.decode()

    def test_another_rt_runs_as_it_is(self):
        self.assertEqual(self.ran("#!/bin/sh\necho \"$@\"\nexit 3\n", "check", "--jobs", "1"), (3, "check --jobs 1\n"))

    def test_the_words_are_handed_over(self):
        made = "#!/usr/bin/env python3\nclass rtlib:\n    class Crate:\n        stamp = call = prove = None\n\n\ndef main(words):\n    print(*words)\n    return 4\n"
        self.assertEqual(self.ran(made, "lib", "--jobs", "2"), (4, "lib --jobs 2\n"))


if __name__ == "__main__":
    unittest.main()
