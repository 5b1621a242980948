#!/usr/bin/env python3
"""rt.py WORDS..: the toolchain's `rt WORDS..`, in seconds where that takes minutes before and after a check.

rt tells by a sum over its files whether a library is built of what lies there, and in it are the sums of the libraries below: by some of
the toolchain's kits each is taken anew along every way that leads down to it in crates.txt. From the crates that stand on most others there are thousands of ways.
Here a crate's sum is taken once, and kept until a check or a build begins or ends. Where the toolchain's rt isn't made as this expects,
it runs as it is. The gate is a plain `rt ci`, and never this.
"""
import importlib.machinery
import importlib.util
import os
import shutil
import sys


def loaded(file):
    """The toolchain's rt as a module."""
    loader = importlib.machinery.SourceFileLoader("rt", file)
    made = importlib.util.module_from_spec(importlib.util.spec_from_loader("rt", loader))
    sys.modules["rt"] = made
    loader.exec_module(made)
    return made


def keep_sums(crate):
    """Has crates keep their sums between two commands of the checker."""
    sums, stamp = {}, crate.stamp

    def kept(self):
        if self.folder not in sums:
            sums[self.folder] = stamp(self)
        return sums[self.folder]

    def anew(run):
        def ran(self, *words):
            sums.clear()
            try:
                return run(self, *words)
            finally:
                sums.clear()

        return ran

    crate.stamp, crate.call, crate.prove = kept, anew(crate.call), anew(crate.prove)


def main(words):
    file = os.path.realpath(shutil.which("rt") or sys.exit("rt.py: the command rt isn't on the path"))
    try:
        rt = loaded(file)
        crate, run = rt.rtlib.Crate, rt.main
        keep_sums(crate)
    except (AttributeError, ImportError, OSError, SyntaxError):
        os.execv(file, [file, *words])
    return run(words)


if __name__ == "__main__":
    sys.dont_write_bytecode = True
    sys.exit(main(sys.argv[1:]))
