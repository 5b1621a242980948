#!/usr/bin/env python3
"""own_checks.py: what no proof says of the tools and the pages. The last line is `N passed, N failed`; the status is 0 where none failed.

Tests of python/symk.py (test_symk.py), of tools/to_list.py (test_to_list.py), of tools/table.py (test_table.py), of tools/docstrings.py
(test_docstrings.py) and of tools/rt.py (test_rt.py); the names that the pages give (check_docs.py), and the docstrings of the sources (docstrings.py);
and that no name of specs/ stands in two crates (source_numbers.py): each that does is printed.

Tests that run the planner take the program of SYMK_PROGRAM, else .symk/symk, else what a check of one's own left in crates/symk_cli/out, else
what `./symk` compiles of the sources as they stand; where there is none they are skipped, which is said.
"""
import os
import subprocess
import sys
import unittest
from pathlib import Path

TOP = Path(__file__).resolve().parent.parent


def program():
    """The program that the tests run, if there is one."""
    built = [it for it in (TOP / ".symk" / "symk", TOP / "crates" / "symk_cli" / "out" / "symk_cli") if it.is_file()]
    if not built:
        subprocess.run([str(TOP / "symk"), "demo", "1"], stdin=subprocess.DEVNULL, stdout=subprocess.DEVNULL, stderr=subprocess.DEVNULL)
        built = sorted((TOP / ".symk").glob("tried-*"))
    return [str(it) for it in built[:1]]


if not os.environ.get("SYMK_PROGRAM"):
    os.environ.update({"SYMK_PROGRAM": it for it in program()})
sys.path[:0] = [str(TOP / "tools"), str(TOP / "python")]
import check_docs  # noqa: E402
import docstrings  # noqa: E402
import source_numbers  # noqa: E402
import test_docstrings  # noqa: E402
import test_rt  # noqa: E402
import test_symk  # noqa: E402
import test_table  # noqa: E402
import test_to_list  # noqa: E402


def main():
    tests = unittest.TestSuite(map(unittest.defaultTestLoader.loadTestsFromModule, (test_symk, test_to_list, test_table, test_docstrings, test_rt)))
    ran = unittest.TextTestRunner(stream=sys.stdout).run(tests)
    bad = len(ran.failures) + len(ran.errors)
    if ran.skipped:
        print("%d tests skipped: %s" % (len(ran.skipped), "; ".join(sorted({why for _, why in ran.skipped}))))
    passed, failed = check_docs.counts()
    for name, fault in docstrings.faults():
        passed, failed = passed + (fault is None), failed + (fault is not None)
        if fault:
            print("%s: %s" % (name, fault))
    twice = list(source_numbers.names())
    for name in twice:
        print("specs: %s" % name)
    passed, failed = passed + (not twice), failed + len(twice)
    passed, failed = passed + ran.testsRun - len(ran.skipped) - bad, failed + bad
    print("%d passed, %d failed" % (passed, failed))
    return 1 if failed else 0


if __name__ == "__main__":
    sys.exit(main())
