#!/usr/bin/env python3
"""docstrings.py: places of crates/*/src that have no docstring.

A root file and each file of a module begin with `//!`; each public item and each function of a public trait has `///` above it and its attributes;
and what stands above any item is `///`, not `//`. Each place without is printed; the last line is `N files without a docstring`, and the
status is 0 where there is none.
"""
import re
import sys
from pathlib import Path

TOP = Path(__file__).resolve().parent.parent
KINDS = r"(?:ghost |const |unsafe )*(?:fn|struct|enum|trait|const|static|type) \w"
PUBLIC = re.compile(r"\s*pub " + KINDS)
ITEM = re.compile(r"\s*(?:pub(?:\(\w+\))? )?" + KINDS)
TRAIT = re.compile(r"\s*pub trait \w.*\{$")
METHOD = re.compile(r"\s*fn \w")


def above(lines, at):
    """The line above this one and its attributes, '' where there is none."""
    rest = [line.strip() for line in lines[:at] if not line.strip().startswith("#[")]
    return rest[-1] if rest else ""


def missing(text):
    """The numbers of the lines of a source file that want a docstring, with what they have in its place."""
    lines, trait = text.split("\n"), None
    if not lines[0].startswith("//!"):
        yield 1, "no //!"
    for at, line in enumerate(lines):
        indent = len(line) - len(line.lstrip())
        if TRAIT.match(line):
            trait = indent
        elif trait == indent and line.strip() == "}":
            trait = None
        if not ITEM.match(line):
            continue
        over = above(lines, at)
        if over.startswith("//") and not over.startswith("///"):
            yield at + 1, "// in place of ///"
        elif not over.startswith("///") and (PUBLIC.match(line) or trait is not None and METHOD.match(line)):
            yield at + 1, "no ///"


def faults():
    """Each source file of a crate, with what is wrong with it or None."""
    for file in sorted((TOP / "crates").glob("*/src/**/*.rt")):
        found = list(missing(file.read_text(encoding="utf-8")))
        yield str(file.relative_to(TOP)), "; ".join(f"line {at}: {what}" for at, what in found) or None


def main():
    bad = [(name, fault) for name, fault in faults() if fault]
    for name, fault in bad:
        print(f"{name}: {fault}")
    print(f"{len(bad)} files without a docstring")
    return 1 if bad else 0


if __name__ == "__main__":
    sys.exit(main())
