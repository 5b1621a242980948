#!/usr/bin/env python3
"""check_docs.py: whether what docs/ and the README name stands in the sources.

In the tables of docs/PROVED.md a call is written `crate::name` or `crate::Type::name`, with the labels of its clauses in brackets
after it; in every page a definition is written `crate/specs/File.antt`, with the names that are meant in brackets after it, and a
must-fail edit `crate/name`. Links and other paths in backticks must lead to files, and where a page says "`name` in `crate/src/file.rt`"
that file has such a function. A block of Rust below a line that ends with a file of a crate and a colon is a quotation: its lines stand in
that file, one after the other (a line `..` stands for some that are left out). The picture and the table of crates in
docs/ARCHITECTURE.md are compared with crates.txt: each has all crates, none stands on a higher floor, and what a row says that its crates
stand on is there; and each crate that crates.txt says that a crate stands on is named in one of its files. The list of what one reads to
believe the program, at the end of docs/PROVED.md, is compared with what statement.py reaches. Each thing that is named counts once; what
isn't found is printed. The last line is `N passed, N failed`, and the status is 0 where none failed.
"""
import re
import sys
from functools import lru_cache
from pathlib import Path

import statement

TOP = Path(__file__).resolve().parent.parent
PAGES = [TOP / "README.md", TOP / "CONTRIBUTING.md", *sorted((TOP / "docs").glob("*.md")),
         TOP / "examples" / "README.md", TOP / "bench" / "README.md", TOP / "bench" / "HISTORY.md",
         *sorted((TOP / "crates").glob("*/README.md"))]
CALL = re.compile(r"`([a-z]\w*)::([A-Za-z]\w*(?:::\w+)?)`(?:\s+\(([\w,\s]+)\))?")
DEFINITION = re.compile(r"`([a-z]\w*/specs/[A-Z][a-z]\w*\.antt)`(?:\s+\(([\w,\s]+)\))?")
EDIT = re.compile(r"`([a-z]\w*)/(?!specs`|src`|proofs`|must-fail`)([a-z0-9_]+)`")
FILE = re.compile(r"`((?:crates|docs|examples|bench|tools|python|\.ci)/[\w./-]*)`")
PLACE = re.compile(r"`(?:\w+::)?(\w+)`\s+in\s+`(\w+/src/[\w/]+\.rt)`")
SOURCE = re.compile(r"`(?:crates/)?(\w+/src/[\w/]+\.rt)`")
QUOTATION = re.compile(r"`crates/(\w+/src/[\w/]+\.rt)`:\n\n?```rust\n(.*?)```", re.DOTALL)
LINK = re.compile(r"\]\(([^)#:]+)(?:#[\w-]+)?\)")


def names_in(brackets):
    return [name.strip() for name in brackets.split(",")] if brackets else []


@lru_cache(None)
def sources(crate):
    return "\n".join(path.read_text(encoding="utf-8") for path in sorted((TOP / "crates" / crate / "src").rglob("*.rt")))


@lru_cache(None)
def labels(crate, function):
    """The labels of the clauses of the functions of this name, '' for a clause without one; None where there is no such function."""
    text = sources(crate)
    bodies = re.findall(r"\bfn " + function + r"\b(.*?)(?=\n\s*(?:pub |pub\(crate\) )?(?:ghost )?fn |\Z)", text, re.DOTALL)
    if not bodies:
        return None
    return {label for body in bodies for label in re.findall(r"^\s*ensures(?: (\w+))? \{", body, re.MULTILINE)}


def call_fault(crate, path, wanted):
    *owner, function = path.split("::")
    found = labels(crate, function)
    if found is None:
        is_type = re.search(r"\b(?:struct|enum|trait) " + path + r"\b", sources(crate))
        return None if is_type and not wanted else "no such call"
    if owner and not re.search(r"\b(?:struct|enum|trait) " + owner[0] + r"\b", sources(crate)):
        return "no such type"
    missing = [label for label in wanted if label not in found]
    if missing:
        return "no clause " + ", ".join(missing)
    return None if wanted or "" in found else "which clause?"


def definition_fault(path, wanted):
    file = TOP / "crates" / path
    if not file.is_file():
        return "no such file"
    text = file.read_text(encoding="utf-8")
    defined = r"^\s*(?:abbrev |unfoldable )?pub (?:record |data )?%s\b"
    missing = [name for name in wanted if not re.search(defined % name, text, re.MULTILINE)]
    return "no definition " + ", ".join(missing) if missing else None


def place_fault(name, path):
    file = TOP / "crates" / path
    if not file.is_file():
        return "no such file"
    return None if re.search(r"\bfn " + name + r"\b", file.read_text(encoding="utf-8")) else "no such function there"


def quotation_fault(path, block):
    """Whether the pieces of a quotation stand in the file, but for how far they are indented."""
    file = TOP / "crates" / path
    if not file.is_file():
        return "no such file"
    text = "\n".join(line.strip() for line in file.read_text(encoding="utf-8").splitlines())
    pieces = "\n".join(line.strip() for line in block.splitlines()).split("\n..\n")
    missing = [piece.strip() for piece in pieces if piece.strip() not in text]
    return "isn't there: " + missing[0].split("\n")[0] if missing else None


def page_faults(page):
    """Each thing that the page names, with what is wrong with it or None."""
    text = page.read_text(encoding="utf-8")
    for crate, path, brackets in CALL.findall(text):
        if (TOP / "crates" / crate).is_dir():
            yield f"{crate}::{path}", call_fault(crate, path, names_in(brackets))
    for path, brackets in DEFINITION.findall(text):
        yield path, definition_fault(path, names_in(brackets))
    for crate, name in EDIT.findall(text):
        if (TOP / "crates" / crate).is_dir():
            edit = TOP / "crates" / crate / "must-fail" / f"{name}.edit"
            yield f"{crate}/{name}", None if edit.is_file() else "no such edit"
    for path in FILE.findall(text):
        yield path, None if (TOP / path).exists() else "no such file"
    for name, path in PLACE.findall(text):
        yield f"{name} in {path}", place_fault(name, path)
    for path in SOURCE.findall(text):
        yield path, None if (TOP / "crates" / path).is_file() else "no such file"
    for path, block in QUOTATION.findall(text):
        yield f"a quotation of {path}", quotation_fault(path, block)
    for path in LINK.findall(text):
        yield path, None if (page.parent / path).exists() else "a link to nothing"


def edge_faults():
    """Each crate that a line of crates.txt names against the files of the crate that stands on it: some file has its name."""
    for line in (TOP / "crates.txt").read_text(encoding="utf-8").splitlines():
        name, _, below = line.split("#")[0].partition(":")
        folder = TOP / "crates" / name.strip()
        files = [it for part in ("src", "specs", "proofs") for it in (folder / part).rglob("*") if it.suffix in (".rt", ".antt")]
        words = {word for it in files for word in re.findall(r"\w+", it.read_text(encoding="utf-8"))} if below else set()
        for it in below.split():
            yield f"{name.strip()} on {it}", None if it in words else "no file of the crate names it: take it out of the line in crates.txt"


def crates_listed():
    """The crates of crates.txt, and those of them that each stands on."""
    lines = (TOP / "crates.txt").read_text(encoding="utf-8").splitlines()
    stands = dict(re.match(r"(\w+)[^:]*:(.*)", line).groups() for line in lines if re.match(r"\w+[^:]*:", line))
    return {name: [below for below in words.split() if below in stands] for name, words in stands.items()}


def floors_drawn(text):
    """The floor of each crate in the picture, counted from the lowest; `beside` is above all."""
    names, floors = [], {}
    for line in re.search(r"```text\n(.*?)```", text, re.DOTALL).group(1).splitlines():
        if line[0] != " ":
            names.append(line.split()[0])
        for crate in line.split() if line[0] == " " else []:
            floors[crate] = len(names)
    beside = names.index("beside") + 1
    return {crate: beside if floor == beside else -floor for crate, floor in floors.items()}


def floor_faults():
    """The picture and the table of docs/ARCHITECTURE.md against crates.txt."""
    text, stands = (TOP / "docs" / "ARCHITECTURE.md").read_text(encoding="utf-8"), crates_listed()
    rows = {name for row in re.findall(r"^\| (`\w+`(?:, `\w+`)*) \|", text, re.MULTILINE) for name in re.findall(r"`(\w+)`", row)}
    floors = floors_drawn(text)
    for name in sorted({*stands, *rows, *floors}):
        if name not in stands:
            yield name, "is in no line of crates.txt"
        elif name not in rows or name not in floors:
            yield name, "has no row in the table" if name not in rows else "is not in the picture"
        else:
            above = [below for below in stands[name] if floors.get(below, 0) > floors[name]]
            yield name, "stands on a higher floor: " + ", ".join(above) if above else None


def row_faults():
    """What each row of the table of docs/ARCHITECTURE.md says that its crates stand on, against crates.txt."""
    text, stands = (TOP / "docs" / "ARCHITECTURE.md").read_text(encoding="utf-8"), crates_listed()
    for names, last in re.findall(r"^\| (`\w+`(?:, `\w+`)*) \|.*\| ([^|]*) \|$", text, re.MULTILINE):
        crates = re.findall(r"`(\w+)`", names)
        below = {name for crate in crates for name in stands.get(crate, [])}
        wrong = [name for name in re.findall(r"`(\w+)`", last) if name in stands and name not in below]
        yield names, "doesn't stand on " + ", ".join(wrong) if wrong else None


def statement_faults():
    """The list at the end of docs/PROVED.md against the files where contracts start and those that they reach; it may name the edge too."""
    text = (TOP / "docs" / "PROVED.md").read_text(encoding="utf-8").split("## What you read to believe the program")[1]
    named = {it for it in re.findall(r"`(?:crates/)?(\w+/(?:specs|src)/[\w/]+\.(?:antt|rt))`", text)}
    wanted = {"%s/%s" % place[:2] for place in [*statement.of_program(), *statement.STARTS]}
    for name in sorted(named | wanted):
        is_edge = name == "symk_io/src/host.rt"
        yield name, "isn't in the list of what one reads" if name not in named else None if name in wanted or is_edge else "isn't reached by a contract"


def counts():
    """How many of the things named were found, and how many not; those are printed."""
    passed, failed = 0, 0
    for page in [*(page for page in PAGES if page.exists()), None]:
        for name, fault in page_faults(page) if page else [*floor_faults(), *row_faults(), *edge_faults(), *statement_faults()]:
            passed, failed = passed + (fault is None), failed + (fault is not None)
            if fault:
                print(f"{page.relative_to(TOP) if page else 'docs/'}: {name}: {fault}")
    return passed, failed


def main():
    passed, failed = counts()
    print(f"{passed} passed, {failed} failed")
    return 1 if failed else 0


if __name__ == "__main__":
    sys.exit(main())
