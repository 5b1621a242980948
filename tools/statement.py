#!/usr/bin/env python3
"""statement.py [NAME..]: which definitions the contract of `run` reaches, by files; with names, those that these definitions reach.

With it go the contracts of the traits over whose files and sinks it runs, and of `exit_of`, by which the program ends. A clause names
definitions of specs/, and these name others: what stands in the files that are printed is all that one has to read to know what `run`
promises. Beside each file stand the lines of the definitions reached there, and how many these are. What is declared in src/
(types and constants) is reached by its own file. Definitions of the toolchain's libraries aren't followed.
"""
import re
import sys
from functools import lru_cache
from pathlib import Path

TOP = Path(__file__).resolve().parent.parent
STARTS = (("symk_cli", "src/top.rt", "run"), ("symk_io", "src/files.rt", "Files"), ("symk_io", "src/sink.rt", "Sink"),
          ("symk_cli", "src/main.rt", "exit_of"))
WORD = re.compile(r"[A-Za-z_][\w'-]*(?:\.[A-Za-z_][\w'-]*)*")
USE = re.compile(r"^(?:pub )?(?:ghost )?use Rattle\.(\w+)\.specs\.([\w.]+?)(?:\.\{([^}]*)\}| as (\w+));?$", re.MULTILINE)
HEAD = re.compile(r"^(?:(?:abbrev|unfoldable|pub|record|data) )*(?:pub )?([A-Za-z_][\w'-]*)", re.MULTILINE)


@lru_cache(None)
def text_of(crate, file):
    path = TOP / "crates" / crate / file
    return path.read_text(encoding="utf-8") if path.is_file() else ""


def place(crate, module):
    """The file of a module of specs/: of a declared one the source file in which the type or constant stands."""
    parts = module.split(".")
    if parts[0] != "declared":
        return crate, "specs/%s.antt" % "/".join(parts)
    for length in range(len(parts) - 1, 0, -1):
        for file in ("src/%s.rt" % "/".join(parts[1 : length + 1]), "src/%s/mod.rt" % "/".join(parts[1 : length + 1])):
            if length and text_of(crate, file):
                return crate, file
    return crate, "src/lib.rt" if text_of(crate, "src/lib.rt") else "src/main.rt"


@lru_cache(None)
def imports(crate, file):
    """What each name that a file brings in means: a place and a name there, or a place alone for a module."""
    found = {}
    for library, module, names, alias in USE.findall(text_of(crate, file)):
        if not (TOP / "crates" / library).is_dir():
            continue
        if alias:
            found[alias] = (*place(library, module), None)
        for item in filter(None, map(str.strip, names.split(","))):
            name, _, other = item.partition(" as ")
            found[(other or name).strip()] = (*place(library, module), name.strip())
    return found


@lru_cache(None)
def definitions(crate, file):
    """The definitions of a file of specs/: each name with its text, and the type of each constructor."""
    found, name = {}, None
    for line in text_of(crate, file).splitlines():
        head = HEAD.match(line)
        if line.startswith(("--", "use ", "pub use ")) or not line.strip():
            continue
        if head and not line.startswith(" "):
            name = head.group(1)
        if name:
            found.setdefault(name, []).append(line)
    inner = {}
    for name, lines in found.items():
        if re.search(r"\bdata\b", lines[0]):
            for line in lines[1:]:
                constructor = re.match(r"\s+(?:pub )?([\w'-]+)\s*:", line)
                if constructor:
                    inner[constructor.group(1)] = name
    return found, inner


def clauses(crate, file, name):
    """The contract of a function, or of the calls of a trait."""
    found = re.search(r"\b(?:fn|trait) %s\b.*?\n[{}]" % name, text_of(crate, file), re.DOTALL)
    return "\n".join(re.findall(r"(?:ensures|requires)[^{]*\{(.*?)\}(?=;?\n)", found.group(0), re.DOTALL)) if found else ""


def reached(start):
    """Each file with the names that are reached there, from what is named in the texts to start with."""
    files, waiting, seen = {}, [], set()

    def name_all(crate, file, text):
        bring, (own, inner) = imports(crate, file), definitions(crate, file) if file.startswith("specs/") else ({}, {})
        for word in WORD.findall(text):
            first = word.split(".")[0]
            if first in bring:
                waiting.append(bring[first])
            elif first in own or first in inner:
                waiting.append((crate, file, inner.get(first, first)))

    for crate, file, text in start:
        name_all(crate, file, text)
    while waiting:
        crate, file, name = waiting.pop()
        if (crate, file, name) in seen:
            continue
        seen.add((crate, file, name))
        if file.startswith("src/"):
            files.setdefault((crate, file), {})[name] = []
            continue
        found, inner = definitions(crate, file)
        name = inner.get(name, name)
        lines = found.get(name, [])
        files.setdefault((crate, file), {})[name] = lines
        name_all(crate, file, "\n".join(lines))
    return files


def of_program():
    """The files that the contracts at the start reach."""
    return reached([(crate, file, clauses(crate, file, name)) for crate, file, name in STARTS])


def main(names):
    files = reached([("symk_cli", "specs/Answer.antt", " ".join(names))]) if names else of_program()
    lines = 0
    for (crate, file), found in sorted(files.items()):
        count = sum(len(it) for it in found.values())
        lines += count
        print("%-44s %4d  %s" % (crate + "/" + file, count, " ".join(sorted(str(it) for it in found))))
    print("%d files, %d lines of definitions" % (len(files), lines))


if __name__ == "__main__":
    main(sys.argv[1:])
