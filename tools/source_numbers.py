#!/usr/bin/env python3
"""source_numbers.py [--all]: numbers that tell how hard the sources are to work in. With --all each place that is counted, too.

    signatures            functions of eight or more parameters
    lemmas                lemmas that are handed twelve or more arguments by place
    runs                  runs of six or more equal lines that stand in two crates (blank lines, comments, imports and modules left out)
    crates                lines of crates.txt
    wide                  lines of proofs above 160 columns
    names                 names that the specs of two crates define
"""
import re
import sys
from collections import defaultdict
from pathlib import Path

TOP = Path(__file__).resolve().parent.parent
RUN, MANY, DOZEN, COLUMNS = 6, 8, 12, 160
KINDS = "abbrev |record |data |unfoldable "
PASSED_OVER = re.compile(r"(//|--|#\[cfg\(test\)\]|use |ghost use |pub use |mod |pub mod |\W*\Z)")


def crates():
    """The crates of crates.txt."""
    lines = (line.split("#")[0] for line in (TOP / "crates.txt").read_text(encoding="utf-8").splitlines())
    return [line.split(":")[0].strip() for line in lines if ":" in line]


def files(part, ending):
    """The crate, the path and the text of each file of a part of the crates, without what a check makes."""
    for crate in crates():
        for file in sorted((TOP / "crates" / crate / part).rglob("*" + ending)):
            inside = file.relative_to(TOP)
            if "declared" not in inside.parts:
                yield crate, str(inside), file.read_text(encoding="utf-8")


def parts_of(text, mark, brackets):
    """A text split at the marks that stand in none of these brackets, where some stand between two marks."""
    depth, last, found = 0, 0, []
    for at, sign in enumerate(text):
        if sign == ">" and text[at - 1] in "-=":
            continue
        side = brackets.find(sign)
        if side >= 0:
            depth += 1 - 2 * (side % 2)
        elif sign == mark and depth == 0:
            found.append(text[last:at])
            last = at + 1
    return [it for it in [*found, text[last:]] if it.strip()]


def closed(text, at):
    """Where the bracket that opens at a place is closed."""
    depth = 0
    for end in range(at, len(text)):
        depth += (text[end] == "(") - (text[end] == ")")
        if depth == 0:
            return end
    return len(text)


def signatures():
    """Functions of eight or more parameters."""
    for _, path, text in files("src", ".rt"):
        for found in re.finditer(r"\bfn (\w+)(?:<[^(]*>)?\(", text):
            given = parts_of(text[found.end():closed(text, found.end() - 1)], ",", "()[]{}<>")
            if len(given) >= MANY:
                yield "%s:%d %s has %d" % (path, text.count("\n", 0, found.start()) + 1, found[1], len(given))


def handed(kind):
    """How many arguments a type asks for by place: names that it binds in round brackets, and what it wants shown."""
    count = 0
    for part in parts_of(kind, "→", "()[]{}")[:-1]:
        groups = parts_of(part.replace(")", ") ").replace("}", "} "), " ", "()[]{}")
        bound = [re.match(r"[({]([\w'\s-]+) : ", it) for it in groups]
        count += sum(len(it[1].split()) for it in bound if it and it[0][0] == "(") if all(bound) else 1
    return count


def lemmas():
    """Lemmas whose type asks for twelve or more arguments by place."""
    for _, path, text in files("proofs", ".antt"):
        for found in re.finditer(r"(?m)^( *)(?:pub )?([^\s:(){}=]+) :((?: .*|\n)(?:\n\1 +.*)*)", text):
            count = handed(found[3])
            if count >= DOZEN:
                yield "%s:%d %s has %d" % (path, text.count("\n", 0, found.start()) + 1, found[2], count)


def lines_of():
    """Of each file its lines that count, with their numbers."""
    for part, ending in (("src", ".rt"), ("specs", ".antt"), ("proofs", ".antt")):
        for crate, path, text in files(part, ending):
            lines = [(at, line.strip()) for at, line in enumerate(text.splitlines(), 1)]
            yield crate, path, [(at, line) for at, line in lines if not PASSED_OVER.match(line)]


def runs():
    """Runs of equal lines that stand in two crates, each longest one once for two files."""
    texts = {path: (crate, lines) for crate, path, lines in lines_of()}
    starts = defaultdict(list)
    for path, (crate, lines) in texts.items():
        for at in range(len(lines) - RUN + 1):
            starts[tuple(line for _, line in lines[at:at + RUN])].append((crate, path, at))
    pairs = defaultdict(set)
    for found in starts.values():
        for crate, path, at in found:
            for other, second, place in found:
                if crate < other:
                    pairs[path, second].add((at, place))
    for (path, second), places in sorted(pairs.items()):
        for at, place in sorted(places):
            if (at - 1, place - 1) not in places:
                end = at
                while (end + 1, place + end + 1 - at) in places:
                    end += 1
                first, other = texts[path][1], texts[second][1]
                yield "%s:%d ~ %s:%d, %d lines" % (path, first[at][0], second, other[place][0], end - at + RUN)


def wide():
    """Lines of proofs that are too wide to read."""
    for _, path, text in files("proofs", ".antt"):
        for number, line in enumerate(text.splitlines(), 1):
            if len(line) > COLUMNS:
                yield "%s:%d has %d columns" % (path, number, len(line))


def names():
    """Names that the specs of two crates define."""
    found = defaultdict(list)
    for crate, path, text in files("specs", ".antt"):
        for name in set(re.findall(r"(?m)^(?:%s)*pub (?:%s)*(?!mod |use )([\w◌-]+)" % (KINDS, KINDS), text)):
            found[name].append((crate, path))
    for name, places in sorted(found.items()):
        if len({crate for crate, _ in places}) > 1:
            yield "%s stands in %s" % (name, ", ".join(path for _, path in places))


def main(words):
    counts = {"signatures": signatures, "lemmas": lemmas, "runs": runs, "wide": wide, "names": names}
    for name, places in counts.items():
        found = list(places())
        print("%s %d" % (name, len(found)), *("  " + it for it in found if words == ["--all"]), sep="\n")
    print("crates %d" % len(crates()))


if __name__ == "__main__":
    main(sys.argv[1:])
