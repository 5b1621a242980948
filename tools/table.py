#!/usr/bin/env python3
"""table.py [--csv] RECORD|FOLDER..: a table of runs, by the records that `python/symk.py --record FILE` wrote; of a folder its *.json.

A row for each run, as Markdown or as CSV: task, k, mode, whether it was solved, plans, what the first and the last one cost, how the list
ended, seconds of the processor, and megabytes (10^6 bytes; what Python took itself before it called the program, 10 to 20, is the least
that is told). A run is solved where its list has an end of its own: reached, exhausted, more, bounded or cost range. `running` says that it
is, or that it was ended together with what recorded it, as a scheduler does. Under the Markdown stand how many are solved and how all ended.
"""
import argparse
import csv
import json
import re
import sys
from collections import Counter
from pathlib import Path

COLUMNS = ("task", "k", "mode", "solved", "plans", "first", "last", "end", "seconds", "megabytes")
SOLVED = ("reached", "exhausted", "more", "bounded", "cost range")


def records(paths):
    """What the files say, by the tasks' names, numbers in these by their values."""
    files = [file for path in map(Path, paths) for file in (sorted(path.glob("*.json")) if path.is_dir() else [path])]
    said = [json.loads(file.read_text(encoding="utf-8")) for file in files]
    for one in said:
        one["task"] = re.sub(r"\.sas$", "", Path(one["task"]).name)
        one["solved"] = "yes" if one["end"] in SOLVED else "no"
    return sorted(said, key=lambda one: ([(not part.isdigit(), int(part) if part.isdigit() else 0, part)
                                          for part in re.split(r"(\d+)", one["task"])], one["mode"], one["k"]))


def cells(one):
    return ["" if one.get(column) is None else "%.2f" % one[column] if column == "seconds" else str(one[column]) for column in COLUMNS]


def markdown(said):
    rows = ["| %s |" % " | ".join(cells(one)) for one in said]
    ends = Counter(one["end"] for one in said)
    told = "; ".join("%d %s" % (count, end) for end, count in ends.most_common())
    solved = sum(one["solved"] == "yes" for one in said)
    return "\n".join(["| %s |" % " | ".join(COLUMNS), "|---" * len(COLUMNS) + "|", *rows, "", "Solved %d of %d: %s." % (solved, len(said), told), ""])


def main():
    words = argparse.ArgumentParser(description=__doc__, formatter_class=argparse.RawDescriptionHelpFormatter)
    words.add_argument("--csv", action="store_true")
    words.add_argument("records", nargs="+", metavar="RECORD|FOLDER")
    asked = words.parse_args()
    said = records(asked.records)
    if asked.csv:
        rows = csv.writer(sys.stdout, lineterminator="\n")
        rows.writerow(COLUMNS)
        rows.writerows(map(cells, said))
    else:
        sys.stdout.write(markdown(said))


if __name__ == "__main__":
    main()
