#!/usr/bin/env python3
"""plot.py: draws the tables of bench/README.md: bench/growth.svg, time against size beside BuDDy, bench/tasks.svg, whole runs by each
search, and bench/peer.svg, whole runs beside a planner on BuDDy.

It needs matplotlib (Debian's python3-matplotlib). The pictures are the same at every run.
"""
import math
import re
from pathlib import Path

import matplotlib

matplotlib.use("svg")
matplotlib.rcParams.update({"svg.hashsalt": "symk", "svg.fonttype": "none", "font.size": 9})
import matplotlib.pyplot as plot
from matplotlib import ticker

BENCH = Path(__file__).resolve().parent


def rows(head):
    """The rows of the table that begins with this line."""
    text = (BENCH / "README.md").read_text(encoding="utf-8")
    table = re.search(re.escape(head) + r"\n\|[-|]+\n((?:\|.*\n)+)", text).group(1)
    return [[cell.strip() for cell in line.strip("|").split("|")] for line in table.splitlines()]


def save(figure, name):
    figure.savefig(BENCH / name, metadata={"Date": None}, bbox_inches="tight")


def growth():
    """A panel for each work: the milliseconds of both sides against its size."""
    told = rows("| Work | size | Rattle ms | BuDDy ms |")
    works = list(dict.fromkeys(row[0] for row in told))
    figure, panels = plot.subplots(1, len(works), figsize=(9, 2.8))
    for panel, work in zip(panels, works):
        sizes, ours, theirs = zip(*[map(float, row[1:]) for row in told if row[0] == work])
        panel.plot(sizes, ours, "o-", color="#1f77b4", label="Rattle")
        panel.plot(sizes, theirs, "s--", color="#ff7f0e", label="BuDDy 2.4")
        panel.set(title=work, xlabel="size", yscale="log", xticks=sizes)
        panel.set_ylim(1, 10 ** math.ceil(math.log10(max(ours + theirs))))
        panel.yaxis.set_minor_formatter(ticker.NullFormatter())
        panel.grid(True, which="both", alpha=0.3)
    panels[0].set_ylabel("milliseconds")
    panels[0].legend()
    save(figure, "growth.svg")


def tasks():
    """A group of bars for each task: the seconds of a whole run by each search; no bar past the limits."""
    head = "| Task | k | status | first and last cost | auto | forward | backward | bidirectional | MB by auto |"
    told = [row for row in rows(head) if "example" not in row[0]]
    figure, panel = plot.subplots(figsize=(9, 3.2))
    for shift, search in enumerate(("auto", "forward", "backward", "bidirectional")):
        seconds = [float(row[4 + shift]) if row[4 + shift] != "-" else 0 for row in told]
        panel.bar([place + 0.2 * shift - 0.3 for place in range(len(told))], seconds, 0.2, label=search)
    panel.set(yscale="log", ylabel="seconds", xticks=range(len(told)))
    panel.set_xticklabels([row[0] for row in told], rotation=20, ha="right")
    panel.grid(True, axis="y", alpha=0.3)
    panel.legend()
    save(figure, "tasks.svg")


def peer():
    """A pair of bars for each task: the seconds of a whole run, ours and the peer's."""
    told = rows("| task | k | mode | plans | first and last cost | symk | peer | ratio | symk MB | peer MB |")
    figure, panel = plot.subplots(figsize=(9, 3.2))
    for shift, (column, label) in enumerate(((5, "symk"), (6, "planner on BuDDy"))):
        panel.bar([place + 0.4 * shift - 0.2 for place in range(len(told))], [float(row[column]) for row in told], 0.4, label=label)
    panel.set(yscale="log", ylabel="seconds", xticks=range(len(told)))
    panel.set_xticklabels([f"{row[0]}, {row[2]}" if row[2] != "topk" else row[0] for row in told], rotation=40, ha="right", fontsize=7)
    panel.grid(True, axis="y", alpha=0.3)
    panel.legend()
    save(figure, "peer.svg")


if __name__ == "__main__":
    growth()
    tasks()
    peer()
