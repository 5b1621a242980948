#!/usr/bin/env python3
"""draw_plans.py < LIST > PICTURE.svg: a list of plans, as `symk plan` prints it, as a picture.

A row for each plan, in the order of the list, and a box for each step, in the order of the plan. Operators of one name have one
colour. A row ends with what its plan costs, and the picture with the line that says why the list ends.
"""
import sys
from html import escape
from pathlib import Path

sys.path.insert(0, str(Path(__file__).resolve().parent.parent / "python"))
import symk  # noqa: E402

COLOURS = ("#8dd3c7", "#ffffb3", "#bebada", "#fb8072", "#80b1d3", "#fdb462", "#b3de69", "#fccde5", "#d9d9d9", "#ccebc5", "#ffed6f")
HEIGHT, GAP, MARGIN, LETTER = 22, 8, 10, 6.2


def text(x, y, words, **style):
    said = "".join(' %s="%s"' % (key.replace("_", "-"), value) for key, value in style.items())
    return '<text x="%g" y="%g"%s>%s</text>' % (x, y, said, escape(words))


def picture(plans, end):
    """The picture of plans, under which stands why the list ends."""
    names = sorted({name for plan in plans for name in plan.names})
    colour = {name: COLOURS[i % len(COLOURS)] for i, name in enumerate(names)}
    width = LETTER * max([len(name) for name in names] or [1]) + 8
    left, longest = MARGIN + 22, max([len(plan.names) for plan in plans] or [0])
    total, y, parts = left + longest * (width + 3) + 90, MARGIN, []
    for plan in plans:
        parts.append(text(MARGIN, y + 15, str(plan.number), font_weight="bold"))
        for place, name in enumerate(plan.names):
            x = left + place * (width + 3)
            parts.append('<rect x="%g" y="%g" width="%g" height="%d" rx="4" fill="%s" stroke="#555"/>' % (x, y, width, HEIGHT, colour[name]))
            parts.append(text(x + width / 2, y + 15, name, text_anchor="middle"))
        parts.append(text(left + len(plan.names) * (width + 3) + 6, y + 15, "cost %d" % plan.cost, fill="#333"))
        y += HEIGHT + GAP
    parts.append(text(MARGIN, y + 15, end.line if end else "", fill="#333"))
    height = y + HEIGHT + MARGIN
    head = '<svg xmlns="http://www.w3.org/2000/svg" viewBox="0 0 %g %g" width="%g" height="%g" font-family="sans-serif" font-size="11">'
    ground = '<rect width="%g" height="%g" fill="white"/>' % (total, height)
    return "\n".join([head % (total, height, total, height), ground, *parts, "</svg>", ""])


if __name__ == "__main__":
    found = symk.read_list(sys.stdin.buffer)
    sys.stdout.buffer.write(picture(list(found), found.end).encode("utf-8", "replace"))
