#!/usr/bin/env python3
"""Writes crates/hillcases/stdout: costs, masts and edits of the sample hills.

It is written from docs/COURSE.md, docs/COSTS.md and docs/HILL-CASES.md and shares nothing with the library. Costs
are worked out from their meaning by trying everything: the gate mast by all pairs of gates, the free mast as the
smallest circle around the gates, found with exact fractions among all circles through two or three of them.
"""

from fractions import Fraction
from itertools import combinations
from pathlib import Path

H = [(1, 0, 900), (2, 300, 500), (3, 600, 100), (4, 1000, -200)]
V = [(i + 1, d, -d) for i, d in enumerate([0, 10, 20, 21, 22, 23, 24])]
SLOPE = [(i, i, -i) for i in range(200)]
LIMITS = [300_000, 1_000_000]


def squared(a, b):
    return (a[0] - b[0]) ** 2 + (a[1] - b[1]) ** 2


def gate_mast(points):
    """Four times the least greatest squared distance from one of the points, and the first such point, doubled."""
    costs = [4 * max(squared(y, x) for x in points) for y in points]
    y = points[costs.index(min(costs))]
    return min(costs), (2 * y[0], 2 * y[1])


def circumcentre(a, b, c):
    """The point as far from a as from b and c, or None where they are on one line."""
    d = 2 * (a[0] * (b[1] - c[1]) + b[0] * (c[1] - a[1]) + c[0] * (a[1] - b[1]))
    if d == 0:
        return None
    sizes = [p[0] ** 2 + p[1] ** 2 for p in (a, b, c)]
    x = sizes[0] * (b[1] - c[1]) + sizes[1] * (c[1] - a[1]) + sizes[2] * (a[1] - b[1])
    y = sizes[0] * (c[0] - b[0]) + sizes[1] * (a[0] - c[0]) + sizes[2] * (b[0] - a[0])
    return Fraction(x, d), Fraction(y, d)


def free_mast(points):
    """Four times the squared radius of the smallest circle around the points, and its centre, doubled."""
    centres = list(points)
    centres += [(Fraction(a[0] + b[0], 2), Fraction(a[1] + b[1], 2)) for a, b in combinations(points, 2)]
    centres += [c for c in (circumcentre(*t) for t in combinations(points, 3)) if c is not None]
    radius, centre = min((max(squared(c, p) for p in points), c) for c in centres)
    cost, mast = 4 * radius, (2 * centre[0], 2 * centre[1])
    assert all(Fraction(n).denominator == 1 for n in (cost, *mast))
    return int(cost), (int(mast[0]), int(mast[1]))


def trench(points):
    return points[-1][0] - points[0][0] + points[0][1] - points[-1][1]


def step(cost):
    for i, limit in enumerate(LIMITS):
        if cost <= limit:
            return f"s{i + 1}"
    return f"b{cost}"


def span_lines(hill):
    lines = []
    for first in range(1, len(hill) + 1):
        for last in range(first, len(hill) + 1):
            points = [g[1:] for g in hill[first - 1 : last]]
            span = f"{first}-{last}"
            cost, mast = gate_mast(points)
            lines.append(f"GATE {span} {cost} {mast[0]} {mast[1]}")
            cost, mast = free_mast(points)
            lines.append(f"FREE {span} {cost} {mast[0]} {mast[1]}")
            lines.append(f"TRENCH {span} {trench(points)}")
            lines.append(f"STEP {span} {step(cost)} {mast[0]} {mast[1]}")
    return lines


def above(a, b):
    return a[1] < b[1] and a[2] > b[2]


def refusal(gates, word, gate):
    """The number of the first reason against an edit, with the gate of number 5."""
    number = gate[0]
    is_set = any(g[0] == number for g in gates)
    if word != "remove" and not (0 <= gate[1] <= 1_048_575 and -524_288 <= gate[2] <= 524_287):
        return "1"
    if word == "add" and is_set:
        return "2"
    if word != "add" and not is_set:
        return "3"
    if word == "add" and len(gates) == 200:
        return "4"
    if word != "remove":
        for other in gates:
            if other[0] != number and not above(other, gate) and not above(gate, other):
                return f"5 {other[0]}"
    return None


def edit_line(gates, text):
    word, *numbers = text.split()
    gate = tuple(int(n) for n in numbers)
    reason = refusal(gates, word, gate)
    if reason is None:
        others = [g for g in gates if g[0] != gate[0]]
        gates = sorted(others + ([] if word == "remove" else [gate]), key=lambda g: g[1])
    outcome = "done" if reason is None else f"refused {reason}"
    return " ".join([text, outcome, "leaves", *(str(g[0]) for g in gates)])


EDITS = {
    "edits of H": (
        H,
        """add 9 1048576 -300
        add 9 1048575 -300
        add 9 2000 -524289
        add 9 2000 -524288
        add 2 2000 -300
        add 9 300 400
        add 9 400 400
        add 9 0 900
        add 9 1000 -300
        remove 9
        remove 2
        remove 1
        remove 4
        relocate 9 400 400
        relocate 2 300 400
        relocate 2 300 500
        relocate 2 2000 -300
        relocate 2 0 400
        relocate 3 300 400
        relocate 2 1048576 0
        add 1 1048576 0
        add 1 300 400
        relocate 9 1048576 0
        relocate 9 300 400""",
    ),
    "edits of no gates": (
        [],
        """add 1 0 524287
        add 1 0 524288
        add 0 1048575 -524288
        add 255 0 0
        remove 1
        relocate 1 0 0""",
    ),
    "edits of 200 gates": (
        SLOPE,
        """add 200 200 -200
        add 199 200 -200
        add 200 0 0
        add 200 1048576 0
        remove 0
        remove 199
        relocate 0 200 -200
        relocate 100 98 -100
        relocate 100 99 -101""",
    ),
}


def main():
    lines = ["H", *span_lines(H), "V", *span_lines(V)]
    for heading, (gates, edits) in EDITS.items():
        lines.append(heading)
        lines += [edit_line(gates, edit.strip()) for edit in edits.splitlines()]
    out = Path(__file__).parent.parent / "crates/hillcases/stdout"
    out.parent.mkdir(parents=True, exist_ok=True)
    out.write_text("\n".join(lines) + "\n")


main()
