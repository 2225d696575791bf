#!/usr/bin/env python3
"""Writes a largest problem and a plan of 2,000 rows that solves it, as the files `problem` and `plan` of a folder.

Usage: largest.py FOLDER [FIRST]. FIRST is how many first tasks there are, 4, 8 or 16 (the default). The plan has 125
rows for each of them.
"""

import sys
from pathlib import Path

FACTS, OPS, TASKS, METHODS = 256, 64, 64, 128
LONGEST = 25_679
RING = 32  # groups of eight facts, in a ring; every fact holds but those of one group, the gap
DEEPEST = 29  # a travel through so many others has its last tasks at level 32


def line(key, *numbers):
    return f"{key}={','.join(map(str, numbers))}\n"


def group(place):
    """Eight facts, far apart so that every part of a state is asked."""
    return range(place % RING, FACTS, RING)


# Tasks, each for a gap that stands at the place.

def forth(place):
    """The operator that moves the gap one place on."""
    return place % RING


def back(place):
    """The operator that moves the gap one place back."""
    return RING + place % RING


def swing(place):
    """Away from the place and back to it."""
    return OPS + place % RING


def travel(place):
    """Two places on."""
    return OPS + RING + place % RING


def operator(shelf, place, to):
    return (line("shelf", shelf) + line("yes", *group(to)) + line("no", *group(place))
            + line("add", *group(place)) + line("del", *group(to)))


def method(task, place, beside, sub):
    return line("for", task) + line("yes", *group(beside)) + line("no", *group(place)) + line("sub", *sub)


def swings(p):
    """The ways to swing: forth first, or back first."""
    out = [forth(p + i) for i in range(4)]
    home = [back(p - i) for i in range(4)]
    return [out + [back(p + 4 - i) for i in range(4)], home + [forth(p - 4 + i) for i in range(4)]]


def travels(p):
    """The ways to travel: swinging at each place, or by travelling from the next place first."""
    return [[swing(p), forth(p), swing(p + 1), forth(p + 1), swing(p + 2), forth(p + 2), swing(p + 3), back(p + 3)],
            [forth(p), travel(p + 1), back(p + 3), swing(p + 2), back(p + 2), forth(p + 1), forth(p + 2), back(p + 3)]]


SUBS = ([sub for p in range(RING) for sub in swings(p)]
        + [sub for p in range(RING) for sub in travels(p)])


def rows(task, depth):
    """The rows for a task and all below it. A travel goes through as many others as the depth says."""
    if task < OPS:
        return [line("do", task)]
    # both ways to swing are taken in turn
    way = (task + depth) % 2 if task < OPS + RING else int(depth > 0)
    number = 2 * (task - OPS) + way
    below = depth - 1 if way else 0
    return [line("by", number)] + [row for sub in SUBS[number] for row in rows(sub, below)]


def depths(count):
    """The depth of each first task: the first as deep as the levels allow, the others alike."""
    total = 21 * count // 4
    first = min(DEEPEST, total)
    return [first] + [(total - first + i) // (count - 1) for i in range(count - 1)]


def problem(first):
    return (line("shop", 65_535) + line("facts", FACTS) + line("ops", OPS) + line("tasks", TASKS)
            + line("methods", METHODS) + line("start", *sorted(set(range(FACTS)) - set(group(0))))
            + line("first", *first)
            + "".join(operator(65_535 - p, p, p + 1) for p in range(RING))
            + "".join(operator(65_535 - RING - p, p, p - 1) for p in range(RING))
            + "".join(method(OPS + j // 2, j // 2, j // 2 + 1 + j % 2, SUBS[j]) for j in range(METHODS)))


folder, count = Path(sys.argv[1]), int(sys.argv[2]) if len(sys.argv) > 2 else 16
first = [travel(2 * i) for i in range(count)]
text = problem(first)
plan = [row for task, depth in zip(first, depths(count)) for row in rows(task, depth)]
assert len(text) <= LONGEST, len(text)
assert len(plan) == 125 * count, len(plan)
folder.joinpath("problem").write_text(text)
folder.joinpath("plan").write_text(line("shop", 65_535) + line("rows", len(plan)) + "".join(plan))
