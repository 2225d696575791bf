#!/usr/bin/env python3
"""Writes the longest legal problem file, 25,679 bytes, to crates/cases/data/longest."""

from pathlib import Path

FACTS, OPS, TASKS, METHODS = 256, 64, 64, 128
LONGEST = 25_679


def line(key, *numbers):
    return f"{key}={','.join(map(str, numbers))}\n"


def facts(turn):
    """Eight facts of three digits, ascending, others for each turn."""
    step = 1 + turn % 19
    last = FACTS - 1 - turn * 7 % (FACTS - 100 - 7 * step)
    return range(last - 7 * step, last + 1, step)


def tasks(turn, count):
    """Tasks of three digits."""
    return ((100 + (turn * 5 + i * 11) % (OPS + TASKS - 100)) for i in range(count))


def operator(i):
    return (line("shelf", 65_535 - i) + line("yes", *facts(4 * i)) + line("no", *facts(4 * i + 1))
            + line("add", *facts(4 * i + 2)) + line("del", *facts(4 * i + 3)))


def method(j):
    return (line("for", *tasks(j, 1)) + line("yes", *facts(2 * j + 5)) + line("no", *facts(2 * j + 6))
            + line("sub", *tasks(j + 1, 8)))


text = (line("shop", 65_535) + line("facts", FACTS) + line("ops", OPS) + line("tasks", TASKS)
        + line("methods", METHODS) + line("start", *range(FACTS)) + line("first", *tasks(0, 16))
        + "".join(map(operator, range(OPS))) + "".join(map(method, range(METHODS))))
assert len(text) == LONGEST, len(text)
Path(__file__).parent.with_name("crates").joinpath("cases/data/longest").write_bytes(text.encode())
