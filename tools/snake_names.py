#!/usr/bin/env python3
"""Respells the repository's own definitions and lemmas: types in upper camel case, all else in snake case.

usage: python3 tools/snake_names.py [--list]      at the top of the repository; --list prints the names and changes nothing

Reads what crates/*/specs and crates/*/proofs declare, with the fields of records, the constructors of data, what stands in
sections, and the names that imports give. Answers to goals, functions of src/, comments and strings keep their spelling. A
name is taken for one thing in all crates: look for those that are two (--list marks names that fall together). To be run
once, after port.py.
"""
import glob
import re
import sys

TOKEN = re.compile(r"(?P<dot>\.?)(?P<word>[A-Za-z][A-Za-z0-9_'′\-₀-₉]*)")
COMMENT = {"antt": re.compile(r"(--[^\n]*)"), "rt": re.compile(r"(//[^\n]*|b?\"(?:[^\"\\\n]|\\.)*\"|b?'(?:[^'\\\n]|\\.)')")}

# Names that would fall together with another, and those that are not to change: a trait's ghost member, a field that is a fact.
OTHERS = {"lines-of": "lines_of_lem", "at-end": "at_end_lem", "fact-list": "fact_list_lem", "level-first": "level_first_lem", "plan-loads": "plan_loads_lem"}
KEPT = {"takes", "Good"}


def files():
    for pattern in ("specs/**/*.antt", "proofs/**/*.antt", "src/**/*.rt"):
        yield from sorted(glob.glob("crates/*/" + pattern, recursive=True))


def snake(name):
    if name in OTHERS:
        return OTHERS[name]
    name = re.sub(r"(?<=[a-z0-9])([A-Z])", lambda m: "_" + m.group(1), name)
    return name.replace("-", "_").lower().replace("′", "'")


def camel(name):
    words = re.split(r"[-_]", name)
    return "".join(w[:1].upper() + w[1:] for w in words).replace("′", "'")


def is_type(rest):
    return re.search(r"(→|^:)\s*Type\s*[0-9(]?[^→]*$", rest) is not None


def collect():
    """What is renamed, and which of these names stand after a dot."""
    plain, fields = {}, {}
    for path in files():
        with open(path, encoding="utf-8") as f:
            lines = f.read().split("\n")
        inside = False
        for line in lines:
            for name in re.findall(r"\bas ([a-z]+[A-Z][A-Za-z]*)", line):
                plain[name] = snake(name)
            if not line or line.lstrip().startswith("--"):
                continue
            if not path.endswith(".antt"):
                continue
            m = re.match(r"(\s*)((?:abbrev|unfoldable|pub|opaque) )*(record |data )?(\S+)\s*(.*)", line)
            indent, kind, name, rest = m.group(1), (m.group(3) or "").strip(), m.group(4), m.group(5)
            if not re.fullmatch(r"[A-Za-z][A-Za-z0-9_'′\-₀-₉]*", name):
                continue
            if not indent:
                inside = bool(kind)
                if not kind and not rest.startswith(":"):
                    continue
            elif not rest.startswith(": ") and not kind:
                continue
            if rest.startswith(": goal.") or name in KEPT:
                continue
            to = camel(name) if kind or is_type(rest) and not (indent and inside) else snake(name)
            if to == name:
                continue
            plain[name] = to
            if indent and inside:
                fields[name] = to
    return plain, fields


def respell(text, comment, plain, fields):
    def turn(m):
        word = m.group("word")
        if m.group("dot"):
            return "." + fields.get(word, word)
        return plain.get(word, word)

    pieces = comment.split(text)
    return "".join(p if i % 2 else TOKEN.sub(turn, p) for i, p in enumerate(pieces))


def main():
    plain, fields = collect()
    texts = {}
    for path in files():
        with open(path, encoding="utf-8") as f:
            texts[path] = f.read()
    if "--list" in sys.argv:
        had = {m.group("word") for t in texts.values() for m in TOKEN.finditer(t)}
        seen = {}
        for name, to in sorted(plain.items()):
            print("field" if name in fields else "name ", name, to, "ALREADY" if to in had else "", "TOGETHER " + seen[to] if to in seen else "")
            seen[to] = name
        return
    for path, text in texts.items():
        new = respell(text, COMMENT[path.rsplit(".", 1)[1]], plain, fields)
        if new != text:
            with open(path, "w", encoding="utf-8") as f:
                f.write(new)
    print(f"{len(plain)} names respelled, {len(fields)} of them fields or constructors")


if __name__ == "__main__":
    main()
