#!/usr/bin/env python3
"""Counts forms in crates/*/src that a plainer one may replace: python3 tools/forms.py [--places]."""
import collections
import glob
import re
import sys

FILES = [f for f in sorted(glob.glob("crates/*/src/*.rt")) if not f.endswith("/tests.rt")]
PLACES = "--places" in sys.argv


def lines():
    for name in FILES:
        for at, line in enumerate(open(name, encoding="utf-8").read().split("\n"), 1):
            if not line.lstrip().startswith("//"):
                yield name, at, line


def show(point, what, places):
    print(f"{point} {what}: {len(places)}")
    if PLACES:
        for place in places:
            print("    " + place)


def grep(point, what, pattern, but=None):
    found = [f"{f}:{n}: {l.strip()}" for f, n, l in lines() if re.search(pattern, l) and not (but and re.search(but, l))]
    show(point, what, found)


def functions():
    """Each function: its file, its line, its name, its parameters and its body's lines."""
    for name in FILES:
        text = open(name, encoding="utf-8").read()
        for m in re.finditer(r"^( *)(?:pub(?:\(crate\))? )?fn (\w+)", text, re.M):
            start = m.start()
            brace = re.compile("^" + m.group(1) + r"(\{|.*\{$)", re.M).search(text, start)
            semi = text.find(";\n", start)
            if not brace or (0 <= semi < brace.start() and "\n\n" in text[semi:brace.start()]):
                continue
            end = re.compile("^" + m.group(1) + r"\}", re.M).search(text, brace.end())
            if not end:
                continue
            head = text[start:brace.start()]
            depth, params, i = 0, "", head.find("(")
            for c in head[i:]:
                depth += c in "(<[" and 1 or 0
                depth -= c in ")>]" and 1 or 0
                params += c
                if depth <= 0:
                    break
            names = [p.strip() for p in re.findall(r"(?:mut )?(\w+): [^,]+", params[1:])]
            body = [l.strip() for l in text[brace.end():end.start()].split("\n") if l.strip() and not l.strip().startswith("//")]
            yield name, text.count("\n", 0, start) + 1, m.group(2), names, body


KEEP = {"for", "in", "if", "let", "else", "match", "return", "mut", "Ok", "Err", "Some", "None", "while", "break", "true", "false"}


def shape(body):
    """The body with each name and each number by the order in which it first stands."""
    seen = {}

    def name(m):
        w = m.group(0)
        return w if w in KEEP else seen.setdefault(w, f"v{len(seen)}")

    return re.sub(r"\b\w+\b", name, re.sub(r'b?"[^"]*"', "TEXT", " ".join(body)))


grep("1", "enums", r"^ *(pub(\(crate\))? )?enum ")
grep("1", "flags in fields, cases and parameters, but for the value of a fact", r"(\w: bool\b|\(bool\))", r"value: bool")
grep("1", "numbers that stand for none", r"\b(row|parent): 0\b")


def skeleton(body):
    """The same with the arguments of each call left out."""
    text, before = shape(body), ""
    while text != before:
        before, text = text, re.sub(r"\([^()]*\)", "", text)
    return re.sub(r"\bv[0-9]+\b", "v", text)


bodies = list(functions())
for what, key in (("names and constants", shape), ("names, constants and arguments", skeleton)):
    groups = collections.defaultdict(list)
    for f, n, name, names, body in bodies:
        if len(" ".join(body)) >= 40:
            groups[key(body)].append(f"{f}:{n} {name}")
    show("2", f"groups of functions whose bodies differ in {what} alone", [" = ".join(g) for g in groups.values() if len(g) > 1])
grep("2", "refusals written out (return Err)", r"return Err\(")
grep("2", "impls of a trait for one of two types of the same shape", r"^impl.* From<.* for (ProblemFault|PlanFault|LoadFault)")

grep("3", "loops over a range of numbers", r"\bfor .* in .*\.\.")
grep("3", "loops that count along (enumerate, while)", r"\bfor .*\.enumerate\(\)|\bwhile\b")
grep("3", "loops over items that only look for one or ask of all", r"^ *for (b|k|c) in ")
grep("3", "cases of an Option or a Result that only pass it on", r"^ *(None => (None|Ok\(None\)|Ok\(\(\)\)|0|true|false|\{\}|&\[\]),?$|Err\(\w*\) => (Err\(|Ok\(false\)|None)|Ok\(\w+\) => Ok\()")

grep("4", "impl From", r"^impl.* From<")
grep("4", "impl Render (printing)", r"^impl.* Render for ")
grep("4", "casts", r" as (u8|u16|u32|u64|usize)\b")

clauses = collections.defaultdict(list)
for f, n, l in lines():
    m = re.search(r"\b(ensures|requires)(?: \w+)? \{ (.*) \}", l)
    if m:
        clauses[m.group(2)].append(f"{f}:{n}")
show("5", "clauses that stand in three functions or more", [f"{len(v)} times {k}" for k, v in clauses.items() if len(v) > 2])
pairs = collections.defaultdict(set)
for f, n, name, names, body in bodies:
    for i in range(len(names)):
        for j in range(i + 1, len(names)):
            pairs[(f.split("/")[1], names[i], names[j])].add(f"{name}")
show("5", "pairs of parameters in four functions of a crate or more", [f"{k[0]}: {k[1]}, {k[2]} in {', '.join(sorted(v))}" for k, v in sorted(pairs.items()) if len(v) > 3])

grep("6", "arrays of a fixed length", r"\[[\w:]+; [0-9A-Z_]+\]")
grep("6", "parts of a buffer by a length kept beside it", r"\[0\.\.\w+\]|\.truncate\(|\[\w+\.\.\w*\]")
grep("6", "binary searches", r"binary_search")
grep("6", "an index or a count beside a slice that is altered", r"^ *(at|used|behind|place): (usize|&mut)|pub\(crate\) at: usize")

grep("7", "flags as parameters", r"^ *(pub(\(crate\))? )?fn .*\b\w+: bool\b|^    \w+: bool,", r"value: bool|pub ")
grep("7", "switches on text", r"==\s*b\"|as_str\(\) \{")

proofs = glob.glob("crates/*/proofs/**/*.antt", recursive=True)
answers = sum(len(re.findall(r"^pub [\w-]+ : goal\.", open(p, encoding="utf-8").read(), re.M)) for p in proofs)
size = sum(open(p, encoding="utf-8").read().count("\n") for p in proofs)
print(f"8 answers in proof files: {answers}; lines of proof: {size}")
print(f"  lines of code: {sum(open(f, encoding='utf-8').read().count(chr(10)) for f in FILES)}")
