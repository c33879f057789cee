#!/usr/bin/env python3
"""Spells the repository's own ghost names as today's Rattle does: facts and types in upper camel case, all else in snake case.

usage: python3 tools/spell_names.py [--check]     at the top of the repository, once, after port.py

A name that specs/ or proofs/ declare with a dash is turned everywhere: Every-one becomes EveryOne, all-kept becomes all_kept. What
turns: the .antt files (comments: only code spans), in .rt files the clauses, ghost items and code spans of comments, and code spans
of docs/ and README.md. Functions of src/, strings, inputs and outputs stay. A name that a file takes from the library stays in that
file, and a goal's name stays, since Rattle makes it. --check writes nothing; names that would fall together are printed either way.
"""
import collections
import os
import re
import sys

# The record that port.py keeps apart from a struct of the name that the rule would give it; parameters and local names.
ALSO = {"Laid_out": "IsLaidOut", "Tuple-part": "TuplePart"} | {
    n: n.replace("-", "_")
    for n in (
        "ascending-last box-is box-was f-ok fault-is fault-was m-ok n-ok nonsense-fine other-ok report-is report-was s-ok small-h small-l "
        "strip-is strip-was the-card unraised-here zero-types"
    ).split()
}

WORD = r"[^\s(){}\[\].;,@\"«»`]+"
HEAD = re.compile(r"^\s*(?:(?:abbrev|unfoldable|pub)\s+)*(?:(?:data|record|module|ruleset)\s+(" + WORD + r")|(" + WORD + r"(?:\s+" + WORD + r")*)\s*:(?=\s|$))")
USE = re.compile(r"\buse\s+([^\s{;]+)\.\{([^}]*)\}")
COMMENT = re.compile(r"--[^\n]*|\{-.*?-\}", re.S)
SPAN = re.compile(r"`[^`\n]*`")
RUST = re.compile(r"//[^\n]*|\"(?:\\.|[^\"\\])*\"", re.S)


def files(top):
    for folder, dirs, names in os.walk(os.path.join(top, "crates")):
        dirs[:] = sorted(d for d in dirs if d != "out")
        for name in sorted(names):
            if name.endswith((".antt", ".rt")):
                yield os.path.join(folder, name)


def read(path):
    with open(path, encoding="utf-8") as f:
        return f.read()


def spelled(name):
    if name[0].isupper():
        first, *rest = name.split("-")
        return first + "".join(p[:1].upper() + p[1:] for p in rest)
    return name.replace("-", "_")


def declared(paths):
    """Each dashed name that a file of specs/ or proofs/ declares, but for goals, with the files that declare it."""
    found, goals = collections.defaultdict(set), set()
    for path in paths:
        if not path.endswith(".antt"):
            continue
        for line in COMMENT.sub("", read(path)).split("\n"):
            if line.lstrip().startswith(("use ", "pub use ", "unfolding ", "|", "elim ")):
                continue
            m = HEAD.match(line)
            if not m:
                continue
            for name in (m.group(1) or m.group(2)).split():
                if "-" not in name.strip("-") or not name[0].isalpha() or not re.fullmatch(r"[\w'₀-₉-]+", name):
                    continue
                (goals if re.search(r":\s*goal\.", line) else found[name]).add(name if re.search(r":\s*goal\.", line) else path)
    return {n: p for n, p in found.items() if p and n not in goals}


def from_library(text, own):
    """The names that a file takes from a library."""
    return {item.strip().split(" as ")[0] for m in USE.finditer(text) for item in m.group(2).split(",") if not (m.group(1).startswith("Rattle.") and m.group(1).split(".")[1] in own)}


def turn(text, table):
    """Behind a dot a name such as count-is may be Rattle's own for a branch's value: it stays."""
    return re.sub(r"(\.?)(" + WORD + ")", lambda m: m.group(0) if m.group(1) and m.group(2).endswith("-is") else m.group(1) + table.get(m.group(2), m.group(2)), text)


def outside(pattern, text, code, quiet):
    """code on what pattern leaves, quiet on what it takes."""
    out, at = [], 0
    for m in pattern.finditer(text):
        out += [code(text[at : m.start()]), quiet(m.group(0))]
        at = m.end()
    return "".join(out + [code(text[at:])])


def main():
    top, write = os.getcwd(), "--check" not in sys.argv[1:]
    paths = list(files(top))
    own = set(os.listdir(os.path.join(top, "crates")))
    names = declared(paths)
    table = {n: spelled(n) for n in names} | ALSO
    for path in paths:
        text = read(path)
        kept = from_library(text, own)
        mine = {n: s for n, s in table.items() if n not in kept or path in names.get(n, ())}
        here = set(re.findall(WORD, text))
        for n, s in mine.items():
            if n in here and s in here:
                print(f"fall together: {n} and {s} in {os.path.relpath(path, top)}")
        spans = lambda t: SPAN.sub(lambda m: turn(m.group(0), mine), t)
        rust = lambda t: t if t.startswith('"') else spans(t)
        new = outside(COMMENT if path.endswith(".antt") else RUST, text, lambda t: turn(t, mine), spans if path.endswith(".antt") else rust)
        if new != text and write:
            with open(path, "w", encoding="utf-8") as f:
                f.write(new)
    pages = ["README.md"] + [os.path.join("docs", f) for f in sorted(os.listdir(os.path.join(top, "docs"))) if f.endswith(".md") and not f.startswith("PORT")]
    for page in pages:
        text = read(page)
        new = SPAN.sub(lambda m: turn(m.group(0), table), text)
        if new != text and write:
            with open(page, "w", encoding="utf-8") as f:
                f.write(new)
    groups = collections.defaultdict(list)
    for n, s in table.items():
        groups[s].append(n)
    for s, ns in groups.items():
        if len(ns) > 1:
            print(f"fall together: {', '.join(ns)}")
    print(f"{len(table)} names")
    if "--list" in sys.argv[1:]:
        print("\n".join(f"{n} {s}" for n, s in sorted(table.items())))


main()
