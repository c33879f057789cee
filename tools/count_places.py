#!/usr/bin/env python3
"""Counts, in the source of a revision, the places that today's forms of the language would replace.

usage: python3 tools/count_places.py [REVISION] [--list NAME]

Each count is that of a regular expression over the lines of crates/*/src, comments and tests left out. With --list the lines of one count
are printed. docs/DESIGN-PASS.md says what each count stands for.
"""
import re
import subprocess
import sys

COUNTS = [
    ("1-fault-option", r"-> Option<(Layout|Naming|Flow)(Rule|Fault)>"),
    ("1-fault-passed-on", r"if let Some\((rule|fault)\) ="),
    ("1-fault-returned", r"return Some\((Layout|Naming|Flow)(Rule|Fault)"),
    ("1-match-default", r"^\s*(None|Err\(_\)) => (0|None|false|true|\"\"|&\[\]|unreachable\(\)|Ok\(None\)|[A-Za-z]+::(Nonsense|Halt|Nowhere|new\(heap\)).*),$"),
    ("1-let-else", r"let (Some|Ok)\(.*else \{$"),
    ("1-number-of-enum", r"fn (number|end_number)\(|^\s*pub (number|pass|end): u8"),
    ("3-range-loop", r"for \w+ in \(?\w+\.\."),
    ("3-while-index", r"while \w+ < "),
    ("3-step-counter", r"(\+|-)= 1;|= \w+\.saturating_add\(1\);"),
    ("3-running-index", r"\w\[(i|n|at|taken|cell|strikes|place|front)( \+ \w+)?\]|\[(at|taken|i|n)\.\.\]"),
    ("3-loop-flag", r"let mut \w+ = (true|false);"),
    ("4-equality", r"\.is\(|same_strike\(|same_sort\(\w+, \w+\) (=>|\|\|)|rank\(\) (==|<)|=> \w+ == \w+( && \w+ == \w+)?,"),
    ("4-conversion", r"fn (of\(raw|encode|decode\w*|kind_named|class_of|figure|digit_of|digit_in)\b"),
    ("4-match-bool", r"=> (true|false),"),
    ("4-cast", r" as (u8|u16|u32|u64|usize)\b"),
    ("5-requires", r"^\s*requires\b"),
    ("6-fixed-array", r"\[\w+; *\w+\]"),
    ("7-dispatch", r"KindName::\w+ => judge_all"),
]


def lines_of(revision):
    """Each line of code of the revision: its file, its number and its text."""
    files = subprocess.run(["git", "ls-tree", "-r", "--name-only", revision, "crates"], capture_output=True, text=True, check=True).stdout.split("\n")
    for file in files:
        if not re.match(r"crates/\w+/src/.*\.rt$", file):
            continue
        text = subprocess.run(["git", "show", f"{revision}:{file}"], capture_output=True, text=True, check=True).stdout
        text = text.split("#[cfg(test)]")[0]
        for number, line in enumerate(text.split("\n"), 1):
            if not line.strip().startswith("//"):
                yield file, number, line


def together(revision):
    """In how many signatures a kind and an image stand side by side."""
    text = "\n".join(line for _, _, line in lines_of(revision))
    return len(re.findall(r"kind: &K,\s+image: &?LaidOut", text))


def main():
    arguments = [a for a in sys.argv[1:] if a != "--list"]
    wanted = arguments.pop() if "--list" in sys.argv else None
    revision = arguments[0] if arguments else "HEAD"
    lines = list(lines_of(revision))
    for name, pattern in COUNTS:
        found = [at for at in lines if re.search(pattern, at[2])]
        if wanted is None:
            print(f"{name:20} {len(found)}")
        elif wanted == name:
            for file, number, line in found:
                print(f"{file}:{number}: {line.strip()}")
    if wanted is None:
        print(f"{'5-kind-and-image':20} {together(revision)}")
        print(f"{'lines':20} {len(lines)}")


main()
