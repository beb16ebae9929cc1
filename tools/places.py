#!/usr/bin/env python3
"""Lists the places of src/ where a plainer form may be had, by kind, with a count for each list.

    python3 tools/places.py [FOLDER]

FOLDER is the top of a checkout, this one if none is given. A line that is listed is a place to look at and no verdict.
"""
import collections
import os
import re
import sys

ROOT = sys.argv[1] if len(sys.argv) > 1 else os.path.join(os.path.dirname(os.path.abspath(__file__)), "..")


def sources():
    for folder, _, names in sorted(os.walk(os.path.join(ROOT, "crates"))):
        parts = os.path.relpath(folder, ROOT).split(os.sep)
        if "src" in parts and "out" not in parts:
            for name in sorted(names):
                if name.endswith(".rt"):
                    path = os.path.join(folder, name)
                    with open(path, encoding="utf-8") as text:
                        yield os.path.relpath(path, ROOT), text.read()


def show(title, rows):
    print(f"== {title}: {len(rows)}")
    for row in rows:
        print("   " + row)


def lines(title, pattern):
    found = []
    for path, text in FILES:
        for at, line in enumerate(text.split("\n"), 1):
            if re.search(pattern, line) and not line.strip().startswith("//"):
                found.append(f"{path}:{at}: {line.strip()}")
    show(title, found)


def functions():
    for path, text in FILES:
        for found in re.finditer(r"\bfn (\w+)(?:<[^(]*>)?\(([^)]*)\)", text):
            yield path, found.group(1), [" ".join(p.split()) for p in found.group(2).split(",") if p.strip()]


def together():
    pairs = collections.defaultdict(list)
    for path, name, parameters in functions():
        kept = sorted(re.sub(r"'a |mut |&", "", p) for p in parameters if ":" in p and "rt:" not in p)
        for i, first in enumerate(kept):
            for second in kept[i + 1:]:
                pairs[first, second].append(f"{path.split('/')[1]}.{name}")
    return [f"{len(users)} {first}, {second}: {' '.join(users)}" for (first, second), users in sorted(pairs.items(), key=lambda x: -len(x[1])) if len(users) > 2]


def repeated():
    clauses = collections.Counter()
    for _, text in FILES:
        for found in re.finditer(r"(?:requires|ensures)(?: \w+)? \{ (.*) \}", text):
            for fact in re.split(r" × ", found.group(1)):
                clauses[fact.strip("() ")] += 1
    return [f"{count} {fact}" for fact, count in clauses.most_common() if count > 2]


def proofs():
    rows = []
    for crate in sorted(os.listdir(os.path.join(ROOT, "crates"))):
        folder = os.path.join(ROOT, "crates", crate, "proofs")
        answers = lemmas = 0
        for at, _, names in os.walk(folder):
            for name in names:
                with open(os.path.join(at, name), encoding="utf-8") as text:
                    size = text.read().count("\n")
                if name in ("Answers.antt", "Invariants.antt", "Proof.antt"):
                    answers += size
                else:
                    lemmas += size
        if answers or lemmas:
            rows.append(f"{crate}: {answers} lines of answers and invariants, {lemmas} of lemmas")
    return rows


FILES = list(sources())
lines("enums", r"^\s*(pub(\([a-z]+\))? )?enum ")
lines("numbers for kinds", r"=> [0-9]+,?$|^\s*[0-9]+ => ")
lines("values that stand for none", r"Written\(0\)|start\(0\)|return 0;|None => (0|false)|^\s+0$|map_or\(0|unwrap_or\(0")
lines("an option taken apart to make another", r"None => None|^\s*Some\(\w+\) => Some\(")
lines("tests of a processor's or a line's range", r"(processor|line) < 1\b")
lines("processor and line made from a place", r"/ (LINES|32) \+ 1\)? as u8|% (LINES|32) \+ 1\)? as u8")
lines("loops", r"^\s*(for|while|loop)\b")
lines("conversions, copies and equality", r"fn (from_|of_|to_|into_|number|code|bit|kind|same|eq|clone|fmt)\w*")
show("parameters that three or more functions take together", together())
show("facts in three or more clauses", repeated())
lines("arrays, and lengths beside them", r"\[[^\[\];]+; \w+\]|\b(len|count): usize|Vec<")
lines("steps and functions as values", r"\bdyn\b|\bBox<|: fn\(|match (call|kind|rule|axiom)\b")
show("proofs", proofs())
