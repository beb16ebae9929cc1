#!/usr/bin/env python3
"""Respells the repository's own definitions and lemmas: words in snake case, types and facts in camel case.

usage: python3 tools/spelling.py          at the top of a checkout that port.py has just turned: rewrites crates/ in place
       python3 tools/spelling.py list     prints each old name with its new one, and writes nothing

Renamed are names that a file of specs/ or proofs/ declares or brings in under a name of its own. Names that the toolchain makes (of goals, steps and facts of a
function's code) and names of src/ stay. A name that would fall together with another one in some file is an error, unless CHOSEN
gives it a name of its own.
"""
import os
import re
import sys

# Lemmas that would have the name of a definition, or of the function whose promise they prove.
CHOSEN = {
    "code-if": "code_if_lem",
    "event-of": "event_of_lem",
    "axioms-reached-by-schedule": "axioms_reached_by_schedule_lem",
    "calls-to-complete": "calls_to_complete_lem",
    "completed-meets-axioms": "completed_meets_axioms_lem",
    "machine-meets-axioms": "machine_meets_axioms_lem",
    "reached-exactly-if-axioms": "reached_exactly_if_axioms_lem",
    "trace-finds-the-word": "trace_finds_the_word_lem",
}

NAME = r"[A-Za-z_][A-Za-z0-9_'-]*"
TOKEN = re.compile(r"(?<![A-Za-z0-9_'-])" + NAME)
DECLARED = re.compile(
    r"^[ ]*(?P<words>(?:(?:pub|abbrev|unfoldable|record|data|mutual) )*)"
    r"(?P<names>" + NAME + r"(?: " + NAME + r")*)(?P<params>(?: [({].*?[)}])*) :(?P<type>.*)$"
)
HEADS = {"goal", "c", "l", "w"}


def files(top):
    for folder, dirs, names in os.walk(os.path.join(top, "crates")):
        dirs[:] = sorted(d for d in dirs if d not in ("out", "data", "must-fail"))
        for name in sorted(names):
            if name.endswith((".antt", ".rt")):
                yield os.path.join(folder, name)


def of_a_function(path):
    """Whether it is a file of answers: its goals are named by the toolchain."""
    return re.search(r"/proofs/.+/", path) is not None


def declared(text):
    """The names that a text declares, each with its type or the word that makes it one."""
    lines = text.split("\n")
    for i, line in enumerate(lines):
        m = DECLARED.match(line)
        if not m or line.lstrip().startswith(("--", "use ", "let ")):
            continue
        said = m["type"]
        for more in lines[i + 1 :]:
            if not more.strip() or more.lstrip().startswith("--") or DECLARED.match(more):
                break
            first = TOKEN.match(more.strip())
            if first and first.group() in m["names"].split():
                break
            said += " " + more.strip()
        for name in m["names"].split():
            yield name, m["words"], said.strip()


def is_type(words, said):
    return "record" in words or "data" in words or re.search(r"(^|→ )Type \S+( where)?$", said) is not None


def respelled(name, type_):
    if type_ or name[0].isupper():
        parts = name.split("-")
        return "".join(p[:1].upper() + p[1:] for p in parts)
    name = re.sub(r"(?<=[a-z0-9])[A-Z]", lambda m: "_" + m.group().lower(), name)
    return name.replace("-", "_")


def is_due(name):
    return "-" in name or (name[0].islower() and re.search(r"[a-z0-9][A-Z]", name) is not None)


def table(top):
    new = {}
    for path in files(top):
        if not path.endswith(".antt"):
            continue
        text = open(path, encoding="utf-8").read()
        for name in re.findall(r" as (" + NAME + r")(?=[,}\n])", text):
            if is_due(name):
                new.setdefault(name, respelled(name, False))
        for name, words, said in declared(text):
            if of_a_function(path) and said.startswith("goal."):
                continue
            if is_due(name):
                to = CHOSEN.get(name) or respelled(name, is_type(words, said))
                if new.setdefault(name, to) != to:
                    print(f"spelling: {name} is a type and a word", file=sys.stderr)
    return new


def turned(path, text, new):
    rust = path.endswith(".rt")
    comment = "//" if rust else "--"

    def one(m):
        name = m.group()
        before = m.string[: m.start()]
        if of_a_function(path) and before.endswith(".") and re.search(r"(?:^|[\s(){};,])(?:" + "|".join(HEADS) + r")\.$", before):
            return name
        return new.get(name, name)

    lines = []
    for line in text.split("\n"):
        cut = re.search(r"(?:^|\s)" + comment, line)
        at = cut.start() if cut else len(line)
        code, rest = line[:at], line[at:]
        if rust:
            parts = re.split(r'("(?:[^"\\]|\\.)*")', code)
            code = "".join(p if i % 2 else TOKEN.sub(one, p) for i, p in enumerate(parts))
        else:
            code = TOKEN.sub(one, code)
        rest = re.sub(r"`[^`]*`", lambda m: TOKEN.sub(one, m.group()), rest)
        lines.append(code + rest)
    return "\n".join(lines)


def clashes(top, new):
    """Where two names of one file would become one."""
    found = 0
    for path in files(top):
        if not path.endswith(".antt"):
            continue
        text = re.sub(r"--.*", "", open(path, encoding="utf-8").read())
        said = {}
        for name in set(TOKEN.findall(text)):
            said.setdefault(new.get(name, name), set()).add(name)
        for to, names in sorted(said.items()):
            if len(names) > 1:
                print(f"spelling: {path}: {' and '.join(sorted(names))} would both be {to}", file=sys.stderr)
                found += 1
    return found


def main():
    new = table(".")
    if sys.argv[1:] == ["list"]:
        for old in sorted(new):
            print(old, new[old])
    if clashes(".", new):
        raise SystemExit(1)
    if sys.argv[1:] == ["list"]:
        return
    for path in files("."):
        with open(path, encoding="utf-8") as f:
            text = f.read()
        to = turned(path, text, new)
        if to != text:
            with open(path, "w", encoding="utf-8") as f:
                f.write(to)


main()
