#!/usr/bin/env python3
"""Brings this repository's own definitions and lemmas to today's spelling.

usage: python3 tools/respell.py      once, at the top, after the toolchain's port.py

Words and lemmas are in snake case, types and statements in upper camel case: `step-on` becomes `step_on`, and
`Step-is-largest` becomes `StepIsLargest`. A name is turned where it is whole: in specs/, proofs/, the clauses of src/,
the must-fail edits, and between backticks in README.md and docs/. Names that the checker makes (goals, invariants,
measures) are left alone, and so are texts in quotes. Names that are bound inside a lemma follow.
"""

import os
import re
import sys

NAME = r"[A-Za-z][^\s(){}\[\],;:.\"`«»]*"
MADE = r"(?:goal|given)\."
WORDS = r"(?:(?:abbrev|unfoldable|pub|private|record|data|constructor|opaque)\s+)*"
RECORD = re.compile(r"^\s*(?:pub\s+)?(?:record|data)\s+(" + NAME + r")", re.M)
BOUND = re.compile(r"\blet\s+(" + NAME + r")\s*[:=]|[({]((?:" + NAME + r"\s+)*" + NAME + r")\s*:(?!=)|λ\s+([^.()]*?)\.")
DEFINED = re.compile(r"^\s*" + WORDS + r"(" + NAME + r")\s*(?:\([^)]*\)|\{[^}]*\}|\s)*:(?!=)\s*(\S*)", re.M)
TOKEN = re.compile(NAME)
QUOTED = re.compile(r'"(?:[^"\\\n]|\\.)*"')


def files(top, *ends):
    for folder, dirs, names in os.walk(top):
        dirs[:] = sorted(d for d in dirs if d not in ("out", ".git"))
        for name in sorted(names):
            if name.endswith(ends):
                yield os.path.join(folder, name)


def read(path):
    with open(path, encoding="utf-8") as f:
        return f.read()


def respelled(name):
    parts = name.split("-")
    if name[0].isupper():
        return "".join(p[:1].upper() + p[1:] for p in parts)
    return "_".join(parts)


def own_names():
    """Every hyphenated name that a spec, a lemma file or a lemma beside an answer declares."""
    names = {}
    for path in files("crates", ".antt"):
        for m in DEFINED.finditer(read(path)):
            name, kind = m.group(1), m.group(2)
            if "-" in name and not re.match(MADE, kind):
                names[name] = respelled(name)
        for name in RECORD.findall(read(path)):
            if "-" in name:
                names[name] = respelled(name)
    back = {}
    for name, new in names.items():
        if back.setdefault(new, name) != name:
            sys.exit(f"{name} and {back[new]} fall together as {new}")
    return names


def local_names(text):
    """The hyphenated names that a file binds inside its lemmas."""
    bound = " ".join(" ".join(groups) for groups in BOUND.findall(text)).split()
    return {name: respelled(name) for name in bound if "-" in name and TOKEN.fullmatch(name)}


def turned(text, names):
    return TOKEN.sub(lambda m: names.get(m.group(0), m.group(0)), text)


def outside_quotes(text, names):
    out, at = [], 0
    for m in QUOTED.finditer(text):
        out += [turned(text[at:m.start()], names), m.group(0)]
        at = m.end()
    return "".join(out + [turned(text[at:], names)])


def in_backticks(text, names):
    return re.sub(r"`[^`\n]*`", lambda m: turned(m.group(0), names), text)


def parts(line, mark):
    """A line's text and its comment."""
    at = line.find(mark)
    return (line, "") if at < 0 else (line[:at], line[at:])


def program(text, names, mark):
    lines = []
    for line in text.split("\n"):
        code, comment = parts(line, mark)
        lines.append(outside_quotes(code, names) + in_backticks(comment, names))
    return "\n".join(lines)


def main():
    names = own_names()
    changed = 0
    pages = ["README.md", *files("docs", ".md")]
    for path in [*files("crates", ".antt", ".rt", ".edit"), *pages]:
        old = read(path)
        if path.endswith(".antt"):
            new = program(old, local_names(old) | names, "-- ")
        elif path.endswith(".rt"):
            new = program(old, names, "//")
        elif path.endswith(".edit"):
            new = outside_quotes(old, names)
        else:
            new = in_backticks(old, names)
        if new != old:
            changed += 1
            with open(path, "w", encoding="utf-8") as f:
                f.write(new)
    print(f"{len(names)} names, {changed} files")


main()
