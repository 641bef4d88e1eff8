#!/usr/bin/env python3
"""Brings the names of this repository's own definitions and lemmas to the spelling of the Rattle that it is proved with:
words in snake case (`next-above` becomes `next_above`), facts and records in camel case (`Promise-kept` becomes
`PromiseKept`). Names of functions of src/, of goals and of the library keep their spelling.

Run after the kit's port.py, on what that made of the older files.

usage, once, at the top of the repository:  python3 tools/respell.py          rewrites the files
                                            python3 tools/respell.py names    only prints what becomes what
"""
import glob
import re
import sys

# What ends a name, in a file of definitions or of clauses.
NAME = r"[^\s(){};:,.\[\]`]+"
DECLARED = re.compile(
    r"^ *(?:(?:abbrev|pub|unfoldable|data|record|ruleset) +)*(" + NAME + r")(?: +(?:\{[^}]*\}|\([^()]*\)))* *:(?= |\n)",
    re.M,
)
RENAMED = re.compile(r"\bas (" + NAME + r")")
COMMENT = {".antt": "--", ".rt": "//"}
# An alias of a function, written as if it were a fact.
SPECIAL = {"Line-of": "line_of"}
# Names that a proof binds.
BOUND = """after-it here-old live-m notes-m now-words open-a open-j open-now open-ones open-then part-view to-o to-p v-here
whole-l whole-m ws-m zero-there""".split()
# A goal's step has the name of the function that it calls, which a definition has too.
STEPS = {"if-held"}


def files(*patterns):
    return sorted(f for p in patterns for f in glob.glob(p, recursive=True) if "/out/" not in f)


def read(path):
    with open(path, encoding="utf-8") as f:
        return f.read()


def without_comments(text, mark):
    return re.sub(re.escape(mark) + r".*", "", text)


def respelled(name):
    if name in SPECIAL:
        return SPECIAL[name]
    if name[0].isupper():
        return "".join(part[0].upper() + part[1:] for part in name.split("-"))
    return name.replace("-", "_")


def names():
    """The names with a dash that files of specs/ and proofs/ declare, but for those of goals."""
    found = set(BOUND)
    for path in files("crates/*/specs/*.antt", "crates/*/proofs/**/*.antt"):
        text = without_comments(read(path), "--")
        for m in DECLARED.finditer(text):
            if not text[m.end() :].lstrip().startswith("goal."):
                found.add(m.group(1))
    for path in files("crates/**/*.antt", "crates/*/src/**/*.rt"):
        text = read(path)
        for line in text.splitlines():
            if line.lstrip().startswith(("use ", "pub use ", "ghost use ")):
                found.update(RENAMED.findall(line))
    return {n: respelled(n) for n in sorted(found) if "-" in n.strip("-") and not n.startswith("◌")}


def turn(text, table):
    """Each name of the table, where it stands whole; after a dot too, but for a goal's own steps."""

    def one(m):
        before, name = m.group(1), m.group(2)
        if name not in table or (name in STEPS and before == "."):
            return m.group(0)
        return before + table[name]

    return re.sub(r"(^|[\s(){};:,.\[\]`])(" + NAME + r")", one, text, flags=re.M)


def in_backticks(text, table):
    return re.sub(r"`[^`\n]*`", lambda m: turn(m.group(0), table), text)


def turn_file(path, table):
    text = read(path)
    if path.endswith(".md"):
        new = in_backticks(text, table)
    else:
        mark = next((m for e, m in COMMENT.items() if path.endswith(e)), None)
        lines = []
        for line in text.split("\n"):
            code, sep, comment = line.partition(mark) if mark else (line, "", "")
            lines.append(turn(code, table) + sep + in_backticks(comment, table))
        new = "\n".join(lines)
    if new != text:
        with open(path, "w", encoding="utf-8") as f:
            f.write(new)


def main():
    table = names()
    if sys.argv[1:] == ["names"]:
        for old, new in table.items():
            print(old, new)
        return
    for path in files("crates/**/*.antt", "crates/*/src/**/*.rt", "crates/*/must-fail/*.edit", "docs/*.md", "README.md"):
        turn_file(path, table)


main()
