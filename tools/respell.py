#!/usr/bin/env python3
"""Spells the repository's own names anew: functions and lemmas in snake case, types in upper camel case.

usage: python3 tools/respell.py [ROOT]      after port.py, once, over crates/ (out/ aside) and docs/ (PORT.md, which has the old names, aside)

Names are the rows of respell.tsv beside this script: old, tab, new, and, where a name means another thing in one
crate, a third column with the crates in which that row holds. Whole words alone turn: in .antt and .rt files outside
of strings and comments, in code spans of comments and of pages, and in must-fail edits."""
import os
import re
import sys

HERE = os.path.dirname(os.path.realpath(__file__))
WORD = re.compile(r'[^\s(){}.;,@"«»`]+')
SPAN = re.compile(r"`[^`\n]+`")
ANTT = re.compile(r'"(?:[^"\\\n]|\\.)*"|(?<![^\s(){}.;,])--[^\n]*')
RT = re.compile(r'b?"(?:[^"\\\n]|\\.)*"|//[^\n]*')


def table():
    everywhere, some = {}, {}
    for line in open(os.path.join(HERE, "respell.tsv"), encoding="utf-8"):
        row = line.rstrip("\n").split("\t")
        if len(row) == 2:
            everywhere[row[0]] = row[1]
        else:
            for crate in row[2].split(","):
                some.setdefault(crate, {})[row[0]] = row[1]
    return everywhere, some


def turn(text, rows):
    return WORD.sub(lambda m: rows.get(m[0], m[0]), text)


def spans(text, rows):
    return SPAN.sub(lambda m: turn(m[0], rows), text)


def code(text, rows, quiet):
    out, at = [], 0
    for m in quiet.finditer(text):
        out.append(turn(text[at : m.start()], rows))
        out.append(spans(m[0], rows) if m[0].startswith(("--", "//")) else m[0])
        at = m.end()
    out.append(turn(text[at:], rows))
    return "".join(out)


def respelled(path, text, rows):
    if path.endswith(".antt"):
        return code(text, rows, ANTT)
    if path.endswith(".rt"):
        return code(text, rows, RT)
    if path.endswith(".edit"):
        return "".join(l if l.startswith("file:") else turn(l, rows) for l in text.splitlines(keepends=True))
    return spans(text, rows)


def main(root):
    everywhere, some = table()
    for top, endings in (("crates", (".antt", ".rt", ".edit")), ("docs", (".md",))):
        for folder, dirs, names in os.walk(os.path.join(root, top)):
            dirs[:] = sorted(d for d in dirs if d != "out")
            for name in sorted(names):
                path = os.path.join(folder, name)
                if not name.endswith(endings) or name == "PORT.md" or os.path.islink(path):
                    continue
                crate = os.path.relpath(path, os.path.join(root, top)).split(os.sep)[0]
                rows = {**everywhere, **some.get(crate, {})}
                with open(path, encoding="utf-8", newline="") as f:
                    old = f.read()
                new = respelled(path, old, rows)
                if new != old:
                    with open(path, "w", encoding="utf-8", newline="") as f:
                        f.write(new)


if __name__ == "__main__":
    main(sys.argv[1] if len(sys.argv) > 1 else ".")
