#!/usr/bin/env python3
"""Brings the names of definitions and laws to one spelling: words in snake case, a dash between two names of definitions.

usage: tools/spelling.py    at the top of the repository, once, right after the toolchain's own script has turned the older spelling

tools/spelling.tsv has a row for each name: as it was, as the toolchain's script leaves it, as it is from then on. Code keeps its names: in a file
of src/ only clauses, imports and comments have such words. In documents and in must-fail edits the first column is turned to the last.
"""
import os
import re

HERE = os.path.dirname(os.path.abspath(__file__))
TOP = os.path.dirname(HERE)
ROWS = [line.rstrip("\n").split("\t") for line in open(os.path.join(HERE, "spelling.tsv"), encoding="utf-8")]
LEFT = {now: new for _, now, new in ROWS if now != new}
WAS = {was: new for was, _, new in ROWS if was != new}
# Two laws that would be called as their definitions are, and two names that are a tactic's.
IN = {
    "crates/promises/": {"same_key": "same_key_lem", "same_Bool": "same_bool_lem", "first_of": "first_nonzero"},
    "crates/staying/": {"same_key": "same_key_lem", "same_Bool": "same_bool_lem"},
    "crates/performing/": {"same_key": "same_key_lem", "same_Bool": "same_bool_lem"},
    "crates/handles/": {"first_of": "first_true"},
}
WORD = re.compile(r"[^\s(){}\[\].;,@\"«»:`|]+")
CAMEL = re.compile(r"(?<![\w'-])[a-z][a-z0-9_]*[A-Z]\w*'?")


def turned(text, table, word=WORD):
    return word.sub(lambda m: table.get(m[0], m[0]), text)


def ticked(text, table):
    return re.sub(r"`[^`\n]*`", lambda m: turned(m[0], table), text)


def antt(text, table):
    lines = []
    for line in text.split("\n"):
        code, dashes, comment = re.match(r"(.*?)((?:^|(?<=\s))--(?=\s|$))?((?<=--).*)?$", line).groups()
        comment = ticked(comment or "", {**WAS, **table})
        lines.append(turned(code, table) + (dashes or "") + turned(comment, table, CAMEL))
    return "\n".join(lines)


def edit(text):
    lines = text.split("\n")
    for i, line in enumerate(lines):
        if re.match(r"(old|new|refused at): ?", line):
            lines[i] = turned(line.replace("′", "'"), {**LEFT, **WAS})
    return "\n".join(lines)


def files():
    for folder, folders, names in os.walk(TOP):
        folders[:] = sorted(f for f in folders if f not in ("out", "target", ".git"))
        for name in sorted(names):
            yield os.path.relpath(os.path.join(folder, name), TOP)


for path in files():
    kind = os.path.splitext(path)[1]
    if kind not in (".antt", ".rt", ".md", ".edit") or not path.startswith(("crates/", "docs/", "README.md", "oracle/README.md", "rust/README.md")):
        continue
    old = open(os.path.join(TOP, path), encoding="utf-8").read()
    extra = next((it for head, it in IN.items() if path.startswith(head)), {})
    if kind == ".antt":
        new = antt(turned(old, extra), LEFT)
        new = re.sub(r"(?<=[{ ])(\S+) as \1(?=[,}])", r"\1", new)
    elif kind == ".rt":
        new = turned(old, {k: v for k, v in LEFT.items() if CAMEL.fullmatch(k)}, CAMEL)
    elif kind == ".edit":
        new = edit(old)
    else:
        new = ticked(old, WAS)
    if new != old:
        open(os.path.join(TOP, path), "w", encoding="utf-8").write(new)
