#!/usr/bin/env python3
"""Respells the definitions and lemmas of this repository's specs/ and proofs/ in snake case, as the kit's own are spelled.

usage: tools/respell.py        at the top of the repository, once, after the kit's port.py

A name that specs/ or proofs/ define with a dash between two words gets an underscore for it, in .antt files, in the clauses and 'ghost use' lines of .rt files,
in must-fail edits, and between backquotes in comments and pages. Names of the kit and those that the check makes for a function's goals keep their dashes.
"""
import collections
import glob
import re
import sys

W = r"[^\s(){}.;,@\"«»\[\]\\λ`]+"
TOKEN = re.compile(W)
KEYWORDS = r"(?:(?:abbrev|unfoldable|pub|private|opaque)\s+)*"
NAMES = re.compile(r"^\s*" + KEYWORDS + r"(?P<names>" + W + r"(?:\s+" + W + r")*)\s*:(?=\s|$)")
HEADS = re.compile(r"^\s*" + KEYWORDS + r"(?:data|record|module)\s+(?:pub\s+)?(" + W + ")")
DASHED = re.compile(r"[\w']-[\w]")
USE = re.compile(r"use\s+([^\s{};]+?)\.?(?:\{([^{}]*)\})")
MADE = re.compile(r":\s*tie\.|^\S+-spec\s*:|^pub \S+-spec\s*:")


def read(path):
    with open(path, encoding="utf-8") as f:
        return f.read()


def code(line, mark):
    """The line before a comment, and the comment."""
    at = re.search(r"(?:^|(?<=\s))" + mark, line)
    return (line[: at.start()], line[at.start() :]) if at else (line, "")


def defined(path):
    found = set()
    for line in read(path).splitlines():
        line = code(line, "--")[0]
        if path.endswith("/Proof.antt") and MADE.search(line):
            continue
        it = NAMES.match(line)
        if it:
            found.update(it["names"].split())
        it = HEADS.match(line)
        if it:
            found.add(it[1])
    return {n for n in found if DASHED.search(n) and "◌" not in n}


def snake(name):
    return re.sub(r"(?<=[\w'])-(?=\w)", "_", name)


def kept(text):
    """What a file imports from the kit."""
    own = set()
    for module, names in USE.findall(text):
        it = re.match(r"Rattle\.(\w+)\.", module + ".")
        if not it or it[1] not in CRATES:
            own.update(n.split()[0] for n in names.split(",") if n.strip())
    return own


def turned(text, names):
    return TOKEN.sub(lambda m: names.get(m[0], m[0]), text)


def quoted(text, names):
    return re.sub(r"`[^`\n]*`", lambda m: turned(m[0], names), text)


def respelled(path, text, names):
    if path.endswith((".md", ".h")):
        return quoted(text, names)
    mark = "--" if path.endswith(".antt") else "//"
    out = []
    for line in text.split("\n"):
        if path.endswith(".edit"):
            out.append(turned(line, names) if line.startswith(("old:", "new:")) else line)
            continue
        first, rest = code(line, mark)
        parts = re.split(r'("(?:[^"\\]|\\.)*")', first)
        out.append("".join(p if k % 2 else turned(p, names) for k, p in enumerate(parts)) + quoted(rest, names))
    return "\n".join(out)


def main():
    global CRATES
    CRATES = {p.split("/")[1] for p in glob.glob("crates/*/src")}
    files = sorted(p for k in ("specs", "proofs") for p in glob.glob(f"crates/*/{k}/**/*.antt", recursive=True))
    shared = set()
    local = collections.defaultdict(set)
    for p in files:
        if p.endswith("/Proof.antt"):
            local[p] = defined(p)
        else:
            shared |= defined(p)
    files += sorted(glob.glob("crates/*/src/**/*.rt", recursive=True) + glob.glob("crates/*/must-fail/*.edit") + glob.glob("docs/*.md") + ["README.md", "tests/README.md"])
    for p in files:
        text = read(p)
        leave = kept(text) if p.endswith((".antt", ".rt")) else set()
        names = {n: snake(n) for n in (shared | local[p]) - leave}
        new = respelled(p, text, names)
        if new != text:
            with open(p, "w", encoding="utf-8") as f:
                f.write(new)
    return 0


if __name__ == "__main__":
    sys.exit(main())
