#!/usr/bin/env python3
"""Brings this repository's own definitions and lemmas to today's spelling: words in snake case, types and modules in
camel case. Run once, after port.py of the kit; tools/respell.tsv has a line 'old, tab, new' for each name.

usage: python3 tools/respell.py [ROOT]

It goes by whole names. Left as they are: what stands in quotes, Rust's own names, the names of exported functions,
and words of comments that are no names (a name with a dash is taken for one only between backticks).
"""

import os
import re
import sys

HERE = os.path.dirname(os.path.realpath(__file__))
NAME = r"[^\s(){}\[\]:;,.λ←→«»|=?@\"`↦]+"
PIECE = re.compile(r'"(?:[^"\\\n]|\\.)*"|' + NAME + r"|\s+|.", re.S)


def table():
    with open(os.path.join(HERE, "respell.tsv"), encoding="utf-8") as f:
        return dict(line.rstrip("\n").split("\t") for line in f)


def code(text, new, proof):
    """The names of a piece of code. In the proof of a function a part behind a dot may be the name of a call."""
    out = []
    before = ""
    for piece in PIECE.findall(text):
        if piece.startswith('"') and len(piece) > 1:
            out.append(piece)
        else:
            to = new.get(piece, piece)
            if proof and before == "." and to.endswith("_lem"):
                to = to[: -len("_lem")]
            if proof and "tie." == "".join(out[-2:]):
                to = piece
            out.append(to)
        before = piece
    return "".join(out)


def comment(text, new):
    """Names in a comment: those in camel case, and those between backticks."""

    def quoted(m):
        return "`" + re.sub(NAME, lambda n: new.get(n.group(), n.group()), m.group(1)) + "`"

    text = re.sub(r"`([^`\n]*)`", quoted, text)
    return re.sub(r"(?<![\w`.-])[a-z]+[A-Z]\w*", lambda n: new.get(n.group(), n.group()), text)


def split(line, mark):
    """A line's code, and its comment."""
    inside = False
    for i, c in enumerate(line):
        if c == '"' and (i == 0 or line[i - 1] not in "\\'"):
            inside = not inside
        if not inside and line.startswith(mark, i) and (i == 0 or line[i - 1].isspace()):
            return line[:i], line[i:]
    return line, ""


def turned(path, text, new):
    if path.endswith(".md"):
        return comment(text, new)
    if path.endswith(".edit"):
        lines = []
        for line in text.splitlines(keepends=True):
            head, sep, rest = line.partition(":")
            lines.append(head + sep + code(rest, new, False) if head in ("old", "new") else line)
        return "".join(lines)
    mark = "//" if path.endswith(".rt") else "--"
    parts = os.path.normpath(path).split(os.sep)
    proof = "proofs" in parts and parts.index("proofs") < len(parts) - 2
    lines = []
    for line in text.splitlines(keepends=True):
        a, b = split(line, mark)
        lines.append(code(a, new, proof) + comment(b, new))
    return "".join(lines)


def main(argv):
    root = argv[0] if argv else os.path.dirname(HERE)
    new = table()
    changed = 0
    for top in ("crates", "docs", "README.md", "CHANGELOG.md"):
        top = os.path.join(root, top)
        files = [top] if os.path.isfile(top) else []
        for folder, dirs, names in os.walk(top):
            dirs[:] = sorted(d for d in dirs if d != "out")
            files += [os.path.join(folder, n) for n in sorted(names)]
        for path in files:
            if not path.endswith((".rt", ".antt", ".edit", ".md")):
                continue
            with open(path, encoding="utf-8") as f:
                text = f.read()
            to = turned(os.path.relpath(path, root), text, new)
            if to != text:
                with open(path, "w", encoding="utf-8") as f:
                    f.write(to)
                changed += 1
    print(f"respell: {changed} files changed")


if __name__ == "__main__":
    main(sys.argv[1:])
