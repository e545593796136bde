#!/usr/bin/env python3
"""Prints the table of sizes in docs/PROMISES.md: lines that are not empty, of each crate's code, definitions and proof.

Usage: sizes.py          (in the repository)
       sizes.py --write  (puts the table into docs/PROMISES.md)
"""
import pathlib
import re
import sys

root = pathlib.Path(__file__).resolve().parent.parent


def lines(folder, ending):
    files = folder.rglob("*" + ending) if folder.is_dir() else []
    return sum(1 for file in files for line in file.read_text(encoding="utf-8").splitlines() if line.strip())


def row(name, code, definitions, proof):
    ratio = f"{proof / code:.1f}" if code > 5 else ""
    return f"| {name} | {code} | {definitions} | {proof} | {ratio} |"


def table():
    yield "| crate | code | definitions | proof | proof per line of code |"
    yield "|---|---|---|---|---|"
    total = [0, 0, 0]
    for line in (root / "crates.txt").read_text(encoding="utf-8").splitlines():
        name = line.split("#")[0].split(":")[0].split()[:1]
        if not name:
            continue
        name = name[0]
        crate = root / "crates" / name
        sizes = [lines(crate / "src", ".rt"), lines(crate / "specs", ".antt"), lines(crate / "proofs", ".antt")]
        total = [a + b for a, b in zip(total, sizes)]
        yield row(name, *sizes)
    yield row("all", *total)


text = "\n".join(table()) + "\n"
if sys.argv[1:] == ["--write"]:
    page = root / "docs" / "PROMISES.md"
    old = page.read_text(encoding="utf-8")
    page.write_text(re.sub(r"\| crate \| code \|.*?\n(?=\n|\Z)", lambda _: text, old, flags=re.S), encoding="utf-8")
else:
    print(text, end="")
