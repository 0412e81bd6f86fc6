#!/usr/bin/env python3
"""Brings the first columns of docs/GATE.md's table up to date: lines of source, specs and proofs, tests, edits.

The minutes stay as they are. Run at the top of the repository.
"""
import glob
import re

GATE = "docs/GATE.md"


def lines(pattern):
    """The lines of all files of a pattern."""
    total = 0
    for path in glob.glob(pattern, recursive=True):
        with open(path, encoding="utf-8") as file:
            total += sum(1 for _ in file)
    return total


def tests(crate):
    """How many tests a crate has."""
    total = 0
    for path in glob.glob(f"crates/{crate}/src/**/*.rt", recursive=True):
        with open(path, encoding="utf-8") as file:
            total += sum(line.strip() == "#[test]" for line in file)
    return total


def crates():
    """The crates, in the order of crates.txt."""
    with open("crates.txt", encoding="utf-8") as file:
        return [line.split(":")[0].split()[0] for line in file if ":" in line and not line.startswith("#")]


def main():
    with open(GATE, encoding="utf-8") as file:
        old = file.read().split("\n")
    first = next(i for i, line in enumerate(old) if line.startswith("|---|---:|")) + 1
    last = next(i for i in range(first, len(old)) if not old[i].startswith("|"))
    minutes = {re.match(r"\| `(\w+)`", row).group(1): row.split("|")[7:10] for row in old[first:last] if "`" in row}
    rows = []
    sums = [0, 0, 0, 0, 0]
    for crate in crates():
        counts = [lines(f"crates/{crate}/{part}/**/*.{kind}") for part, kind in
                  (("src", "rt"), ("specs", "antt"), ("proofs", "antt"))]
        edits = len(glob.glob(f"crates/{crate}/must-fail/*.edit"))
        counts += [tests(crate), edits]
        sums = [a + b for a, b in zip(sums, counts)]
        cells = [f"{n:,}" for n in counts]
        cells += [cell.strip() for cell in minutes.get(crate, ["", "", ""])]
        rows.append("| " + " | ".join([f"`{crate}`"] + cells) + " |")
    for row in old[first:last]:
        if "`" not in row:
            cells = [f"{n:,}" for n in sums] + [cell.strip() for cell in row.split("|")[7:10]]
            rows.append("| " + " | ".join(["all"] + cells) + " |")
    old[first:last] = rows
    with open(GATE, "w", encoding="utf-8") as file:
        file.write("\n".join(old))


main()
