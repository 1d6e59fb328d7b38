#!/usr/bin/env python3
"""Refuses a crates.txt in which a crate names one that stands below it, stands under no heading, or names a crate that none of its files
mentions. Each name costs: `rt ci` walks all of them before its first proof."""
import pathlib
import re
import sys

ROOT = pathlib.Path(__file__).resolve().parent.parent
# What a check reads of a crate.
PARTS = ("src", "specs", "proofs")
WORD = re.compile(r"\w+")


def words_of(crate):
    """All words of the crate's files."""
    words = set()
    for part in PARTS:
        for path in (ROOT / "crates" / crate / part).rglob("*"):
            if path.is_file():
                words.update(WORD.findall(path.read_text()))
    return words


def main():
    lines = []
    heading = None
    faults = []
    for line in (ROOT / "crates.txt").read_text().splitlines():
        if line.startswith("#"):
            heading = line
        elif ":" in line:
            head, _, rest = line.partition(":")
            crate = head.split()[0]
            lines.append((crate, rest.split()))
            if heading is None:
                faults.append(f"{crate} stands under no heading")
    ours = {crate for crate, _ in lines}
    seen = set()
    names = 0
    for crate, needed in lines:
        words = words_of(crate)
        for name in needed:
            names += 1
            if name in ours and name not in seen:
                faults.append(f"{crate} names {name}, which stands below it")
            if name not in words:
                faults.append(f"{crate} names {name}, which none of its files mentions")
        seen.add(crate)
    for path in sorted((ROOT / "crates").iterdir()):
        if (path / "src").is_dir() and path.name not in ours:
            faults.append(f"{path.name} has no line")
    for fault in faults:
        print(f"layers: {fault}")
    print(f"layers: {len(lines)} crates, {names} names" + ("" if faults else ", each after all that it names"))
    return 1 if faults else 0


if __name__ == "__main__":
    sys.exit(main())
