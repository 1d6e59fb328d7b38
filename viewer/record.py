#!/usr/bin/env python3
"""Prints the record of the run of an input, with the lines of its trace: what the viewer opens.

Usage: record.py INPUT.json

It is the record inside the page that `letsvaku view` writes: what `letsvaku record` writes, and in it `lines`, what `letsvaku trace`
writes. Of a refused run it is the record of the events before the refused one, and `refused` has the lines on the refusal. The program is
that which the gate built, or else that of `make fast`, which is built where it is missing."""
import functools
import pathlib
import subprocess
import sys

ROOT = pathlib.Path(__file__).resolve().parent.parent
BEGINNING = '<script type="application/json" id="record">'
END = "</script>"


@functools.lru_cache
def program():
    """The program, proved or not."""
    proved = ROOT / "crates" / "letsvaku" / "out" / "letsvaku"
    if proved.exists():
        return proved
    subprocess.run([ROOT / "tools" / "unproved.py", "build"], check=True)
    return ROOT / "unproved" / "letsvaku"


def record_of(text):
    """The record of an input with its lines, as a text, or the reason for which there is none."""
    done = subprocess.run([program(), "view", "--page", ROOT / "viewer"], input=text, capture_output=True, check=False)
    page = done.stdout.decode()
    if done.returncode != 0:
        return None, (page + done.stderr.decode()).strip()
    return page.split(BEGINNING, 1)[1].split(END, 1)[0], None


def main(words):
    if len(words) != 1:
        sys.exit(__doc__)
    record, why = record_of(pathlib.Path(words[0]).read_bytes())
    if record is None:
        sys.exit(f"There is no record: {why}")
    sys.stdout.write(record)


if __name__ == "__main__":
    main(sys.argv[1:])
