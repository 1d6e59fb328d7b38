#!/usr/bin/env python3
"""Compares two builds of the program on the same long lists of events: bench/against.py BEFORE [NOW].

BEFORE and NOW are programs; NOW is that of this checkout, after `make build`, and one of an earlier commit comes from a clone of
that commit by `make build` there. (What `rt try` makes is not fit for it: an unproved program is some hundred times slower.)
Both are given each list in turn, and must write the same output. It prints, for each number of members, the events a second and
the peak of memory of both (the least of the turns), how many times as fast NOW is, and what part of BEFORE's memory it takes.
"""
import argparse
import hashlib
import os
import subprocess
import sys

from long_run import PROGRAM, input_of, numbers


def run(program, file):
    """Seconds of processor time, the peak of memory in bytes, and a digest of the output."""
    file.seek(0)
    child = subprocess.Popen([program, "run"], stdin=file, stdout=subprocess.PIPE)
    digest = hashlib.sha256()
    while block := child.stdout.read(1 << 16):
        digest.update(block)
    _, status, usage = os.wait4(child.pid, 0)
    if status != 0:
        sys.exit(f"{program} ended with {os.waitstatus_to_exitcode(status)}")
    return usage.ru_utime + usage.ru_stime, usage.ru_maxrss * 1024, digest.digest()


def least(runs):
    return min(seconds for seconds, _, _ in runs), min(peak for _, peak, _ in runs)


def main():
    parser = argparse.ArgumentParser(description="compares two builds of the program on long lists of events")
    parser.add_argument("--turns", type=int, default=3)
    parser.add_argument("--members", type=numbers, default=[1, 4, 16, 64])
    parser.add_argument("--events", type=int, default=200_000)
    parser.add_argument("before")
    parser.add_argument("now", nargs="?", default=str(PROGRAM))
    words = parser.parse_args()
    print(f"{'members':>8} {'before, a second':>17} {'now':>8} {'times as fast':>14} {'before, MB':>11} {'now':>6} {'part':>5}")
    for members in words.members:
        with input_of("rounds", members, words.events) as file:
            turns = [(run(words.before, file), run(words.now, file)) for _ in range(words.turns)]
        if len({digest for pair in turns for _, _, digest in pair}) != 1:
            sys.exit(f"the two programs write different outputs for {members} members")
        (slow, large), (fast, small) = (least([pair[it] for pair in turns]) for it in (0, 1))
        print(
            f"{members:>8} {words.events / slow:>17.0f} {words.events / fast:>8.0f} {slow / fast:>14.2f}"
            f" {large / 1e6:>11.0f} {small / 1e6:>6.0f} {small / large:>5.2f}",
            flush=True,
        )


if __name__ == "__main__":
    main()
