#!/usr/bin/env python3
"""Times the program on the events that a number makes: `gen NUMBER STEPS`.

Run it from anywhere, after `make build`: bench/generated.py [--turns N] [--number N] [--steps N,..] [PROGRAM].
It prints, for each number of steps, the line that the program writes, the seconds of processor time (the least of the turns), the
peak of memory, and how much longer it took than the one before.
"""
import argparse
import os
import pathlib
import subprocess
import sys

HERE = pathlib.Path(__file__).resolve().parent
PROGRAM = HERE.parent / "crates" / "simplex_net" / "out" / "simplex_net"


def run(program, number, steps):
    """What the program writes, seconds of processor time, and the peak of memory in bytes."""
    child = subprocess.Popen([*program, "gen", str(number), str(steps)], stdout=subprocess.PIPE, text=True)
    line = child.stdout.read().strip()
    _, status, usage = os.wait4(child.pid, 0)
    if status != 0:
        sys.exit(f"the program ended with {os.waitstatus_to_exitcode(status)}")
    return usage.ru_utime + usage.ru_stime, usage.ru_maxrss * 1024, line


def numbers(text):
    return [int(it) for it in text.split(",")]


def main():
    parser = argparse.ArgumentParser(description="times the program on the events that a number makes")
    parser.add_argument("--turns", type=int, default=3)
    parser.add_argument("--number", type=int, default=7)
    parser.add_argument("--steps", type=numbers, default=[50_000, 100_000, 200_000])
    parser.add_argument("program", nargs="*", default=[str(PROGRAM)])
    words = parser.parse_args()
    before = None
    for steps in words.steps:
        seconds, peak, line = min(run(words.program, words.number, steps) for _ in range(words.turns))
        times = "" if before is None else f", {seconds / before:.2f} times the one before"
        print(f"{line}: {seconds:.2f} s, {peak / 1e6:.0f} MB{times}", flush=True)
        before = seconds


if __name__ == "__main__":
    main()
