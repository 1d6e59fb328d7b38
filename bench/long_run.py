#!/usr/bin/env python3
"""Times the program on long lists of events, in which honest members finalize view after view and nothing is lost.

Run it from anywhere, after `make build`: bench/long_run.py [--turns N] [--members N,..] [--events N,..] [PROGRAM].
It prints, for each number of members and each length, the events a second of the whole run (reading and printing counted), the
peak of memory, bytes an event, and how much longer the list took than the one before it. Times are processor time, the least of
the turns.
"""
import argparse
import os
import pathlib
import subprocess
import sys
import tempfile

HERE = pathlib.Path(__file__).resolve().parent
PROGRAM = HERE.parent / "crates" / "simplex_net" / "out" / "simplex_net"


def input_of(*words):
    """A file with the list that these words name. It is made by another process, since a process begins with the peak of
    memory of the one that started it."""
    file = tempfile.TemporaryFile()
    subprocess.run([sys.executable, HERE / "lists.py", *map(str, words)], stdout=file, check=True)
    return file


def run(program, file):
    """Seconds of processor time, and the peak of memory in bytes."""
    file.seek(0)
    child = subprocess.Popen([program, "run"], stdin=file, stdout=subprocess.DEVNULL)
    _, status, usage = os.wait4(child.pid, 0)
    if status != 0:
        sys.exit(f"the program ended with {os.waitstatus_to_exitcode(status)}")
    return usage.ru_utime + usage.ru_stime, usage.ru_maxrss * 1024


def numbers(text):
    return [int(it) for it in text.split(",")]


def main():
    parser = argparse.ArgumentParser(description="times the program on long lists of events")
    parser.add_argument("--turns", type=int, default=3)
    parser.add_argument("--members", type=numbers, default=[1, 4, 16, 64])
    parser.add_argument("--events", type=numbers, default=[50_000, 100_000, 200_000])
    parser.add_argument("program", nargs="?", default=str(PROGRAM))
    words = parser.parse_args()
    print(f"{'members':>8} {'events':>8} {'a second':>10} {'peak MB':>8} {'bytes an event':>14} {'times the one before':>20}")
    for members in words.members:
        before = None
        for count in words.events:
            with input_of("rounds", members, count) as file:
                seconds, peak = min(run(words.program, file) for _ in range(words.turns))
            times = "" if before is None else f"{seconds / before:.2f}"
            print(f"{members:>8} {count:>8} {count / seconds:>10.0f} {peak / 1e6:>8.0f} {peak / count:>14.0f} {times:>20}", flush=True)
            before = seconds


if __name__ == "__main__":
    main()
