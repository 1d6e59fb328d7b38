#!/usr/bin/env python3
"""Times `run` and `par` on lists in which many events of different members stand side by side, so that `par` steps them at once.

Run it from anywhere, after `make build`: bench/wide.py [--lists NAME,..] [--turns N] [--members N] [--events N] [--workers N,..]
[PROGRAM]. Each list (of bench/lists.py: `abreast` and `ticks`, whose steps are cheap, or `shown` and `doubted`, whose steps verify
certificates) is given to `run` and to `par` with these numbers of workers, in turn, and all must write the same. It prints how many events a group has that is stepped at once; then, for each way, the events a second by the
clock on the wall (the least of the turns, reading and printing counted), how many times as fast that is as `par 1`, and the
seconds of processor time; then what reading alone takes, which is the time of the same list behind an event that is refused.
"""
import argparse
import hashlib
import json
import os
import subprocess
import sys
import tempfile
import time

import lists
from long_run import PROGRAM, numbers

REFUSED = {"do": "crash", "node": [0, 0]}


def joins(event, named, first):
    """Whether the event is stepped at once with those from event `first` on, which name these nodes."""
    if event["do"] not in ("deliver", "step", "answer") or tuple(event["node"]) in named:
        return False
    return event["do"] != "deliver" or event["packet"][0] < first


def groups(events):
    """How many events each group has of the events of honest members."""
    sizes, named, first = [], set(), 1
    for number, event in enumerate(events, 1):
        if not sizes or not named or not joins(event, named, first):
            sizes.append(0)
            named, first = set(), number
        sizes[-1] += 1
        if joins(event, named, number):
            named.add(tuple(event["node"]))
    return sizes


def file_of(events, setup):
    file = tempfile.TemporaryFile("w+")
    json.dump({"setup": setup, "events": events}, file)
    file.flush()
    return file


def run(program, words, file, wanted):
    """Seconds by the clock on the wall and of processor time, and a digest of the output."""
    file.seek(0)
    start = time.monotonic()
    child = subprocess.Popen([program, *words], stdin=file, stdout=subprocess.PIPE)
    digest = hashlib.sha256()
    while block := child.stdout.read(1 << 16):
        digest.update(block)
    _, status, usage = os.wait4(child.pid, 0)
    seconds = time.monotonic() - start
    if os.waitstatus_to_exitcode(status) != wanted:
        sys.exit(f"{program} {' '.join(words)} ended with {os.waitstatus_to_exitcode(status)}")
    return seconds, usage.ru_utime + usage.ru_stime, digest.digest()


def least(runs):
    return min(seconds for seconds, _, _ in runs), min(cost for _, cost, _ in runs)


def time_list(name, words):
    made = getattr(lists, name)(words.members, words.events)
    count, sizes = len(made["events"]), groups(made["events"])
    print(f"{name}: {words.members} members, {count} events in {len(sizes)} groups, of {count / len(sizes):.1f} each")
    ways = [["run"]] + [["par", str(it)] for it in words.workers]
    with file_of(made["events"], made["setup"]) as file, file_of([REFUSED] + made["events"], made["setup"]) as read:
        turns = [[run(words.program, way, file, 0) for way in ways] for _ in range(words.turns)]
        reading, _ = least([run(words.program, ["run"], read, 1) for _ in range(words.turns)])
    if len({digest for turn in turns for _, _, digest in turn}) != 1:
        sys.exit("run and par write different outputs")
    times = {" ".join(way): least([turn[it] for turn in turns]) for it, way in enumerate(ways)}
    by_one, _ = times.get("par 1", times["run"])
    for way, (seconds, cost) in times.items():
        print(
            f"  {way:<8} {count / seconds:>10.0f} a second {by_one / seconds:>6.2f} times {cost:>7.2f} s of processors",
            flush=True,
        )
    whole, _ = times["run"]
    print(f"  reading  {reading:>10.2f} s of the {whole:.2f} s of run, so {1 - reading / whole:.0%} are the run's own")


def main():
    parser = argparse.ArgumentParser(description="times run and par on lists in which groups are wide")
    parser.add_argument("--lists", type=lambda text: text.split(","), default=["abreast", "ticks"])
    parser.add_argument("--turns", type=int, default=5)
    parser.add_argument("--members", type=int, default=64)
    parser.add_argument("--events", type=int, default=200_000)
    parser.add_argument("--workers", type=numbers, default=[1, 2, 4])
    parser.add_argument("program", nargs="?", default=str(PROGRAM))
    words = parser.parse_args()
    for name in words.lists:
        time_list(name, words)


if __name__ == "__main__":
    main()
