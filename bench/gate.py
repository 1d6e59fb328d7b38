#!/usr/bin/env python3
"""What the gate costs, crate by crate: runs `rt ci`, and prints for docs/GATE.md a table of seconds of processor time, a timeline, and the
longest chain of crates.

    bench/gate.py --anew          the whole gate from nothing, as the table of docs/GATE.md is made
    bench/gate.py [WORD..]        `rt ci` with these words; what an earlier run passed is not done again, and costs nothing
    bench/gate.py --speed         the seconds of one small crate, proved from nothing: by these the figures of two machines are compared
    bench/gate.py --join TABLE LOG [TABLE LOG]..
                                  one table of a run that was stopped and gone on with, by what each of its parts wrote to standard
                                  output and standard error: of a proof the last part counts that proved the crate, of tests and
                                  wrong bodies the dearest

The gate's log has no times. So while the gate runs, this looks five times a second at the processor time of each of its
processes, as Linux has it in /proc, and adds it to the crate that the process was started for: to its proof, its tests, or
its wrong bodies (with the proof of the crate that they begin with). What ends between two looks is missed. The gate's own lines
go to standard error.
"""
import collections
import os
import re
import resource
import signal
import subprocess
import sys
import time

# The crate of --speed: 34 functions, over nothing but the kit.
SMALL = "simplex_io"
TOP = os.path.dirname(os.path.dirname(os.path.abspath(__file__)))
KINDS = ("proof", "tests", "edits")
TICKS = os.sysconf("SC_CLK_TCK")


def read(path):
    try:
        with open(path, "rb") as file:
            return file.read()
    except OSError:
        return b""


def fields(pid):
    """The fields of /proc/PID/stat behind the name, the first of which is the state."""
    return read(f"/proc/{pid}/stat").rpartition(b")")[2].split()


def label(pid):
    """The crate that a process was started for, and what it does for it; none where its words do not tell."""
    words = read(f"/proc/{pid}/cmdline").decode(errors="replace").split("\0")
    if "--crate-name" not in words:
        return None
    crate = words[words.index("--crate-name") + 1]
    try:
        folder = os.path.basename(os.readlink(f"/proc/{pid}/cwd"))
    except OSError:
        folder = ""
    if folder.startswith("rt-edit"):
        return crate, "edits"
    return crate, "tests" if "--test" in words else "proof"


class Clock:
    """The processor time of each process of a session, and what each was started for."""

    def __init__(self, session):
        self.session = str(session).encode()
        self.ticks = {}
        self.labels = {}
        self.begun = time.monotonic()
        # of each crate and kind the seconds since the begin at which it was first and last seen at work
        self.spans = {}
        # how many crates were at work at each look, with its time
        self.lanes = []

    def look(self):
        now = time.monotonic() - self.begun
        self.seen = set()
        for name in os.listdir("/proc"):
            if name.isdigit():
                self.note(int(name))
        for work in self.seen:
            first, _ = self.spans.get(work, (now, now))
            self.spans[work] = first, now
        self.lanes.append((now, len(self.seen)))

    def note(self, pid):
        stat = fields(pid)
        if len(stat) < 20 or stat[3] != self.session:
            return
        process = pid, stat[19]
        parent = next((it for it in reversed(self.labels) if it[0] == int(stat[1])), None)
        # A process that begins as a copy of another gets its own words a moment later.
        found = label(pid) or self.labels.get(process) or self.labels.get(parent)
        if found:
            self.labels[process] = found
            self.seen.add(found)
        self.ticks[process] = int(stat[11]) + int(stat[12])

    def seconds(self):
        """Seconds by crate and kind; of the kind None is what was started for no crate."""
        found = collections.Counter()
        for process, ticks in self.ticks.items():
            found[self.labels.get(process, (None, None))] += ticks / TICKS
        return found


def table(seconds):
    crates = sorted({crate for crate, _ in seconds if crate}, key=lambda it: -sum(seconds[it, kind] for kind in KINDS))
    yield "| Crate | Proof | Tests | Wrong bodies | All |"
    yield "|---|---|---|---|---|"
    for crate in crates:
        each = [seconds[crate, kind] for kind in KINDS]
        yield f"| `{crate}` | " + " | ".join(f"{it:.0f}" if it else "" for it in each) + f" | {sum(each):.0f} |"
    each = [sum(seconds[crate, kind] for crate in crates) / 60 for kind in KINDS]
    yield "| all, in minutes | " + " | ".join(f"{it:.1f}" for it in each) + f" | {sum(each):.1f} |"
    yield ""
    yield f"Besides, {seconds[None, None] / 60:.1f} minutes for `rt` itself and for the programs and tests that it ran."


def needed():
    """The crates of the repository that each crate names."""
    found = {}
    with open(os.path.join(TOP, "crates.txt")) as file:
        for line in file:
            head, colon, rest = line.partition(":")
            if colon and not line.startswith("#"):
                found[head.split()[0]] = rest.split()
    return {crate: [it for it in names if it in found] for crate, names in found.items()}


def chain(seconds):
    """The crates that stand on one another whose proofs take longest in all, the lowest first, and their seconds."""
    below, best = needed(), {}

    def longest(crate):
        if crate not in best:
            before = max((longest(it) for it in below[crate]), key=lambda it: it[0], default=(0, []))
            best[crate] = before[0] + seconds[crate, "proof"], before[1] + [crate]
        return best[crate]

    return max((longest(crate) for crate in below), key=lambda it: it[0])


def timeline(clock):
    """Which crate was at work in which minutes, and how long how many lanes were."""
    yield "| Crate | Work | Minutes |"
    yield "|---|---|---|"
    for (crate, kind), (first, last) in sorted(clock.spans.items(), key=lambda it: it[1]):
        yield f"| `{crate}` | {kind} | {first / 60:.1f} to {last / 60:.1f} |"
    yield ""
    idle = collections.Counter()
    for (at, lanes), (after, _) in zip(clock.lanes, clock.lanes[1:]):
        idle[lanes] += after - at
    yield "Minutes with so many crates at work: " + ", ".join(f"{lanes}: {idle[lanes] / 60:.1f}" for lanes in sorted(idle)) + "."


def speed():
    """The seconds of processor time of the proof of one small crate from nothing."""
    subprocess.run(["rt", "ci", "--anew", SMALL], cwd=TOP, stdout=sys.stderr, check=True)
    used = resource.getrusage(resource.RUSAGE_CHILDREN)
    print(f"{SMALL}: {used.ru_utime + used.ru_stime:.1f} s of processor time, at a load of {os.getloadavg()[0]:.0f}")


def rows(path):
    """The seconds of a table, by crate and kind."""
    found = collections.Counter()
    with open(path) as file:
        for line in file:
            cells = [it.strip() for it in line.strip().strip("|").split("|")]
            if len(cells) == 5 and cells[0].startswith("`"):
                found.update({(cells[0].strip("`"), kind): int(it or 0) for kind, it in zip(KINDS, cells[1:])})
            elif line.startswith("Besides, "):
                found[None, None] = 60 * float(line.split()[1])
    return found


def joined(parts):
    """The seconds of a run by its parts, the first one first."""
    seconds = collections.Counter()
    for path, log in parts:
        with open(log, errors="replace") as file:
            proved = set(re.findall(r"^rt: (\w+) proved$", file.read(), re.M))
        for (crate, kind), it in rows(path).items():
            if crate is None:
                seconds[crate, kind] += it
            elif kind != "proof":
                seconds[crate, kind] = max(seconds[crate, kind], it)
            elif crate in proved or not seconds[crate, kind]:
                seconds[crate, kind] = it
    return seconds


def main():
    if sys.argv[1:2] == ["--join"]:
        print("\n".join(table(joined(list(zip(sys.argv[2::2], sys.argv[3::2]))))))
        return
    if sys.argv[1:2] == ["--speed"]:
        speed()
        return
    # A run that is stopped prints what it has seen, so that `--join` can go on from there.
    signal.signal(signal.SIGTERM, signal.default_int_handler)
    gate = subprocess.Popen(["rt", "ci", *sys.argv[1:]], cwd=TOP, stdout=sys.stderr, start_new_session=True)
    clock = Clock(gate.pid)
    try:
        while gate.poll() is None:
            clock.look()
            time.sleep(0.2)
    except KeyboardInterrupt:
        # The gate has a session of its own, which a break does not reach.
        os.killpg(gate.pid, signal.SIGTERM)
        gate.wait()
    seconds = clock.seconds()
    print("\n".join(table(seconds)))
    long, crates = chain(seconds)
    print(f"\nThe longest chain: {long / 60:.1f} minutes, {', '.join(crates)}.\n")
    print("\n".join(timeline(clock)))
    sys.exit(gate.returncode)


if __name__ == "__main__":
    main()
