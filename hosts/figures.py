#!/usr/bin/env python3
"""What clusters cost, for bench/README.md: each part runs alone, within a time, and prints the rows of a table.

    figures.py speed   [--members 1,4,7,16] [--seconds 20]       views a second, milliseconds and processor time a view
    figures.py syncs   [--members 4] [--views 50]                syncs a view a member, of the process and of the host (needs strace)
    figures.py restart [--kept 10,1000,10000] [--members 4]      how long a process takes to its first `ready`
    figures.py memory  [--members 4] [--seconds 120]             resident memory while views go by
    figures.py disk                                              how long one sync takes

Each part takes --places FOLDER,FOLDER (by default /dev/shm, in memory, and the folder for temporary files, which should be on a disk),
--program for another simplex_node_cli, --limit for the seconds after which a run is given up, and --timeout for the milliseconds that a
leader has to propose: on a busy machine members are too slow for the usual 1000, and no view becomes final. The host is the one in Rust:
`cargo build --release --offline` in hosts/rust makes it. The load of the machine stands above each table: on a busy one, times tell of
the load."""
import argparse
import contextlib
import json
import os
import pathlib
import re
import shutil
import statistics
import subprocess
import sys
import tempfile
import time

HERE = pathlib.Path(__file__).resolve().parent
sys.path.insert(0, str(HERE / "python"))
from node import program_path  # noqa: E402

CLUSTER = HERE / "rust/target/release/cluster"
WRAPPER = """#!/bin/sh
[ "$1" = run ] || exec {program} "$@"
exec strace -f --seccomp-bpf -e trace=fsync,fdatasync -o {folder}/$2.syncs {program} "$@"
"""


class GivenUp(Exception):
    """A run that did not end well in its time."""


@contextlib.contextmanager
def room(place):
    with tempfile.TemporaryDirectory(prefix="figures-", dir=place) as folder:
        yield pathlib.Path(folder)


def cluster(options, *words, program=None):
    """The samples and the figures of a run."""
    # The cluster gives up by itself first, and ends its members.
    command = [CLUSTER, "--json", "--program", program or options.program, "--seconds", options.limit, "--timeout", options.timeout, *words]
    done = subprocess.run([str(word) for word in command], capture_output=True, text=True, timeout=options.limit + 60)
    *samples, last = done.stdout.splitlines() or ["nothing was said"]
    if done.returncode:
        raise GivenUp(f"{last[:200]} {done.stderr.strip()[:200]}")
    return samples, json.loads(last)


def head(*names):
    print(f"\nLoad of the last minute {os.getloadavg()[0]:.1f}, on {os.cpu_count()} processors\n")
    row(*names)
    row(*["---"] * len(names))


def row(*cells):
    print("| " + " | ".join(str(cell) for cell in cells) + " |", flush=True)


def by_view(figures, name):
    return f"{figures[name] / max(1, figures['views']) / 1000:.2f}"


def speed(options):
    head(
        "Place", "Members", "Views", "Views a second", "ms a view", "CPU ms a view, processes", "CPU ms a view, hosts", "First final, s",
        "Load",
    )
    for place in options.places:
        for members in options.members or [1, 4, 7, 16]:
            try:
                _, found = cluster(
                    options, "--members", members, "--views", 1 << 40, "--enough", options.seconds, "--retention", 20, "--in", place
                )
            except GivenUp as why:
                row(place, members, f"given up: {why}")
                continue
            views, seconds = found["views"], found["time_us"] / 1e6
            speeds = (f"{views / seconds:.1f}", f"{1000 * seconds / views:.2f}") if views else ("-", "-")
            works = by_view(found, "node_work_us"), by_view(found, "host_work_us")
            row(place, members, views, *speeds, *works, f"{found['until_first_us'] / 1e6:.2f}", f"{os.getloadavg()[0]:.1f}")


def syncs(options):
    if not shutil.which("strace"):
        raise SystemExit("strace is missing")
    head("Members", "Views", "Syncs a view a member, process", "Host", "Both")
    for members in options.members or [1, 4, 7]:
        with room(options.places[0]) as folder:
            wrapper = folder / "traced"
            wrapper.write_text(WRAPPER.format(program=options.program, folder=folder))
            wrapper.chmod(0o755)
            try:
                _, found = cluster(options, "--members", members, "--views", options.views, "--in", folder, program=wrapper)
            except GivenUp as why:
                row(members, f"given up: {why}")
                continue
            # Members go on past the least final view until they are stopped, so blocks of the longest chain are what the syncs are for.
            views = max(found["final_view"], found["blocks"])
            calls = sum(len(re.findall(r"f(?:data)?sync\(", path.read_text())) for path in folder.glob("*.syncs"))
            process, host = (count / views / members for count in (calls, found["host_syncs"]))
            row(members, views, f"{process:.2f}", f"{host:.2f}", f"{process + host:.2f}")


def restart(options):
    head("Place", "Views kept", "Journal, kB", "Restart, s, least of 3", "Most")
    members = (options.members or [4])[0]
    for place in options.places:
        for kept in options.kept:
            with room(place) as folder:
                run = folder / "run"
                try:
                    cluster(options, "--members", members, "--views", kept + 1, "--retention", kept, "--keep", run)
                except GivenUp as why:
                    row(place, kept, f"given up: {why}")
                    continue
                config = json.loads((run / "member-0.json").read_text())
                journal = run / "member-0/journal"
                size = sum(path.stat().st_size for path in journal.iterdir())
                times = [started(options, config["setup"], journal) for _ in range(3)]
                row(place, kept, size // 1024, f"{min(times):.3f}", f"{max(times):.3f}")


def started(options, setup, journal):
    """Seconds from the start of a process to its first `ready`."""
    lines = json.dumps(setup, separators=(",", ":")) + f"\nstart {time.time_ns() // 1_000_000}\n"
    begun = time.monotonic()
    process = subprocess.Popen([options.program, "run", "0", str(journal)], stdin=subprocess.PIPE, stdout=subprocess.PIPE, text=True)
    with process:
        process.stdin.write(lines)
        process.stdin.flush()
        for line in process.stdout:
            if line.startswith("ready "):
                took = time.monotonic() - begun
                process.stdin.close()
                process.stdout.read()
                return took
    raise SystemExit(f"the process ended with status {process.returncode}")


def memory(options):
    head("Members", "At", "Final view", "Process, MB", "Host, MB")
    members = (options.members or [4])[0]
    every = max(1, options.seconds // 8)
    try:
        samples, found = cluster(
            options, "--members", members, "--views", 1 << 40, "--enough", options.seconds, "--every", every, "--in", options.places[0]
        )
    except GivenUp as why:
        row(members, f"given up: {why}")
        return
    for sample in samples:
        row(members, *re.match(r"(\S+ s): final view (\d+), node (\S+) MB, host (\S+) MB", sample).groups())
    row(members, "most", found["final_view"], f"{found['node_kb'] / 1024:.1f}", f"{found['host_kb'] / 1024:.1f}")


def disk(options):
    head("Place", "Sync of 400 appended bytes, ms, middle of 100", "Least", "Most")
    for place in options.places:
        with room(place) as folder, open(folder / "file", "wb", buffering=0) as file:
            times = []
            end = time.monotonic() + options.limit
            while len(times) < 100 and time.monotonic() < end:
                file.write(bytes(400))
                begun = time.monotonic()
                os.fdatasync(file.fileno())
                times.append(1000 * (time.monotonic() - begun))
            row(place, f"{statistics.median(times):.3f}", f"{min(times):.3f}", f"{max(times):.3f}")


PARTS = {"speed": speed, "syncs": syncs, "restart": restart, "memory": memory, "disk": disk}


def numbers(text):
    return [int(word) for word in text.split(",")]


def main():
    words = argparse.ArgumentParser(description=__doc__, formatter_class=argparse.RawDescriptionHelpFormatter)
    words.add_argument("part", choices=PARTS)
    words.add_argument("--members", type=numbers)
    words.add_argument("--seconds", type=int, default=20)
    words.add_argument("--limit", type=int, default=300)
    words.add_argument("--timeout", type=int, default=1000)
    words.add_argument("--views", type=int, default=50)
    words.add_argument("--kept", type=numbers, default=[10, 1000, 10_000])
    words.add_argument("--places", type=lambda text: text.split(","), default=["/dev/shm", tempfile.gettempdir()])
    words.add_argument("--program")
    options = words.parse_args()
    options.program = str(pathlib.Path(program_path(options.program)).resolve())
    if options.part != "disk" and not CLUSTER.exists():
        raise SystemExit(f"{CLUSTER} is missing: cargo build --release --offline in hosts/rust makes it")
    PARTS[options.part](options)


if __name__ == "__main__":
    main()
