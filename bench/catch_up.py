#!/usr/bin/env python3
"""Times an engine that catches up: it starts many views behind its three peers, and fetches a nullification for each.

Run it from anywhere, after `make build`: bench/catch_up.py [--turns N] [--views N,..] [PROGRAM].
For each number of views it prints the processor time of a whole run, that of the same run without the engine that is behind, and
what is left for catching up: events a second, six for each view, of which four are its own. Times are the least of the turns.
"""
import argparse

from long_run import PROGRAM, input_of, numbers, run


def least(program, turns, *words):
    """The least time that the list takes."""
    with input_of(*words) as file:
        return min(run(program, file)[0] for _ in range(turns))


def main():
    parser = argparse.ArgumentParser(description="times an engine that catches up")
    parser.add_argument("--turns", type=int, default=3)
    parser.add_argument("--views", type=numbers, default=[2_500, 5_000, 10_000])
    parser.add_argument("program", nargs="?", default=str(PROGRAM))
    words = parser.parse_args()
    print(f"{'views':>8} {'whole s':>8} {'before s':>8} {'events a second':>16} {'views a second':>15}")
    for views in words.views:
        whole = least(words.program, words.turns, "behind", views)
        before = least(words.program, words.turns, "given_up", views)
        took = whole - before
        print(f"{views:>8} {whole:>8.2f} {before:>8.2f} {6 * views / took:>16.0f} {views / took:>15.0f}", flush=True)


if __name__ == "__main__":
    main()
