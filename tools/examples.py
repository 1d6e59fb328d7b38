#!/usr/bin/env python3
"""Runs the programs on the stored examples, and compares what they print and their statuses.

    tools/examples.py                    # the programs that the gate or `rt run` built
    tools/examples.py --unproved         # those of `make fast`, which are not proved
    tools/examples.py --unproved FOLDER  # and a further folder, of examples of simplex_net
    tools/examples.py --by letsvaku      # one program alone

A folder of examples/ says the program: net, lab, audit, log, ledger, epochs; `letsvaku` runs those of all folders but the words that it
does not take. An example has NAME.json (the input), or NAME.script; NAME.out
(what is printed; of a script without it, the script itself); NAME.status, the exit status, where it is not 0; and NAME.words, where the words
are not the one word run: each line is a run of its own that prints the same. NAME.said has for each run a line, which is what `letsvaku` says on
standard error."""
import argparse
import os
import pathlib
import shlex
import subprocess
import sys
import tempfile

ROOT = pathlib.Path(__file__).resolve().parent.parent
PROGRAMS = {
    "net": "simplex_net",
    "lab": "letsvaku",
    "audit": "simplex_audit_cli",
    "log": "simplex_log_cli",
    "ledger": "simplex_ledger_cli",
    "epochs": "simplex_epochs_cli",
}
# The program that has the commands of all. What it says of other words than it takes stands on standard error.
WHOLE = "letsvaku"
OTHER_WORDS = "other-words"
# An example runs for at most so many seconds.
LIMIT = 120


def built(name, unproved):
    """The program of this name; None, and a line that says how to build it, where there is none."""
    path = ROOT / "unproved" / name if unproved else ROOT / "crates" / name / "out" / name
    if path.is_file():
        return path
    how = "make fast" if unproved else f"cd crates/{name} && rt run"
    print(f"examples: there is no {path.relative_to(ROOT)}: {how}")
    return None


def runs_of(example):
    """The words of each run of an example."""
    words = example.with_suffix(".words")
    if not words.exists():
        return [["run"]]
    return [shlex.split(line) for line in words.read_text().splitlines()]


def input_of(example):
    """The file that the program reads: the input, the script, or nothing at all where the words alone matter."""
    for suffix in (".json", ".script"):
        if example.with_suffix(suffix).exists():
            return example.with_suffix(suffix)
    return pathlib.Path("/dev/null")


def fault(program, example, number, words):
    """Why the program does not do what the example says of the run of this number, which has these words, or None."""
    source = input_of(example)
    output = example.with_suffix(".out")
    if not output.exists():
        output = source
    status = example.with_suffix(".status")
    wanted = int(status.read_text()) if status.exists() else 0
    try:
        with open(source, "rb") as stdin:
            run = subprocess.run([program, *words], stdin=stdin, capture_output=True, timeout=LIMIT, check=False, cwd=ROOT)
    except subprocess.TimeoutExpired:
        return f"it did not end within {LIMIT} seconds"
    if run.returncode != wanted:
        return f"status {run.returncode}, not {wanted}"
    if run.stdout != output.read_bytes():
        return f"it printed otherwise, beginning {run.stdout.splitlines()[:1]}"
    said = example.with_suffix(".said")
    if program.name == WHOLE and said.exists() and run.stderr.decode() != said.read_text().splitlines(keepends=True)[number]:
        return f"it said {run.stderr.decode()!r}"
    return None


def stream_fault(program, source, sink, wanted, said):
    """Why the program does not end with this status and this line on standard error, with these standard streams, or None."""
    # A folder opens as a file descriptor alone.
    stdin = os.open(source, os.O_RDONLY)
    try:
        with open(sink, "wb") as stdout:
            run = subprocess.run([program, "run"], stdin=stdin, stdout=stdout, stderr=subprocess.PIPE, timeout=LIMIT, check=False)
    finally:
        os.close(stdin)
    if run.returncode != wanted:
        return f"status {run.returncode}, not {wanted}"
    if run.stderr.decode().strip() != said:
        return f"it said {run.stderr.decode().strip()!r}"
    return None


def main():
    parser = argparse.ArgumentParser(description="Runs the stored examples.")
    parser.add_argument("--unproved", action="store_true", help="the programs of make fast, which are not proved")
    parser.add_argument("--by", choices=sorted(set(PROGRAMS.values())), help="this program alone")
    parser.add_argument("folders", nargs="*", type=pathlib.Path, help="further folders, of examples of simplex_net")
    asked = parser.parse_args()

    failed, passed, missing = 0, 0, False

    def count(name, why):
        nonlocal failed, passed
        if why is None:
            passed += 1
        else:
            failed += 1
            print(f"examples: {name} failed: {why}")

    folders = [(ROOT / "examples" / name, program) for name, program in PROGRAMS.items()]
    folders += [(folder, PROGRAMS["net"]) for folder in asked.folders]
    folders += [(ROOT / "examples" / name, WHOLE) for name, program in PROGRAMS.items() if program != WHOLE]
    if asked.by is not None:
        folders = [(folder, name) for folder, name in folders if name == asked.by]
    for folder, name in folders:
        program = built(name, asked.unproved)
        if program is None:
            missing = True
            continue
        endings = {".json", ".script", ".words"}
        examples = sorted({path.with_suffix("") for path in folder.iterdir() if path.suffix in endings})
        for example in examples:
            if name == WHOLE and example.name.endswith(OTHER_WORDS):
                continue
            for number, words in enumerate(runs_of(example)):
                why = fault(program, example, number, words)
                count(f"{folder.name}/{example.name}", why and f"{why}, by {name} with the words {shlex.join(words)!r}")

    streams = asked.by or PROGRAMS["net"]
    net = built(streams, asked.unproved)
    if net is not None:
        with tempfile.NamedTemporaryFile() as sink:
            # A folder opens as standard input, and cannot be read.
            why = stream_fault(net, "/", sink.name, 5, f"{streams}: standard input could not be read")
            count("a standard input that cannot be read", why)
        example = ROOT / "examples" / "net" / "one-member-finalizes.json"
        why = stream_fault(net, example, "/dev/full", 6, f"{streams}: standard output could not be written")
        count("a standard output that cannot be written", why)
    print(f"examples: {passed} runs passed, {failed} failed")
    return 1 if failed or missing or passed == 0 else 0


if __name__ == "__main__":
    sys.exit(main())
