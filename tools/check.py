#!/usr/bin/env python3
"""`make check`: builds all programs once, without a proof, and runs every test, every stored session and every example. It proves nothing.

    tools/check.py              everything
    tools/check.py NAME..       these crates alone"""
import concurrent.futures
import os
import pathlib
import subprocess
import sys
import tempfile
import time

import unproved

ROOT = unproved.ROOT
CRATES = ROOT / "crates"


def text(path, default=b""):
    return path.read_bytes() if path.exists() else default


def session_fault(name):
    """Why the program does not do what is stored beside it (args, stdin, data, stdout, status), or None."""
    folder = CRATES / name
    words = text(folder / "args").decode().split("\n")[:-1] if (folder / "args").exists() else []
    wanted = int(text(folder / "status", b"0"))
    with tempfile.TemporaryDirectory() as room:
        if (folder / "data").is_dir():
            subprocess.run(["cp", "-r", f"{folder}/data/.", room], check=True)
        run = subprocess.run([unproved.KEPT / name, *words], input=text(folder / "stdin"), capture_output=True, cwd=room, timeout=120, check=False)
    if run.returncode != wanted:
        return f"status {run.returncode}, not {wanted}"
    if run.stdout != text(folder / "stdout"):
        return "it printed otherwise than its file stdout"
    return None


def test_fault(name):
    """Why the tests of a crate do not pass, or None."""
    run = subprocess.run(["rt", "try", "--test"], cwd=CRATES / name, capture_output=True, check=False)
    if run.returncode != 0:
        return "\n".join((run.stdout + run.stderr).decode(errors="replace").splitlines()[-10:])
    return None


def main():
    begun = time.monotonic()
    lines = unproved.crates()
    asked = sys.argv[1:] or list(lines)
    programs = [name for name in asked if (CRATES / name / "src" / "main.rt").exists()]
    tests = [name for name in asked if name.startswith("test_") and name not in programs and has_tests(name)]
    passed, failed = 0, 0

    def count(name, why):
        nonlocal passed, failed
        if why is None:
            passed += 1
        else:
            failed += 1
            print(f"check: {name}: {why}", flush=True)

    missing = unproved.build_all(programs)
    for name in missing:
        count(name, "not built")
    for name in programs:
        if name not in missing:
            count(name, session_fault(name))
    with concurrent.futures.ThreadPoolExecutor(os.cpu_count()) as pool:
        for name, why in zip(tests, pool.map(test_fault, tests)):
            count(f"the tests of {name}", why)
    if not sys.argv[1:]:
        examples = subprocess.run([ROOT / "tools" / "examples.py", "--unproved"], check=False)
        count("the examples", None if examples.returncode == 0 else "see above")
    print(f"check: after {time.monotonic() - begun:.0f} s; nothing was proved, that is what make test is for")
    print(f"{passed} passed, {failed} failed")
    return 1 if failed else 0


def has_tests(name):
    """Whether a file of the crate has a test."""
    return any("#[test]" in path.read_text() for path in (CRATES / name / "src").rglob("*.rt"))


if __name__ == "__main__":
    sys.exit(main())
