#!/bin/bash
# Times the works of crates/bench (wire, mailbox, journal, fetch, round, state, repair, shared), by the proved program and by plain Rust. Run
# it from anywhere, after `rt run` in crates/bench: bench/run.sh wire|mailbox|journal|shared|fetch|round|state|repair [TIMES].
set -euo pipefail
cd "$(dirname "$0")"
what=${1:-}
case $what in
wire | mailbox | journal | fetch | round | state | repair | shared) ;;
*)
    echo "usage: bench/run.sh wire|mailbox|journal|shared|fetch|round|state|repair [TIMES]"
    exit 2
    ;;
esac
proved=../crates/bench/out/bench
if [ ! -x "$proved" ]; then
    echo "run.sh: the program is not built. Do so by: cd crates/bench && rt run"
    exit 1
fi

# How often a program does the work in a second of user time: that of so many turns, less that of none,
# the least of five runs each. The words are the program's, without the number of turns.
rate() {
    python3 - "$@" <<'P'
import os, subprocess, sys
times, *words = sys.argv[1:]
def run(n):
    child = subprocess.Popen([*words, str(n)], stdout=subprocess.DEVNULL)
    _, status, usage = os.wait4(child.pid, 0)
    assert status == 0
    return usage.ru_utime
best = min(run(times) for _ in range(5)) - min(run(0) for _ in range(5))
print(f"{int(times) / best:.0f}")
P
}

export CARGO_TARGET_DIR=${CARGO_TARGET_DIR:-/tmp/bench_target}
built=$CARGO_TARGET_DIR/release/bench_$what
(cd rust && cargo build --release --offline --quiet && cp "$built" "$CARGO_TARGET_DIR/plain")

# Calls a second of threads that share a mailbox, by the clock on the wall: the least of five runs, less that of no calls.
calls() {
    python3 - "$@" <<'P'
import subprocess, sys, time
times, threads, *words = sys.argv[1:]
def run(n):
    start = time.monotonic()
    subprocess.run([*words, threads, str(n)], stdout=subprocess.DEVNULL, check=True)
    return time.monotonic() - start
best = min(run(times) for _ in range(5)) - min(run(0) for _ in range(5))
print(f"{2 * int(threads) * int(times) / best:.0f}")
P
}

if [ "$what" = shared ]; then
    times=${2:-500000}
    printf '%-14s %12s %12s\n' 'calls a second' 'proved' 'plain Rust'
    for threads in 1 2 4; do
        printf '%-14s %12s %12s\n' "$threads threads" "$(calls $((times / threads)) $threads "$proved" shared pass)" \
            "$(calls $((times / threads)) $threads "$CARGO_TARGET_DIR/plain")"
    done
    exit
fi

(cd rust && cargo build --release --offline --quiet --features soft && cp "$built" "$CARGO_TARGET_DIR/soft")

# A line of the table: the work's words, and its rate by each program.
line() {
    local turns=$1
    shift
    printf '%-14s %12s %12s %18s\n' "$*" "$(rate "$turns" "$proved" "$what" "$@")" \
        "$(rate "$turns" "$CARGO_TARGET_DIR/plain" "$@")" "$(rate "$turns" "$CARGO_TARGET_DIR/soft" "$@")"
}

printf '%-14s %12s %12s %18s\n' 'a second' 'proved' 'plain Rust' 'plain Rust, soft'
case $what in
wire)
    times=${2:-200000}
    line "$times" encode 100
    line "$times" decode 100
    line $((times / 20)) verify 100
    ;;
mailbox)
    times=${2:-100000}
    line $((times * 100)) pass 1
    line "$times" pass 1016
    ;;
journal)
    times=${2:-20000}
    line "$times" sections 100
    line "$times" replays 100
    ;;
fetch)
    times=${2:-1000000}
    for views in 1000 10000; do
        for work in ask answer serve expire; do
            line "$times" $work $views
        done
        line $((times * 10)) sweep $views
    done
    ;;
round)
    times=${2:-4000}
    for members in 100 256; do
        line $((times * 10)) take $members
        line "$times" make $members
    done
    ;;
state)
    times=${2:-200000}
    line "$times" final 5
    line "$times" given_up 5
    ;;
repair)
    times=${2:-1000000}
    line $((times / 1000)) jump 10000
    line $((times / 10000)) jump 100000
    line $((times / 10)) fill $((times / 10))
    line "$times" fill "$times"
    ;;
esac
