#!/usr/bin/env bash
# Refuses each request for memory of a run in turn: the built program runs on a stored example with the first request refused, the
# second, and so on to the last. Each run is to end with status 7, out of memory, having written a first part of what it writes with
# ample memory; or as it ends then, where it could do without. Needs a C compiler, and the program that rt ci or make build built.
# Usage: out-of-memory.sh [EXAMPLE..]. Where none is named, it is the five below.
set -uo pipefail
here=$(cd "$(dirname "$0")/.." && pwd)
program=$here/crates/simplex_net/out/simplex_net
[[ -x $program ]] || { echo "out-of-memory: there is no $program: make build"; exit 2; }
examples=("$@")
[[ $# -gt 0 ]] || examples=(one-member-finalizes four-members-notarize restart-at-a-reported-floor member-behind-fetches
    peer-with-a-wrong-answer-is-blocked)

room=$(mktemp -d)
trap 'rm -rf "$room"' EXIT
cc -O1 -shared -fPIC -o "$room/refuse.so" "$here/bench/refuse_memory.c" -ldl || exit 2

# Runs the program with the request of this number refused: its status, with what it wrote in written.
run() {
    REFUSED=$1 COUNTED=$room/count LD_PRELOAD=$room/refuse.so "$program" run <"$input" >"$room/written" 2>"$room/said"
}

failed=0
for example in "${examples[@]}"; do
    input=$here/examples/net/$example.json
    [[ -f $input ]] || { echo "out-of-memory: there is no $input"; exit 2; }
    run 0
    usual=$?
    cp "$room/written" "$room/usual"
    count=$(od -An -t u8 "$room/count" | tr -d ' ')
    short=0
    for ((number = 1; number <= count; number++)); do
        run "$number"
        status=$?
        size=$(stat -c %s "$room/written")
        if [[ $status == 7 ]] && cmp -s -n "$size" "$room/written" "$room/usual"; then
            short=$((short + 1))
        elif [[ $status != "$usual" ]] || ! cmp -s "$room/written" "$room/usual"; then
            echo "out-of-memory: $example, request $number: status $status"
            failed=$((failed + 1))
        fi
    done
    if ((short == 0)); then
        echo "out-of-memory: $example: no refused request ended a run: nothing was tested"
        failed=$((failed + 1))
    fi
    echo "out-of-memory: $example: of $count requests $short ended the run out of memory"
done
exit "$((failed > 0))"
