#!/usr/bin/env bash
# Builds run.c and run.rs over the library, runs both on the input of the README, and compares what they write with what the
# program writes.
set -euo pipefail
here=$(cd "$(dirname "$0")" && pwd)
crate=$here/../crates/simplex_c
kit=$(dirname "$(rt doc)")
room=$(mktemp -d)
trap 'rm -rf "$room"' EXIT

(cd "$crate" && rt lib >/dev/null)
cc -O2 -Wall -Wextra -o "$room/run_c" "$here/run.c" "$crate/out/libsimplex_c.a" "$kit/c/liblibc_c.a"
rustc --edition 2024 -O -o "$room/run_rs" "$here/run.rs" -L "$crate/out" -l static=simplex_c -L "$kit/c" -l static=libc_c
for program in run_c run_rs; do
    "$room/$program" <"$here/../crates/simplex_net/stdin" >"$room/written"
    cmp "$room/written" "$here/../crates/simplex_net/stdout"
    echo "$program: as simplex_net"
done
cat "$room/written"
