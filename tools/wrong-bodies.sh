#!/usr/bin/env bash
# Tries the wrong bodies that the gate leaves out: in a scratch copy of the repository, wrong-bodies/CRATE/*.edit stand in
# must-fail/ of their crate, beside those of the gate, and `rt must-fail CRATE` sees whether each is refused.
# Usage: tools/wrong-bodies.sh [CRATE..]. Where no crate is named, it is each that has any there.
set -uo pipefail
here=$(cd "$(dirname "$0")/.." && pwd)
edits=$here/wrong-bodies
crates=("$@")
if [[ $# -eq 0 ]]; then
    mapfile -t crates < <(ls "$edits")
fi
for crate in "${crates[@]}"; do
    [[ -d $edits/$crate ]] || { echo "wrong-bodies: there are none of $crate in wrong-bodies"; exit 2; }
done

scratch=$(mktemp -d)
trap 'rm -rf "$scratch"' EXIT
(cd "$here" && tar -cf - --exclude=out crates crates.txt HANDLES) | tar -xf - -C "$scratch" || exit
for crate in "${crates[@]}"; do
    mkdir -p "$scratch/crates/$crate/must-fail" || exit
    cp "$edits/$crate"/*.edit "$scratch/crates/$crate/must-fail/" || exit
done
cd "$scratch" && rt must-fail "${crates[@]}"
