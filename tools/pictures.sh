#!/usr/bin/env bash
# Makes the pictures of README.md and docs/TOUR.md anew, as docs/pictures/NAME.svg, or those of the inputs that are named, as
# pictures/NAME.svg. The records are those of viewer/record.py; a refused run is shown as far as it went.
# Usage: tools/pictures.sh [INPUT.json..]
set -euo pipefail
here=$(cd "$(dirname "$0")/.." && pwd)
inputs=("$@")
to=$here/pictures
if [[ $# -eq 0 ]]; then
    to=$here/docs/pictures
    for name in four-members-finalize-over-a-crash happy-path-of-four lost-proposal-is-nullified leader-crashes-after-its-stored-vote \
        restarted-member-votes-once restart-at-a-floor-of-another equivocator-is-reported member-behind-fetches \
        twins-do-not-split; do
        inputs+=("$here/examples/net/$name.json")
    done
fi
mkdir -p "$to"
for input in "${inputs[@]}"; do
    "$here/viewer/record.py" "$input" | node "$here/viewer/viewer.js" svg >"$to/$(basename "$input" .json).svg"
done
echo "Made: ${#inputs[@]} pictures, in ${to#"$here"/}/"
