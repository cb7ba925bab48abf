#!/usr/bin/env bash
# Times the program under test and the reference on one large planning scenario.
#
#   CABINET=path/to/cabinet ./bench.sh [DRAFTS] [SEED]
set -u
: "${CABINET:?set CABINET to the path of the program under test, built for release}"
CABINET=$(realpath "$CABINET") || exit 2
drafts=${1:-2000} seed=${2:-1}
cd "$(dirname "$0")" || exit 2
cargo build --release --offline --quiet || exit 2
programs=${CARGO_TARGET_DIR:-target}/release
work=$(mktemp -d)
trap 'rm -rf "$work"' EXIT
"$programs/generate" bench "$seed" "$drafts" > "$work/scenario" || exit 2

# Prints the seconds that a program takes for the scenario.
seconds() {
    local begin end
    begin=$(date +%s%N)
    "$1" < "$work/scenario" > "$2" || exit 2
    end=$(date +%s%N)
    awk -v ns=$((end - begin)) 'BEGIN { printf "%.3f", ns / 1e9 }'
}

cabinet=$(seconds "$CABINET" "$work/cabinet") || exit 2
reference=$(seconds "$programs/reference" "$work/reference") || exit 2
cmp -s "$work/cabinet" "$work/reference" || echo "the replies differ"
echo "$drafts drafts of 16 flows over 6 hops"
echo "cabinet   $cabinet s"
echo "reference $reference s"
awk -v c="$cabinet" -v r="$reference" 'BEGIN {
    if (c > 0) printf "ratio     %.2f (reference / cabinet)\n", r / c
}'
