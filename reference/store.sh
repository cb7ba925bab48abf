#!/usr/bin/env bash
# Writes what the gate runs `cabinet` on, and what it must print: the example scenario and random ones
# that end well, answered by the reference.
#
#   ./store.sh KIND COUNT [FIRST_SEED]
set -eu
if [ $# -lt 2 ] || [ $# -gt 3 ]; then
    echo "usage: $0 plan|add|network COUNT [FIRST_SEED]" >&2
    exit 2
fi
kind=$1 count=$2 seed=${3:-1001}
cd "$(dirname "$0")"
cargo build --release --offline --quiet
programs=${CARGO_TARGET_DIR:-target}/release
crate=../crates/cabinet
one=$(mktemp)
trap 'rm -f "$one"' EXIT
cp ../docs/examples/cabinet.scenario "$crate/stdin"
stored=0
while [ "$stored" -lt "$count" ]; do
    "$programs/generate" "$kind" "$seed" > "$one"
    if "$programs/reference" < "$one" > /dev/null 2>&1; then
        { echo; echo "# random, kind $kind, seed $seed"; cat "$one"; } >> "$crate/stdin"
        stored=$((stored + 1))
    fi
    seed=$((seed + 1))
done
"$programs/reference" < "$crate/stdin" > "$crate/stdout"
echo "$stored stored, $(wc -l < "$crate/stdout") replies"
