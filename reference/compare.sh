#!/usr/bin/env bash
# Compares the program under test with the reference on fresh random scenarios.
#
#   CABINET=path/to/cabinet ./compare.sh KIND COUNT [FIRST_SEED]
#
# KIND is plan, add or network. SIZE may set the size of a scenario. Prints each seed on
# which the two disagree and keeps its scenario and replies in KEEP (default target/disagree).
set -u
if [ $# -lt 2 ] || [ $# -gt 3 ]; then
    echo "usage: CABINET=path $0 plan|add|network COUNT [FIRST_SEED]" >&2
    exit 2
fi
: "${CABINET:?set CABINET to the path of the program under test}"
CABINET=$(realpath "$CABINET") || exit 2
kind=$1 count=$2 first=${3:-1}
cd "$(dirname "$0")" || exit 2
cargo build --release --offline --quiet || exit 2
programs=${CARGO_TARGET_DIR:-target}/release
keep=${KEEP:-target/disagree}
work=$(mktemp -d)
trap 'rm -rf "$work"' EXIT

disagree=0
for ((seed = first; seed < first + count; seed++)); do
    "$programs/generate" "$kind" "$seed" ${SIZE:+"$SIZE"} > "$work/scenario" || exit 2
    "$CABINET" < "$work/scenario" > "$work/cabinet" 2> "$work/cabinet.err"
    status=$?
    "$programs/reference" < "$work/scenario" > "$work/reference" 2> "$work/reference.err"
    expected=$?
    if [ $expected -gt 1 ]; then
        echo "$kind seed $seed: the reference itself fails: $(head -n 2 "$work/reference.err" | tr '\n' ' ')"
    fi
    if [ $status -ne $expected ] || [ $expected -gt 1 ] || ! cmp -s "$work/cabinet" "$work/reference"; then
        disagree=$((disagree + 1))
        line=$(cmp "$work/cabinet" "$work/reference" 2>&1 | head -n 1)
        echo "$kind seed $seed: status $status, expected $expected; ${line:-same replies}"
        mkdir -p "$keep"
        for part in scenario cabinet reference; do
            cp "$work/$part" "$keep/$kind-$seed.$part"
        done
    fi
done
echo "$count compared, $disagree disagree"
[ $disagree -eq 0 ]
