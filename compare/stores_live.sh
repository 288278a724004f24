#!/usr/bin/env bash
# Compares a program's answers about damaged stores with those of the judge, byte by byte.
#
#   compare/stores_live.sh [--wrong CONDITION] PROGRAM [FIRST COUNT]
#
# PROGRAM reads lists for lent memory on standard input, as crates/test_pool does. Without numbers 100,000 stores are asked, from
# seed 0 on, 2,000 at a time. --wrong leaves a condition out of the judge, so that the answers have to differ.
# Ends with 0 if all answers are equal, or if the Rust's source is not at hand; else with another number.
set -u

fail() {
    printf 'stores_live: %s\n' "$*" >&2
    exit 1
}

wrong=()
if [ "${1:-}" = --wrong ]; then
    [ $# -ge 2 ] || fail '--wrong needs a condition'
    wrong=(--wrong "$2")
    shift 2
fi
[ $# -eq 1 ] || [ $# -eq 3 ] || fail 'usage: stores_live.sh [--wrong CONDITION] PROGRAM [FIRST COUNT]'
program=$(realpath -e -- "$1" 2>/dev/null) || fail "$1: there is no such program"
[ -f "$program" ] && [ -x "$program" ] || fail "$1: not a program"
first=${2:-0}
count=${3:-100000}
chunk=2000

cd -- "$(dirname -- "${BASH_SOURCE[0]}")" || fail 'the folder of this script cannot be entered'

# As the build script looks for it: only a folder that is there and does not fit makes the build fail.
source_folder=${YEGUDO_SOURCE:-../../shared/docs/src}
if [ ! -d "$source_folder" ]; then
    printf "the Rust's source is not at hand: %s is no folder, live comparison left out\n" "$source_folder"
    exit 0
fi

cargo build --release --offline -q || fail 'the build over the published source failed'
built=${CARGO_TARGET_DIR:-target}/release

work=$(mktemp -d) || fail 'no temporary folder'
trap 'rm -rf -- "$work"' EXIT

# The list whose answers differ first, with both answers.
first_difference() {
    local at name
    at=$(paste -d '\n' -- "$work/judge" "$work/other" |
        awk 'NR % 2 { judge = $0; next } judge != $0 { print NR / 2; exit }')
    if [ -z "$at" ]; then
        printf 'the answers differ in a last line feed\n' >&2
        return
    fi
    name=$(head -n "$at" "$work/judge" | grep '^=,' | tail -n 1)
    printf 'answers differ, first in the list %s:\n' "$name" >&2
    printf '  the judge: %s\n' "$(sed -n "${at}p" "$work/judge")" >&2
    printf '  other:     %s\n' "$(sed -n "${at}p" "$work/other")" >&2
}

asked=0
while [ "$asked" -lt "$count" ]; do
    size=$((count - asked < chunk ? count - asked : chunk))
    from=$((first + asked))
    "$built/stores" lists "$from" "$size" >"$work/lists" || fail "no lists from seed $from on"
    "$built/stores" answers "${wrong[@]+"${wrong[@]}"}" "$from" "$size" >"$work/judge" || fail "no answers from seed $from on"
    "$program" <"$work/lists" >"$work/other"
    ended=$?
    if ! cmp -s "$work/judge" "$work/other"; then
        first_difference
        exit 1
    fi
    # Equal answers and then a fault would still be a fault.
    [ "$ended" -eq 0 ] || fail "$program ended with $ended"
    asked=$((asked + size))
    if [ $((asked % 20000)) -eq 0 ] && [ "$asked" -lt "$count" ]; then
        printf '%s stores, answers equal so far\n' "$asked"
    fi
done
printf 'damaged stores: %s from seed %s on, answers equal\n' "$count" "$first"
