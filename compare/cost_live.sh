#!/usr/bin/env bash
# Compares a program's report on what the plans of event lists move with that of cost, byte by byte. The plans are the published Rust's;
# the bytes of a copy are counted from 02's text (W-203), since the Rust has no such count.
#
#   compare/cost_live.sh PROGRAM [SEED ...]
#
# PROGRAM reads a list of events and reports as crates/event_cost does. In the environment: LINES, the lines of each list (1000), and
# KINDS, the kinds of lists (all, and edges). Without seeds a fixed set is used. The stored lists of its sizes are given first.
# Ends with 0 if every report is equal, or if the Rust's source is not at hand; else with another number. The first list with
# another report is left in difference.events in the build folder.
set -u
# Otherwise a shell in a terminal puts that one's height in LINES.
shopt -u checkwinsize
lines=${LINES:-1000}

fail() {
    printf 'cost_live: %s\n' "$*" >&2
    exit 1
}

[ $# -ge 1 ] || fail 'usage: cost_live.sh PROGRAM [SEED ...]'
program=$(realpath -e -- "$1" 2>/dev/null) || fail "$1: there is no such program"
if [ ! -f "$program" ] || [ ! -x "$program" ]; then
    fail "$1: not a program"
fi
shift
seeds=("$@")
[ $# -gt 0 ] || seeds=(1 2 3 4 5 6 7 8)

cd -- "$(dirname -- "${BASH_SOURCE[0]}")" || fail 'the folder of this script cannot be entered'

# As the build script looks for it: only a folder that is there and does not fit makes the build fail.
source_folder=${YEGUDO_SOURCE:-../../shared/docs/src}
if [ ! -d "$source_folder" ]; then
    printf "the Rust's source is not at hand: %s is no folder, live comparison left out\n" "$source_folder"
    exit 0
fi

cargo build --release --offline -q || fail 'the build over the published source failed'
built=${CARGO_TARGET_DIR:-target}/release
read -r -d '' -a kinds <<<"${KINDS:-$("$built/lists" kinds) edges}"

work=$(mktemp -d) || fail 'no temporary folder'
trap 'rm -rf -- "$work"' EXIT

# compare_list NAME LIST [BYTES]: gives both the same list, the program in pieces of so many bytes if they are named.
compare_list() {
    "$built/cost" <"$2" >"$work/right" || fail "$1: cost did not report"
    if [ $# -eq 3 ]; then
        dd bs="$3" status=none <"$2" | timeout 120 "$program" >"$work/other"
    else
        timeout 120 "$program" <"$2" >"$work/other"
    fi
    local ended=$?
    if ! cmp -s "$work/right" "$work/other"; then
        first_difference "$1" "$2" >&2
        exit 1
    fi
    # An equal report and then a fault would still be a fault.
    [ "$ended" -eq 0 ] || fail "$1: $program ended with $ended"
    lists=$((lists + 1))
    plans=$((plans + $(wc -l <"$work/right") - 1))
}

first_difference() { # NAME LIST
    local at
    cp -- "$2" "$built/../difference.events"
    at=$(paste -d '\n' -- "$work/right" "$work/other" |
        awk 'NR % 2 { right = $0; next } right != $0 { print NR / 2; exit }')
    if [ -z "$at" ]; then
        printf '%s: the reports differ in a last line feed\n' "$1"
        return
    fi
    printf '%s: the reports differ, first in line %s:\n' "$1" "$at"
    printf '  right: %s\n' "$(sed -n "${at}p" "$work/right" | cut -c 1-100)"
    printf '  other: %s\n' "$(sed -n "${at}p" "$work/other" | cut -c 1-100)"
}

# Those of the program's sizes; the line that begins each is left out.
stored_lists() {
    mkdir -- "$work/stored" &&
        cat stored/sample.events stored/traps.events stored/refusals.events stored/pacing.events |
        awk -v folder="$work/stored" '
            /^=,/ { fits = /^=,8,64,6,90,/; split($0, field, ","); next }
            fits { print >(folder "/" field[6]) }'
}

lists=0
plans=0
started=$SECONDS
stored_lists || fail 'no stored lists'
for list in "$work"/stored/*; do
    compare_list "${list##*/}" "$list"
done
for kind in "${kinds[@]}"; do
    for seed in "${seeds[@]}"; do
        "$built/lists" "$kind" "$seed" "$lines" >"$work/list" || fail "$kind $seed: no list"
        compare_list "$kind, seed $seed" "$work/list"
        if [ "$kind" = chaos ]; then
            # Has lines read in parts.
            head -c 6000 -- "$work/list" >"$work/begun"
            compare_list "$kind, seed $seed, in pieces" "$work/begun" 11
        fi
    done
done
printf 'what plans move: %s plans in %s lists, those from seeds of %s lines, reports equal, %s seconds\n' \
    "$plans" "$lists" "$lines" "$((SECONDS - started))"
