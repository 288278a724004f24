#!/usr/bin/env bash
# Compares a program's answers to questions about a pool with those of pool_questions, byte by byte. What is asked about is the
# published Rust's pool; the sheet is written from 02's text, since the Rust has none.
#
#   compare/questions_live.sh PROGRAM [SEED ...]
#
# PROGRAM runs events and answers questions as crates/test_pool_questions does. In the environment: LINES, the events of each
# list (1000), and KINDS, the kinds of lists (all). Without seeds a fixed set is used. The lists of stored/ are asked first.
# Ends with 0 if every output is equal, or if the Rust's source is not at hand; else with another number. The first list that is
# answered differently is left in difference.asked in the build folder, up to the question.
set -u
# Otherwise a shell in a terminal puts that one's height in LINES.
shopt -u checkwinsize
lines=${LINES:-1000}

fail() {
    printf 'questions_live: %s\n' "$*" >&2
    exit 1
}

[ $# -ge 1 ] || fail 'usage: questions_live.sh PROGRAM [SEED ...]'
program=$(realpath -e -- "$1" 2>/dev/null) || fail "$1: there is no such program"
if [ ! -f "$program" ] || [ ! -x "$program" ]; then
    fail "$1: not a program"
fi
shift
seeds=("$@")
[ $# -gt 0 ] || seeds=(1 2 3 4 5 6 7 8)

cd -- "$(dirname -- "${BASH_SOURCE[0]}")" || fail 'the folder of this script cannot be entered'

# As the build script looks for it: only a folder that is there and does not fit makes the build fail.
source_folder=${YEGUDO_SOURCE:-../../shared/docs/src}
if [ ! -d "$source_folder" ]; then
    printf "the Rust's source is not at hand: %s is no folder, live comparison left out\n" "$source_folder"
    exit 0
fi

cargo build --release --offline -q || fail 'the build over the published source failed'
built=${CARGO_TARGET_DIR:-target}/release
read -r -d '' -a kinds <<<"${KINDS:-$("$built/lists" kinds)}"

# The program reads no more than 512 KiB.
most=400000

work=$(mktemp -d) || fail 'no temporary folder'
trap 'rm -rf -- "$work"' EXIT

# Gives both the lists that were gathered. Every other input lacks its last line feed.
compare_lists() {
    [ -s "$work/lists" ] || return
    inputs=$((inputs + 1))
    if [ $((inputs % 2)) -eq 0 ]; then
        truncate -s -1 -- "$work/lists"
    fi
    "$built/pool_questions" <"$work/lists" >"$work/right" || fail 'pool_questions did not answer'
    timeout 120 "$program" <"$work/lists" >"$work/other"
    local ended=$?
    if ! cmp -s "$work/right" "$work/other"; then
        first_difference >&2
        exit 1
    fi
    # Equal answers and then a fault would still be a fault.
    [ "$ended" -eq 0 ] || fail "$program ended with $ended"
    questions=$((questions + $(grep -ac '^[0-9][0-9]*,' "$work/right")))
    : >"$work/lists"
}

# Says where the outputs differ first. A sheet's own lines have no comma, so the last line before that has one has the question's number.
first_difference() {
    local at found name
    at=$(paste -d '\n' -- "$work/right" "$work/other" |
        awk 'NR % 2 { right = $0; next } right != $0 { print NR / 2; exit }')
    if [ -z "$at" ]; then
        echo 'the answers differ in a last line feed'
        return
    fi
    mapfile -t found < <(awk -v at="$at" '
        /^=,/ { name = $0; number = 0 }
        /^[0-9]+,/ { number = $0; sub(/,.*/, "", number) }
        NR == at { exit }
        END { print number + 0; print name }' "$work/right")
    name=${found[1]}
    # The first list of an input may have no name.
    LC_ALL=C awk -v name="$name" -v number="${found[0]}" '
        BEGIN { here = name == "" }
        /^=,/ { here = $0 == name; line = 0; if (here) print; next }
        here && ++line <= number' "$work/lists" >"$built/../difference.asked"
    printf 'answers differ, first in the list %s, line %s (%s):\n' "${name:-without a name}" "${found[0]}" \
        "$(tail -n 1 "$built/../difference.asked")"
    printf '  right: %s\n' "$(sed -n "${at}p" "$work/right" | cut -c 1-100)"
    printf '  other: %s\n' "$(sed -n "${at}p" "$work/other" | cut -c 1-100)"
}

# A list from a seed, with a line feed behind its last line. Where none was gathered yet, no line begins it.
seeded_list() { # KIND SEED
    [ ! -s "$work/lists" ] || printf '=,%s_%s\n' "$1" "$2"
    "$built/lists" sheets "$1" "$2" "$lines" >"$work/list" || return
    LC_ALL=C awk '{ print }' "$work/list"
}

count=0
inputs=0
questions=0
started=$SECONDS
grep -v '^#' stored/sheets.asked >"$work/lists" || fail 'no stored lists'
compare_lists
for kind in "${kinds[@]}"; do
    for seed in "${seeds[@]}"; do
        seeded_list "$kind" "$seed" >"$work/one" || fail "$kind $seed: no list"
        if [ $(($(stat -c %s "$work/lists") + $(stat -c %s "$work/one"))) -gt "$most" ]; then
            compare_lists
        fi
        cat -- "$work/one" >>"$work/lists"
        count=$((count + 1))
    done
done
compare_lists
printf 'questions about a pool: %s in the stored lists and %s of %s events, answers equal, %s seconds\n' \
    "$questions" "$count" "$lines" "$((SECONDS - started))"
