#!/usr/bin/env bash
# Compares another program's answers to leaf questions with those of the published Rust, byte by byte; those about the bytes of a
# copy, which the Rust lacks, with src/copies.rs.
#
#   compare/leaf_live.sh PROGRAM [SEED ...]
#
# PROGRAM reads questions on standard input and answers each with a line. Without seeds the fixed list,
# that of budgets and a fixed set of seeds are asked. COUNT in the environment says how many questions a seed has
# (20000).
# Ends with 0 if all answers are equal, or if the Rust's source is not at hand; else with another number.
set -u

fail() {
    printf 'leaf_live: %s\n' "$*" >&2
    exit 1
}

[ $# -ge 1 ] || fail 'usage: leaf_live.sh PROGRAM [SEED ...]'
program=$(realpath -e -- "$1" 2>/dev/null) || fail "$1: there is no such program"
[ -f "$program" ] && [ -x "$program" ] || fail "$1: not a program"
shift
count=${COUNT:-20000}
seeds=("$@")
fixed=no
if [ $# -eq 0 ]; then
    fixed=yes
    seeds=(1 2 3 4 5 6 7 8)
fi

cd -- "$(dirname -- "${BASH_SOURCE[0]}")" || fail 'the folder of this script cannot be entered'

# As the build script looks for it: only a folder that is there and does not fit makes the build fail.
source_folder=${YEGUDO_SOURCE:-../../shared/docs/src}
if [ ! -d "$source_folder" ]; then
    printf "the Rust's source is not at hand: %s is no folder, live comparison left out\n" "$source_folder"
    exit 0
fi

cargo build --release --offline -q || fail 'the build over the published source failed'
built=${CARGO_TARGET_DIR:-target}/release

work=$(mktemp -d) || fail 'no temporary folder'
trap 'rm -rf -- "$work"' EXIT

# compare_list NAME WORD ..: asks both the questions that `questions WORD ..` writes.
compare_list() {
    local name=$1
    shift
    "$built/questions" "$@" >"$work/questions" || fail "$name: no questions"
    "$built/leaf" <"$work/questions" >"$work/rust" || fail "$name: the Rust did not answer"
    "$program" <"$work/questions" >"$work/other"
    local ended=$?
    if ! cmp -s "$work/rust" "$work/other"; then
        first_difference "$name"
        exit 1
    fi
    # Equal answers and then a fault would still be a fault.
    [ "$ended" -eq 0 ] || fail "$name: $program ended with $ended"
    printf '%s: %s questions, answers equal\n' "$name" "$(wc -l <"$work/questions")"
}

# Line by line: a byte that `cmp` names may be the line feed of an answer cut short.
first_difference() {
    local at
    at=$(paste -d '\n' -- "$work/rust" "$work/other" |
        awk 'NR % 2 { rust = $0; next } rust != $0 { print NR / 2; exit }')
    if [ -z "$at" ]; then
        printf '%s: the answers differ in a last line feed\n' "$1" >&2
        return
    fi
    printf '%s: answers differ, first at question %s:\n' "$1" "$at" >&2
    printf '  question: %s\n' "$(sed -n "${at}p" "$work/questions")" >&2
    printf '  the Rust: %s\n' "$(sed -n "${at}p" "$work/rust")" >&2
    printf '  other:    %s\n' "$(sed -n "${at}p" "$work/other")" >&2
}

if [ "$fixed" = yes ]; then
    compare_list 'fixed list'
    compare_list 'list of budgets' budget
fi
for seed in "${seeds[@]+"${seeds[@]}"}"; do
    compare_list "seed $seed" seed "$seed" "$count"
done
