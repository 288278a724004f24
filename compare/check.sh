#!/usr/bin/env bash
# The gate's share of the comparison with the Rust: the oracle's own tests, the leaf questions on fixed seeds, damaged stores, then
# the event programs on lists of events from fixed seeds, with the coverage of outcomes and the two books, lists at other sizes,
# questions about a pool, and reports on what plans move.
# Without the Rust's source, or without cargo, it says so and ends with 0: the stored answers are checked by rt ci all the same.
#
#   compare/check.sh          builds what is missing, tests and compares
#   compare/check.sh build    builds only
set -u
# Otherwise a shell in a terminal puts that one's height in LINES.
shopt -u checkwinsize
cd -- "$(dirname -- "${BASH_SOURCE[0]}")" || exit 1

source_folder=${YEGUDO_SOURCE:-../../shared/docs/src}
if [ ! -d "$source_folder" ]; then
    printf "The Rust's source is not at hand (%s is no folder): only the stored answers were checked.\n" "$source_folder"
    exit 0
fi
if ! command -v cargo >/dev/null; then
    echo 'cargo is not at hand: only the stored answers were checked.'
    exit 0
fi
if [ "${1:-}" = build ]; then
    cargo test --release --offline -q --no-run && cargo build --release --offline -q
    exit
fi

log=$(mktemp) || exit 1
trap 'rm -f -- "$log"' EXIT
cargo test --release --offline -q >"$log" 2>&1 || {
    cat -- "$log"
    exit 1
}
# The kit leaves a program that it proved and built in its crate's out/, by rt ci or by rt run in the crate's folder.
# is_there NAME: sets program to it; fails where there is no such crate, and ends with 1 where the crate is there and its program is not.
is_there() {
    program=../crates/$1/out/$1
    [ ! -x "$program" ] || return 0
    [ -d "../crates/$1" ] || return 1
    printf '%s is missing: its crate is there, so build it first (rt run in crates/%s)\n' "$program" "$1"
    exit 1
}

if is_there test_leaf; then
    COUNT=${COUNT:-5000} ./leaf_live.sh "$program" || exit 1
fi

# Damaged stores: equal answers, each condition failing alone at least ten times, and a judge that lacks a condition is seen.
built=${CARGO_TARGET_DIR:-target}/release
if is_there test_pool; then
    ./stores_live.sh "$program" 0 2000 || exit 1
    "$built/stores" table 0 2000 >"$log" || {
        cat -- "$log"
        exit 1
    }
    for condition in Newest FirstStamp Tiling; do
        if ./stores_live.sh --wrong "$condition" "$program" 0 2000 >"$log" 2>&1; then
            printf 'a judge without its condition %s was not seen\n' "$condition"
            exit 1
        fi
        grep -q 'answers differ' "$log" || {
            cat -- "$log"
            exit 1
        }
    done
fi

# compare_program NAME LINES OPTION ..: each kind of list has LINES lines in each of eight seeds.
compare_program() {
    local name=$1 lines=$2
    shift 2
    if is_there "$name"; then
        LINES=${LINES:-$lines} ./events_live.sh "$@" "$program" 1 2 3 4 5 6 7 8 || exit 1
    fi
}

compare_program event_program 2500
# It takes more lines to fill 2,000 places.
compare_program event_program_large 8000 --large

# Sizes that neither of them has.
if is_there test_replay; then
    LINES=${LINES:-600} ./replay_live.sh "$program" 1 2 3 4 || exit 1
fi

# The pool sheet, which the Rust lacks, by a second implementation of 02's text.
if is_there test_pool_questions; then
    LINES=${LINES:-300} ./questions_live.sh "$program" 1 2 3 4 5 6 7 8 || exit 1
fi

# What plans move, by a second implementation of 02's text over the Rust's plans.
if is_there event_cost; then
    LINES=${LINES:-300} ./cost_live.sh "$program" 1 2 3 4 5 6 7 8 || exit 1
fi
