#!/usr/bin/env bash
# Writes the stored questions about a pool and their answers: stdin and stdout of crates/test_pool_questions.
# The lists are those of stored/sheets.asked, which show the traps of 02's W-202 one by one, and one from a seed of each kind.
# The answers are those of src/sheet.rs, written from 02's text over the Rust's state, since the Rust has no sheet.
set -eu
cd -- "$(dirname -- "${BASH_SOURCE[0]}")"
cargo build --release --offline -q
built=${CARGO_TARGET_DIR:-target}/release
program=../crates/test_pool_questions
mkdir -p -- "$program"

# A list from a seed, with a line feed behind its last line.
seeded_list() { # KIND SEED LINES
    printf '=,%s_%s\n' "$1" "$2"
    "$built/lists" sheets "$1" "$2" "$3" | LC_ALL=C awk '{ print }'
}

{
    grep -v '^#' stored/sheets.asked
    for kind in $("$built/lists" kinds); do
        seeded_list "$kind" 1 275
    done
    printf '=,no_last_line_feed\nopen,0\nsheet,146'
} >"$program/stdin"
"$built/pool_questions" <"$program/stdin" >"$program/stdout"
