#!/usr/bin/env bash
# Writes the lists that our program over lent memory runs in the gate, and the answers that it is held to: stdin and stdout of crates/test_pool.
# The questions of stored/pool.asked have answers written by hand. The lists of stored/ and those from seeds, as in store.sh, are answered by the
# published Rust; each stands there twice, the second time with the pacing book lent. Damaged stores are answered by the judge.
set -eu
cd -- "$(dirname -- "${BASH_SOURCE[0]}")"
cargo build --release --offline -q
built=${CARGO_TARGET_DIR:-target}/release
program=../crates/test_pool
work=$(mktemp -d)
trap 'rm -rf -- "$work"' EXIT

# The lines of stored/pool.asked, without its answers and comments.
asked_lists() {
    grep -v -e '^#' -e '^>' -e '^$' stored/pool.asked
}

# Its answers: "> ANSWER" stands behind the number of the line above it, "same" on a line of its own; ">> LINE" stands as it is.
asked_answers() {
    awk '/^#/ || /^$/ { next }
         /^=/ { line = 0; print; next }
         /^>> / { print substr($0, 4); next }
         /^> / { print line "," $2; if ($3 == "same") print line ",same"; next }
         { line++ }' stored/pool.asked
}

# A list from a seed, with a line feed behind its last line; no line is long.
seeded_list() { # KIND SEED LINES TEXTURES VERSIONS PAGES ANSWERS
    printf '=,%s,%s,%s,%s,%s_%s\n' "$4" "$5" "$6" "$7" "$1" "$2"
    "$built/lists" "$1" "$2" "$3" --textures "$4" --versions "$5" --pages "$6" --answers "$7" |
        LC_ALL=C awk 'length($0) < 1000'
}

replayed_lists() {
    # Our program has fewer pages to lend; no stored list fills them.
    cat stored/sample.events stored/traps.events stored/refusals.events stored/pacing.events stored/compared.events |
        sed 's/^=,64,2000,256,/=,64,2000,64,/'
    for kind in $("$built/lists" kinds); do
        seeded_list "$kind" 1 400 8 64 6 90
        seeded_list "$kind" 2 200 64 2000 64 300
        seeded_list "$kind" 3 400 8 64 6 5
    done
    seeded_list stamps 4 800 16 64 1 90
    seeded_list stamps 5 100 4 8 0 90
}

# The same lists with the pacing book lent from the first line on.
lent_lists() {
    LC_ALL=C awk '/^=,/ { print $0 "_lent"; print "lend"; next } { print }'
}

replayed_lists >"$work/replayed"
lent_lists <"$work/replayed" >"$work/replayed.lent"
{
    asked_lists
    cat "$work/replayed" "$work/replayed.lent"
    "$built/stores" lists 0 2000
} >"$program/stdin"
{
    asked_answers
    cat "$work/replayed" "$work/replayed.lent" | "$built/replay" --lent
    "$built/stores" answers 0 2000
} >"$program/stdout"
