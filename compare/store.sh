#!/usr/bin/env bash
# Writes the stored lists of events and the Rust's answers to them: stdin and stdout of crates/test_replay.
# The lists are those of stored/, which show 01's traps, refusals and pacing one by one, and one from a seed of each kind.
set -eu
cd -- "$(dirname -- "${BASH_SOURCE[0]}")"
cargo build --release --offline -q
built=${CARGO_TARGET_DIR:-target}/release
replay=../crates/test_replay

# A list from a seed, with a line feed behind its last line; no line is long.
seeded_list() { # KIND SEED LINES TEXTURES VERSIONS PAGES ANSWERS
    printf '=,%s,%s,%s,%s,%s_%s\n' "$4" "$5" "$6" "$7" "$1" "$2"
    "$built/lists" "$1" "$2" "$3" --textures "$4" --versions "$5" --pages "$6" --answers "$7" |
        LC_ALL=C awk 'length($0) < 1000'
}

{
    cat stored/sample.events stored/traps.events stored/refusals.events stored/pacing.events
    for kind in $("$built/lists" kinds); do
        seeded_list "$kind" 1 400 8 64 6 90
        seeded_list "$kind" 2 400 64 2000 256 300
        seeded_list "$kind" 3 400 8 64 6 5
    done
    # A page that more textures share than the event program has.
    seeded_list stamps 4 800 16 64 1 90
    seeded_list fills 4 400 12 64 1 90
    seeded_list stamps 5 100 4 8 0 90
} >"$replay/stdin"
"$built/replay" <"$replay/stdin" >"$replay/stdout"
