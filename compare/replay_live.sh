#!/usr/bin/env bash
# Compares a program that runs lists of any sizes with the published Rust, byte by byte, at sizes that the event programs lack: few pages
# for many textures, none, few places.
#
#   compare/replay_live.sh PROGRAM [SEED ...]
#
# PROGRAM reads lists as crates/test_replay does. In the environment: LINES, the lines of each list (2000), and KINDS, the kinds of lists
# (all). Without seeds a fixed set is used.
# Ends with 0 if every output is equal, or if the Rust's source is not at hand; else with another number. The first list that is answered
# differently is left in difference.events in the build folder.
set -u
# Otherwise a shell in a terminal puts that one's height in LINES.
shopt -u checkwinsize
lines=${LINES:-2000}

fail() {
    printf 'replay_live: %s\n' "$*" >&2
    exit 1
}

[ $# -ge 1 ] || fail 'usage: replay_live.sh PROGRAM [SEED ...]'
program=$(realpath -e -- "$1" 2>/dev/null) || fail "$1: there is no such program"
if [ ! -f "$program" ] || [ ! -x "$program" ]; then
    fail "$1: not a program"
fi
shift
seeds=("$@")
[ $# -gt 0 ] || seeds=(1 2 3 4 5 6 7 8)

cd -- "$(dirname -- "${BASH_SOURCE[0]}")" || fail 'the folder of this script cannot be entered'

# As the build script looks for it: only a folder that is there and does not fit makes the build fail.
source_folder=${YEGUDO_SOURCE:-../../shared/docs/src}
if [ ! -d "$source_folder" ]; then
    printf "the Rust's source is not at hand: %s is no folder, live comparison left out\n" "$source_folder"
    exit 0
fi

cargo build --release --offline -q || fail 'the build over the published source failed'
built=${CARGO_TARGET_DIR:-target}/release
read -r -d '' -a kinds <<<"${KINDS:-$("$built/lists" kinds)}"

# Textures, versions, pages, answers. The first two have room for more than eight histories of ninety grids in one page.
sizes=('16 64 1 90' '12 64 1 90' '9 20 2 90' '64 2000 13 90' '3 7 1 5' '4 8 0 90')

# The program reads no more than 512 KiB.
most=450000

work=$(mktemp -d) || fail 'no temporary folder'
trap 'rm -rf -- "$work"' EXIT

# A list from a seed, with a line feed behind its last line; no line is long.
seeded_list() { # KIND SEED TEXTURES VERSIONS PAGES ANSWERS
    printf '=,%s,%s,%s,%s,%s_%s\n' "$3" "$4" "$5" "$6" "$1" "$2"
    "$built/lists" "$1" "$2" "$lines" --textures "$3" --versions "$4" --pages "$5" --answers "$6" |
        LC_ALL=C awk 'length($0) < 1000'
}

# Gives both the lists that were gathered.
compare_lists() {
    [ -s "$work/lists" ] || return
    "$built/replay" <"$work/lists" >"$work/rust" || fail 'the Rust did not answer'
    timeout 120 "$program" <"$work/lists" >"$work/other"
    local ended=$?
    if ! cmp -s "$work/rust" "$work/other"; then
        first_difference
        exit 1
    fi
    [ "$ended" -eq 0 ] || fail "$program ended with $ended"
    : >"$work/lists"
}

first_difference() {
    local at name
    at=$(paste -d '\n' -- "$work/rust" "$work/other" |
        awk 'NR % 2 { rust = $0; next } rust != $0 { print NR / 2; exit }')
    name=$(head -n "${at:-1}" "$work/rust" | grep '^=,' | tail -n 1)
    awk -v name="$name" '/^=,/ { here = $0 == name } here' "$work/lists" >"$built/../difference.events"
    printf 'outputs differ, first in the list %s:\n' "$name"
    printf '  the Rust: %s\n' "$(sed -n "${at:-1}p" "$work/rust")"
    printf '  other:    %s\n' "$(sed -n "${at:-1}p" "$work/other")"
}

count=0
started=$SECONDS
: >"$work/lists"
for size in "${sizes[@]}"; do
    read -r -a places <<<"$size"
    for kind in "${kinds[@]}"; do
        for seed in "${seeds[@]}"; do
            seeded_list "$kind" "$seed" "${places[@]}" >"$work/one" || fail "$kind $seed: no list"
            if [ $(($(stat -c %s "$work/lists") + $(stat -c %s "$work/one"))) -gt "$most" ]; then
                compare_lists
            fi
            cat -- "$work/one" >>"$work/lists"
            count=$((count + 1))
        done
    done
done
compare_lists
printf '%s lists of %s lines at %s other sizes, outputs equal, %s seconds\n' \
    "$count" "$lines" "${#sizes[@]}" "$((SECONDS - started))"
