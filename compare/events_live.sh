#!/usr/bin/env bash
# Compares another event program with the published Rust on lists of events, byte by byte.
#
#   compare/events_live.sh [--large | --textures N --versions N --pages N --answers N] PROGRAM [SEED ...]
#
# PROGRAM is document 01's event program with these sizes (8, 64, 6 and 90 without options; --large: 64, 2000, 256 and
# 300). In the environment: LINES, the lines of each list (20000), and KINDS, the kinds of lists (all). Without seeds a
# fixed set is used.
# Ends with 0 if every output is equal, the two books agree on the lists that are made for them and every outcome that a
# call can have occurred (asked only if KINDS is not set), or if the Rust's source is not at hand; else with another
# number. A list that is answered differently is shortened and printed, and left in difference.events in the build folder.
set -u
# Otherwise a shell in a terminal puts that one's height in LINES.
shopt -u checkwinsize
lines=${LINES:-20000}

fail() {
    printf 'events_live: %s\n' "$*" >&2
    exit 1
}

sizes=()
while [ $# -ge 1 ]; do
    case $1 in
    --large)
        sizes+=(--textures 64 --versions 2000 --pages 256 --answers 300)
        shift
        ;;
    --*)
        [ $# -ge 2 ] || fail "$1 lacks its number"
        sizes+=("$1" "$2")
        shift 2
        ;;
    *) break ;;
    esac
done
[ $# -ge 1 ] || fail 'usage: events_live.sh [--large | SIZES] PROGRAM [SEED ...]'
program=$(realpath -e -- "$1" 2>/dev/null) || fail "$1: there is no such program"
if [ ! -f "$program" ] || [ ! -x "$program" ]; then
    fail "$1: not a program"
fi
shift
seeds=("$@")
[ $# -gt 0 ] || seeds=(1 2 3 4 5 6 7 8)

cd -- "$(dirname -- "${BASH_SOURCE[0]}")" || fail 'the folder of this script cannot be entered'

# As the build script looks for it: only a folder that is there and does not fit makes the build fail.
source_folder=${YEGUDO_SOURCE:-../../shared/docs/src}
if [ ! -d "$source_folder" ]; then
    printf "the Rust's source is not at hand: %s is no folder, live comparison left out\n" "$source_folder"
    exit 0
fi

cargo build --release --offline -q || fail 'the build over the published source failed'
built=${CARGO_TARGET_DIR:-target}/release
read -r -d '' -a kinds <<<"${KINDS:-$("$built/lists" kinds)}"

work=$(mktemp -d) || fail 'no temporary folder'
trap 'rm -rf -- "$work"' EXIT

# compare_list KIND SEED: gives both the same list. List and output are kept for the coverage.
compare_list() {
    local list=$work/$1.$2.list output=$work/$1.$2.output
    "$built/lists" "${sizes[@]+"${sizes[@]}"}" "$1" "$2" "$lines" >"$list" || fail "$1 $2: no list"
    "$built/events" "${sizes[@]+"${sizes[@]}"}" <"$list" >"$output" || fail "$1 $2: the Rust did not answer"
    timeout 120 "$program" <"$list" >"$work/other"
    local ended=$?
    if [ "$ended" -ne 0 ] || ! cmp -s "$output" "$work/other"; then
        printf '%s, seed %s: outputs differ (the program ended with %s)\n' "$1" "$2" "$ended"
        "$built/shrink" "${sizes[@]+"${sizes[@]}"}" "$program" "$list" "$built/../difference.events"
        exit 1
    fi
    if [ "$1" = chaos ]; then
        compare_pieces "$1 $2" "$list" "$output"
    fi
    # The kind whose shapes are small enough.
    if [ "$1" = texels ]; then
        "$built/books" "$list" "$work/other" >"$work/books" ||
            fail "$1 $2: the two books do not agree: $(cat -- "$work/books")"
    fi
    compared+=("$list" "$output")
}

# compare_pieces NAME LIST OUTPUT: the beginning of the list in pieces of eleven bytes, so that lines are read in parts.
compare_pieces() {
    head -c 6000 -- "$2" | dd bs=11 status=none | timeout 120 "$program" >"$work/pieces" ||
        fail "$1, in pieces: $program ended with a fault"
    # The last line is cut, so its answer may be another one.
    local count
    count=$(head -c 6000 -- "$2" | wc -l)
    awk -F , -v count="$count" '$1 <= count' "$output" >"$work/begun"
    awk -F , -v count="$count" '$1 <= count' "$work/pieces" | cmp -s - "$work/begun" ||
        fail "$1: in pieces, the output is another one"
}

compared=()
started=$SECONDS
for kind in "${kinds[@]}"; do
    for seed in "${seeds[@]}"; do
        compare_list "$kind" "$seed"
    done
done
printf '%s lists of %s lines, outputs equal, %s seconds\n' \
    "$((${#compared[@]} / 2))" "$lines" "$((SECONDS - started))"
"$built/coverage" "${sizes[@]+"${sizes[@]}"}" "${compared[@]}" || [ -n "${KINDS:-}" ]
