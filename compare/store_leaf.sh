#!/usr/bin/env bash
# Writes the stored leaf questions and their answers: stdin and stdout of crates/test_leaf.
# The questions are the fixed list and that of budgets. The answers are the Rust's; those about the bytes of a copy, which the Rust lacks, are
# those of src/copies.rs, written from 02's text. An entry of a table of tile edges, which it lacks too, is its edge at the entry's extents.
set -eu
cd -- "$(dirname -- "${BASH_SOURCE[0]}")"
cargo build --release --offline -q
built=${CARGO_TARGET_DIR:-target}/release
program=../crates/test_leaf
{
    "$built/questions"
    "$built/questions" budget
} >"$program/stdin"
"$built/leaf" <"$program/stdin" >"$program/stdout"
