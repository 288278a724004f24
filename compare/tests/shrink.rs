//! A difference is found and its list made short.

mod common;

use std::fs;
use std::os::unix::fs::PermissionsExt;
use std::path::{Path, PathBuf};
use std::process::{Command, Output};
use std::time::Duration;

use compare::limited::Limits;
use compare::lists;
use compare::shrink;

const HOUR: Duration = Duration::from_secs(3_600);

#[test]
fn what_is_needed_stays() {
    let list: Vec<u8> = (0..200)
        .flat_map(|number| format!("{number}\n").into_bytes())
        .collect();
    let has = |list: &[u8], line: &[u8]| shrink::pieces(list).contains(&line);
    let left = shrink::shrink(&list, HOUR, |list| {
        has(list, b"17\n") && has(list, b"150\n")
    });
    assert_eq!(left.concat(), b"17\n150\n");
    // The last line, which lacks its line feed.
    let left = shrink::shrink(b"a\nb\nc", HOUR, |list| list.ends_with(b"c"));
    assert_eq!(left.concat(), b"c");
}

#[test]
fn the_line_of_a_difference() {
    let lines =
        |one: &str, other: &str| shrink::lines_to_difference(one.as_bytes(), other.as_bytes());
    assert_eq!(lines("1,0\n2,0\n", "1,0\n2,0\n"), None);
    assert_eq!(lines("1,0\n2,0\n", "1,0\n2,3\n"), Some(2));
    assert_eq!(lines("1,0\n2,0,1\n2,7\n", "1,0\n2,0,1\n"), Some(2));
    assert_eq!(lines("1,0\n2,0\n", "1,0\n"), Some(2));
}

/// A folder of its own for one test.
fn folder(name: &str) -> PathBuf {
    let folder = Path::new(env!("CARGO_TARGET_TMPDIR")).join(name);
    fs::create_dir_all(&folder).expect("a folder");
    folder
}

/// A program that is the Rust's with an edit of its output by `sed`.
fn edited(folder: &Path, edit: &str) -> PathBuf {
    let (path, events) = (folder.join("program"), env!("CARGO_BIN_EXE_events"));
    fs::write(&path, format!("#!/bin/sh\n'{events}' | sed '{edit}'\n")).expect("a file");
    fs::set_permissions(&path, fs::Permissions::from_mode(0o755)).expect("its mode");
    path
}

/// Runs the binary on a list of renames.
fn shrunk(name: &str, edit: &str) -> (Output, Vec<u8>) {
    let folder = folder(name);
    let (list, short) = (folder.join("list"), folder.join("short"));
    let text = lists::list("renames", 2, 3_000, Limits::default()).expect("a kind");
    fs::write(&list, text).expect("a file");
    let _ = fs::remove_file(&short);
    let output = Command::new(env!("CARGO_BIN_EXE_shrink"))
        .args([&edited(&folder, edit), &list, &short])
        .output()
        .expect("it runs");
    (output, fs::read(&short).unwrap_or_default())
}

#[test]
fn equal_programs() {
    let (output, short) = shrunk("equal", "");
    assert!(output.status.success());
    assert_eq!(
        (output.stdout.as_slice(), short.as_slice()),
        (&b"no difference\n"[..], &b""[..])
    );
}

#[test]
fn a_wrong_program() {
    // Every box at the left edge comes out one wider.
    let (output, short) = shrunk("wrong", r"s/^\([0-9]*,[0-9]*,[0-9]*,0,[0-9]*\),16,/\1,17,/");
    assert_eq!(output.status.code(), Some(1));
    let text = String::from_utf8(short).expect("a text");
    let words: Vec<&str> = text
        .lines()
        .filter_map(|line| line.split(',').next())
        .collect();
    // Without a spare the plan is whole, but the plan's held number may come from a longer list.
    assert_eq!(words, ["open", "take", "write", "plan"], "{text}");
    let shown = String::from_utf8(output.stdout).expect("a text");
    assert!(shown.starts_with("list of 4 lines:\n  open"), "{shown}");
    assert!(shown.contains("the Rust:") && shown.contains("other:"));
}
