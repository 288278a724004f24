//! Tests the bytes of a copy: values worked out by hand from documents 01 and 02, the grammar, the lists, and wrong functions that the stored
//! questions have to see.

mod faults;
mod worked;

use compare::copies::CopyBytes;
use compare::leaf::{self, Functions};
use compare::{copies, lines, questions};

/// Returns the answers to a whole input, the bytes of a copy being those of the function given.
pub fn answers(copy_bytes: CopyBytes, text: &str) -> String {
    let functions = Functions {
        copy_bytes,
        ..Functions::RIGHT
    };
    let answer = |line: &[u8], out: &mut Vec<u8>| leaf::answer_by(&functions, line, out);
    let bytes = lines::answer_bytes(text.as_bytes(), answer);
    String::from_utf8(bytes).expect("the answers are plain text")
}

/// Tests the answer beside each question.
fn check(pairs: &[(&str, &str)]) {
    for (question, answer) in pairs {
        let given = answers(copies::bytes, &format!("copy,{question}\n"));
        assert_eq!(given.trim_end(), *answer, "to {question}");
    }
}

/// Has 5 by 5 texels in blocks of 4 by 4: two blocks along each axis, the second of one texel.
#[test]
fn whole_blocks_at_a_level_edge() {
    check(&[
        ("5,5,5,1,1,0,0,-", "0,32"),
        ("6,5,5,1,1,0,0,-", "0,64"),
        ("5,5,5,1,1,0,0,0,0,5,5", "0,32"),
        ("5,5,5,1,1,0,0,0,0,4,4", "0,8"),
        ("5,5,5,1,1,0,0,0,0,5,4", "0,16"),
        ("5,5,5,1,1,0,0,4,4,1,1", "0,8"),
        ("5,5,5,1,1,0,0,4,4,9,9", "0,8"),
        ("5,5,5,1,1,0,0,4,0,1,5", "0,16"),
        // Ends at the level's right edge, and does not at its lower one.
        ("5,14,13,1,1,0,0,4,4,10,8", "0,48"),
    ]);
}

#[test]
fn each_touched_block_counts_once() {
    check(&[
        ("5,64,64,1,1,0,0,0,0,1,1", "0,8"),
        ("6,64,64,1,1,0,0,63,63,1,1", "0,16"),
        ("5,64,64,1,1,0,0,0,0,4,4", "0,8"),
        ("5,64,64,1,1,0,0,0,0,5,4", "0,16"),
        // Lies around a corner of four blocks.
        ("5,64,64,1,1,0,0,3,3,2,2", "0,32"),
        ("5,64,64,1,1,0,0,4,4,2,2", "0,8"),
        ("5,64,64,1,1,0,0,2,2,2,2", "0,8"),
        // Has as many texels as a block, from a place inside one on.
        ("5,64,64,1,1,0,0,1,0,4,4", "0,16"),
        ("5,64,64,1,1,0,0,1,1,4,4", "0,32"),
        ("6,64,64,1,1,0,0,3,0,6,1", "0,48"),
    ]);
}

#[test]
fn formats_without_blocks_give_what_they_gave() {
    check(&[
        ("0,5,7,1,1,0,0,-", "0,35"),
        ("1,5,7,1,1,0,0,-", "0,70"),
        ("2,5,7,1,1,0,0,3,3,9,9", "0,32"),
        ("3,5,7,1,1,0,0,3,3,2,2", "0,32"),
        ("4,5,7,1,1,0,0,3,3,1,1", "0,16"),
        ("7,5,7,1,1,0,0,-", "0,140"),
        ("8,5,7,1,1,0,0,-", "0,280"),
    ]);
}

#[test]
fn levels_and_depths() {
    check(&[
        // Has levels of 17 by 9, 8 by 4, 4 by 2, 2 by 1 and from there on 1 by 1.
        ("5,17,9,1,15,0,0,-", "0,120"),
        ("5,17,9,1,15,0,1,-", "0,16"),
        ("5,17,9,1,15,0,2,-", "0,8"),
        ("5,17,9,1,15,0,14,-", "0,8"),
        ("5,17,9,1,15,0,1,7,3,1,1", "0,8"),
        ("5,17,9,1,15,0,1,8,3,1,1", "0,0"),
        ("5,5,5,3,2,2,0,-", "0,96"),
        ("5,5,5,3,2,2,1,-", "0,8"),
        ("2,5,5,3,1,2,0,-", "0,300"),
        ("2,5,5,3,1,2,0,4,4,9,9", "0,12"),
        ("5,5,5,7,2,2,1,-", "0,24"),
        ("5,5,5,0,1,2,0,-", "0,32"),
        // Counts one depth of flat ones, and one slice of a cube.
        ("5,5,5,3,1,0,0,-", "0,32"),
        ("5,5,5,3,1,1,0,-", "0,32"),
        ("0,0,0,0,1,0,0,-", "0,1"),
        ("6,0,0,0,1,0,0,-", "0,16"),
        ("4,16384,16384,2048,1,2,0,-", "0,8796093022208"),
    ]);
}

#[test]
fn nothing_is_copied() {
    check(&[
        ("5,5,5,1,1,0,0,0,0,0,5", "0,0"),
        ("5,5,5,1,1,0,0,0,0,5,0", "0,0"),
        ("5,5,5,1,1,0,0,3,3,0,0", "0,0"),
        ("5,5,5,1,1,0,0,5,0,1,1", "0,0"),
        ("5,5,5,1,1,0,0,0,5,1,1", "0,0"),
        // Begins in the level's last block, behind the level's last texel.
        ("5,5,5,1,1,0,0,6,6,1,1", "0,0"),
        ("5,5,5,1,1,0,1,-", "0,0"),
        ("5,5,5,1,1,0,64,-", "0,0"),
        ("5,5,5,1,1,0,4294967296,-", "0,0"),
        ("5,5,5,1,1,0,18446744073709551615,0,0,5,5", "0,0"),
    ]);
}

#[test]
fn sums_past_64_bits() {
    check(&[
        ("5,9,9,1,1,0,0,4,0,18446744073709551612,1", "0,16"),
        (
            "5,9,9,1,1,0,0,1,1,18446744073709551615,18446744073709551615",
            "0,72",
        ),
        (
            "5,9,9,1,1,0,0,18446744073709551615,0,18446744073709551615,1",
            "0,0",
        ),
        ("5,9,9,1,1,0,0,18446744073709551612,0,8,1", "0,0"),
        ("5,9,9,1,1,0,0,0,8,1,18446744073709551609", "0,8"),
    ]);
}

#[test]
fn bad_shapes() {
    check(&[
        ("9,5,5,1,1,0,0,-", "2"),
        ("5,16385,5,1,1,0,0,-", "2"),
        ("5,5,16385,1,1,0,0,-", "2"),
        ("5,5,5,2049,1,0,0,-", "2"),
        ("5,5,5,1,0,0,0,-", "2"),
        ("5,5,5,1,16,0,0,-", "2"),
        ("5,5,5,1,1,3,0,-", "2"),
        // Passes the Rust's numbers, which makes no malformed line here.
        ("5,4294967296,5,1,1,0,0,-", "2"),
        ("5,5,5,1,1,18446744073709551615,0,-", "2"),
        // Refuses before a level is found lacking.
        ("9,5,5,1,1,0,1,-", "2"),
        ("5,5,5,1,0,0,0,0,0,0,0", "2"),
    ]);
}

#[test]
fn malformed_questions() {
    check(&[
        ("", "?"),
        ("5,5,5,1,1,0,0", "?"),
        ("5,5,5,1,1,0,-", "?"),
        ("5,5,5,1,1,0,0,-,-", "?"),
        ("5,5,5,1,1,0,0,-,0,0,1,1", "?"),
        ("5,5,5,1,1,0,0,--", "?"),
        ("5,5,5,1,1,0,0,0,0,1", "?"),
        ("5,5,5,1,1,0,0,0,0,1,1,1", "?"),
        ("5,18446744073709551616,5,1,1,0,0,-", "?"),
        ("5,5,5,1,1,0,0,000000000000000000000,0,1,1", "?"),
        ("5,5,5,1,1,0,0,00000000000000000004,0,1,1", "0,8"),
    ]);
}

#[test]
fn the_lists_ask_about_copies() {
    let copies = |text: &str| text.lines().filter(|line| line.starts_with("copy")).count();
    let fixed = copies(questions::fixed().text());
    assert!((600..=1_200).contains(&fixed), "{fixed} questions");
    assert!(copies(questions::seeded(1, 5_000).text()) > 900);
}
