//! Tests the tables of tile edges: entries worked out by hand from 01's rule and document 02's W-204, the oracle, the grammar, the lists, and
//! wrong tables that the stored questions have to see.

mod faults;

use compare::leaf::{self, Functions};
use compare::{lines, questions};

/// Returns the answers to a whole input by the functions given.
pub fn answers(functions: &Functions, text: &str) -> String {
    let answer = |line: &[u8], out: &mut Vec<u8>| leaf::answer_by(functions, line, out);
    let bytes = lines::answer_bytes(text.as_bytes(), answer);
    String::from_utf8(bytes).expect("the answers are plain text")
}

/// Tests the answer beside each question.
fn check(pairs: &[(&str, &str)]) {
    for (question, answer) in pairs {
        let given = answers(&Functions::RIGHT, &format!("{question}\n"));
        assert_eq!(given.trim_end(), *answer, "to {question}");
    }
}

#[test]
fn entries() {
    check(&[
        ("table,1,0", "16"),
        ("table,4,0", "16"),
        ("table,1,1", "16"),
        ("table,1,15", "16"),
        ("table,1,16", "16"),
        ("table,4,16", "16"),
        ("table,1,17", "17"),
        ("table,4,17", "20"),
        ("table,1,20", "20"),
        ("table,4,20", "20"),
        ("table,4,21", "24"),
        ("table,1,511", "511"),
        ("table,4,508", "508"),
        ("table,4,509", "512"),
        ("table,4,511", "512"),
        ("table,1,512", "512"),
        ("table,4,512", "512"),
        ("table,00000000000000000004,00000000000000000017", "20"),
    ]);
}

#[test]
fn no_such_entry() {
    check(&[
        ("table,1,513", "?"),
        ("table,4,513", "?"),
        ("table,1,4294967295", "?"),
        // Are entry 17, if they are cut to 32 bits.
        ("table,1,4294967313", "?"),
        ("table,4,4294967313", "?"),
        ("table,4,18446744073709551615", "?"),
        ("table,0,5", "?"),
        ("table,2,5", "?"),
        ("table,3,5", "?"),
        ("table,5,5", "?"),
        ("table,8,5", "?"),
        ("table,4294967297,5", "?"),
        ("table,18446744073709551615,5", "?"),
    ]);
}

#[test]
fn malformed_questions() {
    check(&[
        ("table", "?"),
        ("table,1", "?"),
        ("table,1,", "?"),
        ("table,,5", "?"),
        ("table,1,5,", "?"),
        ("table,1,5,0", "?"),
        ("table,-,5", "?"),
        ("table,1,-", "?"),
        ("table,1,18446744073709551616", "?"),
        ("table,1,000000000000000000005", "?"),
    ]);
}

/// Holds the oracle, which asks at two extents of an entry, to the Rust's edge at all of them.
#[test]
fn every_extent_has_the_edge_of_its_entry() {
    for block in [1, 4] {
        for extent in 0..=16_384_u32 {
            let index = extent.div_ceil(32);
            let both = format!("table,{block},{index}\ntile_edge,{extent},{block}\n");
            let given = answers(&Functions::RIGHT, &both);
            let (entry, edge) = given.split_once('\n').expect("two answers");
            assert_eq!(entry, edge.trim_end(), "block {block}, extent {extent}");
        }
    }
}

/// Rounds the index down, so that the extents of an entry have two edges.
#[test]
#[should_panic(expected = "block 1: the edges at 513 and 544 differ")]
fn two_edges_in_an_entry_are_no_answer() {
    leaf::table_entry(&|extent, _| (extent / 32).max(16), 1, 17);
}

#[test]
fn the_lists_ask_about_tables() {
    let good = |text: &str| {
        let given = answers(&Functions::RIGHT, text);
        let both = text.split_terminator('\n').zip(given.lines());
        let tables = both.filter(|(question, _)| question.starts_with("table"));
        let (good, bad): (Vec<_>, Vec<_>) = tables.partition(|(_, answer)| *answer != "?");
        [good.len(), bad.len()]
    };
    let [entries, none] = good(questions::fixed().text());
    // Has every entry, and two of them once more in twenty digits.
    assert_eq!(entries, 2 * 513 + 2);
    assert!(none > 80, "{none} questions without an entry");
    let [entries, none] = good(questions::seeded(1, 20_000).text());
    assert!((700..=950).contains(&entries), "{entries} entries");
    assert!(
        (50..=250).contains(&none),
        "{none} questions without an entry"
    );
}
