//! Leaf questions: document 01's edges, the grammar, and the lists.

use compare::{leaf, lines, questions};

fn answers(text: &str) -> String {
    let bytes = lines::answer_bytes(text.as_bytes(), leaf::answer);
    String::from_utf8(bytes).expect("the answers are plain text")
}

/// Each question beside its answer.
fn check(pairs: &[(&str, &str)]) {
    for (question, answer) in pairs {
        // The line feed matters: a line that is empty and lacks it is none.
        assert_eq!(
            answers(&format!("{question}\n")).trim_end(),
            *answer,
            "to {question}"
        );
    }
}

#[test]
fn edges_of_01() {
    check(&[
        ("tile_edge,512,1", "16"),
        ("tile_edge,512,4", "16"),
        ("tile_edge,513,1", "17"),
        ("tile_edge,513,4", "20"),
        ("bytes,5,5,5,1,2,0", "0,40"),
        ("bytes,5,5,5,1,2,1", "0,240"),
        (
            "budget,0",
            "1073741824,18446744073709551615,18446744072635809791",
        ),
        ("budget,7", "0,3,3"),
    ]);
}

#[test]
fn extents_and_tiles() {
    check(&[
        ("level_extent,0,0", "1"),
        ("level_extent,5,1", "2"),
        ("level_extent,5,14", "1"),
        ("level_extent,5,15", "?"),
        ("level_extent,4294967295,0", "4294967295"),
        ("tile_edge,0,1", "16"),
        ("tile_edge,16384,4", "512"),
        ("tiles,16384,1", "32"),
        ("tiles,513,1", "31"),
        ("tiles,513,4", "26"),
        ("tiles,1,1", "1"),
        ("tiles,0,1", "0"),
        ("tile_edge,64,3", "?"),
    ]);
}

#[test]
fn shapes() {
    check(&[
        ("bytes,4,16384,16384,2048,1,2", "0,8796093022208"),
        ("bytes,0,2,2,2,3,2", "0,10"),
        ("bytes,0,2,2,2,3,0", "0,6"),
        ("bytes,0,0,0,0,1,2", "0,1"),
        ("bytes,0,1,1,2049,1,0", "2"),
        ("bytes,0,16385,1,1,1,0", "2"),
        ("bytes,0,1,1,1,16,0", "2"),
        ("bytes,0,1,1,1,1,3", "2"),
        ("bytes,18446744073709551615,1,1,1,1,0", "2"),
        ("slices,0,1,1,1,1,0", "0,1"),
        ("slices,0,1,1,1,1,1", "0,6"),
        ("slices,0,1,1,1,1,2", "0,1"),
        ("slices,0,1,1,1,0,2", "2"),
        ("records,2,1,1,1,1,0,0", "0,1"),
        ("records,2,1,1,1,1,1,4", "0,1"),
        ("records,2,1,1,1,1,2,0", "0,0"),
        ("records,2,1,1,1,1,0,1", "0,0"),
        ("records,2,1,1,1,1,0,2", "0,0"),
        ("records,7,1,1,1,1,0,0", "0,0"),
        ("records,8,1,1,1,1,0,0", "0,0"),
        ("records,9,1,1,1,1,0,0", "2"),
    ]);
}

#[test]
fn uploads() {
    check(&[
        ("upload,-,1,2,3,4,5,6", "0,1,2,3,4"),
        ("upload,2,1,2,3,4,5,6", "0,1,2,3,4"),
        ("upload,5,1,2,3,4,5,6", "0,0,0,5,6"),
        // A size of whole blocks past the level is returned uncut.
        ("upload,5,4,4,8,8,5,5", "0,4,4,8,8"),
        ("upload,5,4,4,1,1,5,5", "0,4,4,1,1"),
        ("upload,5,4,4,1,1,6,5", "0,0,0,6,5"),
        ("upload,9,1,2,3,4,5,6", "2"),
        ("ongrid,5,4,4,1,1,5,5", "0,1"),
        // The sum passes 2^32 and is not the level's edge.
        ("ongrid,5,4294967292,0,7,4,3,4", "0,0"),
        ("ongrid,5,4294967292,0,3,4,4294967295,4", "0,1"),
        ("ongrid,8,4294967295,1,4294967295,3,0,0", "0,1"),
        ("ongrid,9,0,0,0,0,0,0", "2"),
        ("ongrid,-,0,0,0,0,0,0", "?"),
    ]);
}

/// Blocks of no texels, in a level of 7 by 5: the rectangles of the law `block_zero_rects` (crates/grid_rects/proofs/Rects.antt).
#[test]
fn only_0_is_a_multiple_of_block_0() {
    let rects = [
        ([0, 0, 7, 5], true),
        ([0, 0, 0, 0], true),
        ([0, 0, 7, 0], true),
        ([0, 0, 7, 4], false),
        ([1, 0, 6, 5], false),
    ];
    for (rect, on_grid) in rects {
        assert_eq!(
            leaf::on_grid_of_blocks(0, rect, (7, 5)),
            on_grid,
            "{rect:?}"
        );
    }
}

#[test]
fn grids() {
    check(&[
        ("grid,2,64,64,0,20,5,10,10", "1,16,0,16,16"),
        ("grid,2,64,64,1,20,5,10,10", "1,-"),
        ("grid,2,64,64,0,64,5,10,10", "0,-"),
        ("grid,2,64,64,0,0,0,1,1,64,64,1,1", "1,0,0,16,16"),
        ("grid,2,64,64,1,0,0,1,1,17,0,1,1", "2,16,0,16,16"),
        ("grid,2,50,50,0,49,49,4294967295,4294967295", "1,48,48,2,2"),
        ("grid,5,513,513,0,19,0,2,1", "1,0,0,40,20"),
        ("grid,2,64,64,0", "?"),
        ("grid,2,64,64,0,1,1,1", "?"),
        ("grid,2,16385,64,0,1,1,1,1", "?"),
    ]);
}

#[test]
fn malformed_lines() {
    check(&[
        ("", "?"),
        (",", "?"),
        ("budget", "?"),
        ("budget,1,", "?"),
        ("budget,-1", "?"),
    ]);
    assert_eq!(answers("tiles,1,1\r\ntiles,1,1"), "?\n1\n");
}

#[test]
fn the_lists() {
    let fixed = questions::fixed();
    let count = fixed.text().lines().count();
    assert!((9_000..=10_000).contains(&count), "{count} questions");
    assert_eq!(answers(fixed.text()).lines().count(), count);
    assert!(!fixed.text().contains("budget"));
    assert_eq!(fixed.text(), questions::fixed().text());
    let budgets = questions::budgets();
    assert!(
        budgets
            .text()
            .lines()
            .all(|line| line.starts_with("budget,"))
    );
    assert!(answers(budgets.text()).lines().all(|answer| answer != "?"));
    let seeded = questions::seeded(7, 20_000);
    assert_eq!(answers(seeded.text()).lines().count(), 20_000);
    assert!(!seeded.text().contains("budget"));
    assert_ne!(seeded.text(), questions::seeded(8, 20_000).text());
}

#[test]
fn no_level_has_more_than_32_tiles_an_axis() {
    for block in [1, 4] {
        for extent in 1..=16_384 {
            let question = format!("tiles,{extent},{block}\n");
            let tiles: u32 = answers(&question).trim().parse().expect("a number");
            assert!((1..=32).contains(&tiles), "{question}");
        }
    }
}
