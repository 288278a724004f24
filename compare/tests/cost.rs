//! Tests the report on what plans move: reports worked out by hand from documents 01 and 02, and that the lists have boxes that matter.

use compare::cost::{self, Sums, TOO_LARGE, push_sum};
use compare::limited::Limits;
use compare::lines::lines_of;
use compare::lists::{self, KINDS, edges::EDGES};
use compare::program::{Planned, Program};

fn report(list: &str) -> String {
    let report = cost::report(Limits::default(), list.as_bytes());
    String::from_utf8(report).expect("the report is plain text")
}

/// Tests the report on a list, line by line, with and without the last line feed.
fn check(list: &[&str], expected: &[&str]) {
    let text = list.join("\n");
    let expected = expected.join("\n") + "\n";
    assert_eq!(report(&text), expected);
    assert_eq!(report(&(text + "\n")), expected);
}

/// Has 64 by 64 texels of 4 bytes: whole first, then one tile of 16 by 16.
#[test]
fn sample_of_01() {
    let list = include_str!("../../examples/sample.events");
    let expected = "3,0,16384\n9,0,1024\nsum,17408,32768\n";
    assert_eq!(report(list), expected);
    assert_eq!(report(list.trim_end()), expected);
}

/// Has 34 by 21 texels in 9 by 6 blocks of 8 bytes, 432 whole; level 1, 17 by 10, has 5 by 3, 120 whole; level 2, 8 by 5, has 2 by 2,
/// 32 whole. Tiles have 16 texels along each axis.
#[test]
fn boxes_at_level_edges() {
    let take = "take,7,5,34,21,1,3,0,1,10";
    check(
        &[
            "open,0",
            take,
            "plan,7,-,0,0,0",
            // Writes into the last column of tiles, of 2 texels: one block by four.
            "write,7,0,0,33,3,9,1",
            "plan,7,0,0,0,0",
            // Writes into the last row too, of 5 texels: 1 by 6 blocks.
            "write,7,0,0,32,20,1,1",
            "plan,7,0,0,0,0",
            "plan,7,1,0,0,0",
            // Writes into level 1's last column of tiles, of one texel: 1 by 3 blocks.
            "write,7,0,1,16,0,1,1",
            "plan,7,2,0,0,0",
            "plan,7,0,0,0,0",
            // Writes into level 2, which is one tile, so that its copy is whole.
            "write,7,0,2,7,4,1,1",
            "plan,7,0,0,0,0",
            "plan,7,4,0,0,0",
        ],
        &[
            "3,0,584",
            "5,0,32",
            "7,0,48",
            "8,0,16",
            "10,0,24",
            "11,0,72",
            "13,0,104",
            "14,0,0",
            // Has all three levels twice whole, level 0 four times besides and level 1 twice.
            "sum,880,3136",
        ],
    );
}

/// Has a volume of 17 by 5 by 7 texels in 5 by 2 blocks of 16 bytes at 7 depths, 1,120 whole; level 1, 8 by 2 by 3, has 2 blocks at 3 depths, 96.
#[test]
fn volumes_and_cubes() {
    check(
        &[
            "open,0",
            "take,1,6,17,5,7,2,2,1,1",
            "plan,1,-,0,0,0",
            "write,1,0,0,16,0,1,1",
            "plan,1,0,0,0,0",
            // Copies a cube slice by slice: six of 2 by 2 blocks of 8 bytes, and six of one.
            "take,2,5,5,5,7,2,1,1,1",
            "plan,2,-,0,0,0",
            "plan,2,-,3,1,1",
            "write,2,5,0,0,0,1,1",
            "plan,2,0,0,0,0",
        ],
        &[
            "3,0,1216",
            "5,0,224",
            "7,0,240",
            "8,0,232",
            "10,0,32",
            "sum,1944,2840",
        ],
    );
}

/// Goes by the latest take line's shape, accepted or refused; a plan that is refused moves nothing.
#[test]
fn refused_plans() {
    check(
        &[
            "open,0",
            "take,1,0,5,7,1,1,0,1,1",
            "plan,1,-,0,0,0",
            "take,2,1,5,7,1,1,0,1,1",
            "plan,1,-,0,0,0",
            "plan,9,-,0,0,0",
            "take,3,9,5,7,1,1,0,1,1",
            "plan,1,-,0,0,0",
            "take,1,0,5,7,1,1,0,1,281474976710657",
            "plan,1,0,0,0,0",
            "plan,1,-,0,0,0",
        ],
        &[
            "3,0,35",
            "5,4",
            "6,0,70",
            "8,2",
            "10,0,0",
            "11,0,35",
            "sum,140,140",
        ],
    );
}

/// Counts lines that call nothing and prints nothing for them.
#[test]
fn lines_that_call_nothing() {
    check(&[""], &["sum,0,0"]);
    check(&["plan,7,-,0,0,0"], &["sum,0,0"]);
    check(
        &[
            "take,7,2,64,64,1,1,0,1,10",
            "plan,7,-,0,0,0",
            "",
            "open,0",
            "plan,7,-,0,0,0",
            "take,7,2,64,64,1,1,0,2,10",
            "plan,7,-,0,0,0",
            "take,7,2,64,64,1,1,0,1,10",
            "open,0",
            "plan,7,-,0,0",
            "plan,7,--,0,0,0",
            "plan,7,-,0,4294967296,0",
            " plan,7,-,0,0,0",
            "",
            "plan,7,-,0,0,0",
            "plan,7,-,0,0,2",
        ],
        &["15,0,16384", "sum,16384,16384"],
    );
}

#[test]
fn sums_past_64_bits() {
    let printed = |sum| {
        let mut out = Vec::new();
        push_sum(&mut out, sum);
        String::from_utf8(out).expect("a sum is plain text")
    };
    assert_eq!(printed(0), ",0");
    assert_eq!(printed(TOO_LARGE - 1), ",18446744073709551614");
    assert_eq!(printed(TOO_LARGE), ",-");
    assert_eq!(printed(TOO_LARGE + 1), ",-");
    assert_eq!(printed(TOO_LARGE + 2), ",-");
    // Has 2^21 copies of 2^43 bytes each, the most that one can have.
    let mut sums = Sums::default();
    for _ in 0..1 << 21 {
        sums.add(Sums {
            moved: (1 << 43) - 1,
            whole: 1 << 43,
        });
    }
    assert_eq!(sums.whole, 1 << 64);
    assert_eq!(printed(sums.moved), ",18446744073707454464");
    assert_eq!(printed(sums.whole), ",-");
}

#[test]
fn other_sizes() {
    let limits = Limits {
        answers: 1,
        ..Limits::default()
    };
    let list = b"open,0\ntake,7,5,5,5,1,2,0,1,10\nplan,7,-,0,0,0\nplan,7,-,0,0,1";
    let report = cost::report(limits, list);
    assert_eq!(report, b"3,11\n4,0,8\nsum,8,8\n");
}

/// Counts the boxes of a plan in a format with blocks, and those that end at an edge of their level that is no multiple of 4.
fn boxes(planned: &Planned) -> (u64, u64) {
    let (shape, mut count) = (planned.shape, (0, 0));
    let copies = planned.outcome.as_ref().map_or(&[][..], Vec::as_slice);
    for copy in copies.iter().filter(|_| matches!(shape.format, 5 | 6)) {
        let Some(region) = copy.region() else {
            continue;
        };
        let (width, height) = shape.level(copy.level());
        let right = region.x() + region.width() == width && width % 4 != 0;
        let below = region.y() + region.height() == height && height % 4 != 0;
        count.0 += 1;
        count.1 += u64::from(right || below);
    }
    count
}

/// Shows that the lists of `cost_live.sh` in the gate have boxes in formats with blocks, and that most of them end at such an edge.
#[test]
fn lists_have_boxes_at_level_edges() {
    let (mut plans, mut all, mut ending, mut kinds) = (0, 0, 0, [0; 3]);
    for kind in KINDS.iter().chain(&[EDGES]) {
        for seed in 1..=8 {
            let list = lists::list(kind, seed, 300, Limits::default()).expect("a kind");
            let mut program = Program::new(Limits::default(), true);
            for planned in lines_of(&list).filter_map(|line| program.run_plan(line)) {
                let (found, at_edges) = boxes(&planned);
                plans += u64::from(found > 0);
                all += found;
                ending += at_edges;
                if at_edges > 0 {
                    kinds[planned.shape.kind as usize] += 1;
                }
            }
        }
    }
    let counts = format!("{plans} plans, {all} boxes, {ending} at edges, by kind {kinds:?}");
    assert!(plans >= 300 && ending >= 300, "{counts}");
    assert!(kinds.iter().all(|count| *count >= 50), "{counts}");
}
