//! Tests the pool sheet and the question program: sheets written by hand from document 02, the grammar, the lists, and wrong
//! printers that the stored questions have to see.

mod faults;
mod lists;

use compare::lines;
use compare::pool_questions::{PoolQuestions, Printer};
use compare::refusal::Refusal;
use compare::sheet;
use compare::texture_versions::inspect::SheetRow;

const HEAD: &str = "                  id k lv   sp              parked            last      ";

/// Has the totals where there are no spares.
const NO_TOTALS: &str = "                             0                   0                      ";

/// Returns what the question program prints for a whole input.
pub fn answers(printer: Printer, input: &[u8]) -> String {
    let mut questions = PoolQuestions::new(printer);
    let bytes = lines::answer_bytes(input, |line, out| questions.run(line, out));
    String::from_utf8(bytes).expect("the output is plain text")
}

/// Tests the right printer's output for an input, line by line.
fn check(input: &[&str], expected: &[&str]) {
    let output = answers(sheet::print, input.join("\n").as_bytes());
    assert!(output.ends_with('\n'));
    assert_eq!(output.lines().collect::<Vec<_>>(), expected);
}

#[test]
fn an_empty_pool_has_a_head_and_totals() {
    assert_eq!(HEAD.len(), 72);
    assert_eq!(sheet::text(&[]), format!("{HEAD}\n{NO_TOTALS}\n"));
    // Ends in an empty line: the sheet's own last line feed stands before that of the buffer.
    check(&["open,0", "sheet,146"], &["2,0,146", HEAD, NO_TOTALS, ""]);
}

/// Takes three textures in descending id. Their versions have 16 bytes, 240 (01's cube of 5 by 5, format 5, two levels), and
/// 32,768 + 4,096 + 1,024 + 256 + 64 + 16 and nine times 4, which are 38,260.
#[test]
fn columns_stand_at_their_places() {
    let events = [
        "open,0",
        "take,18446744073709551615,0,4,4,1,1,0,1,10",
        "take,7,5,5,5,1,2,1,0,12",
        "take,0,2,64,64,2,15,2,0,281474976710656",
        "retire,7,900,12",
        "retire,7,901,12",
        "retire,7,902,12",
        "retire,18446744073709551615,903,13",
        "retire,0,904,14",
        "retire,0,905,14",
        "sheet,365",
    ];
    let parking = ["pop,14", "park,0,14"].repeat(6);
    let input = [&events[..], &parking[..], &["sheet,366"]].concat();
    check(
        &input,
        &[
            "11,0,365",
            HEAD,
            "                   0 2 15    0                   0 281474976710656      ",
            "                   7 1  2    0                   0              12      ",
            "18446744073709551615 0  1    0                   0              10      ",
            NO_TOTALS,
            "",
            "24,0,365",
            HEAD,
            "                   0 2 15    2               76520 281474976710656      ",
            "                   7 1  2    3                 720              12      ",
            "18446744073709551615 0  1    1                  16              10      ",
            "                             6               77256                      ",
            "#",
        ],
    );
}

/// Prints the largest numbers that any pool may have, which no list of events reaches.
#[test]
fn the_largest_numbers_fill_their_columns() {
    let largest = SheetRow {
        id: u64::MAX,
        kind: 2,
        levels: 15,
        spares: 4_096,
        bytes: 1 << 44,
        rename: 1 << 48,
    };
    assert_eq!(
        sheet::text(&[largest]),
        [
            HEAD,
            "18446744073709551615 2 15 4096   72057594037927936 281474976710656      ",
            "                          4096   72057594037927936                      ",
            "",
        ]
        .join("\n")
    );
}

#[test]
fn one_byte_too_few_is_11_and_leaves_the_buffer() {
    let row = |id| SheetRow {
        id,
        kind: 0,
        levels: 1,
        spares: 2,
        bytes: 4,
        rename: 9,
    };
    for textures in 0..=8 {
        let rows: Vec<SheetRow> = (0..textures).map(row).collect();
        let length = 73 * (textures as usize + 2);
        let before: Vec<u8> = (0..length + 200).map(|at| at as u8).collect();
        for short in [0, 1, 72, 73, length - 73, length - 1] {
            let mut buffer = before[..short].to_vec();
            assert_eq!(sheet::print(&rows, &mut buffer), Err(Refusal::ShortAnswer));
            assert_eq!(buffer, before[..short]);
        }
        for enough in [length, length + 1, length + 200] {
            let mut buffer = before[..enough].to_vec();
            assert_eq!(sheet::print(&rows, &mut buffer), Ok(length));
            assert_eq!(&buffer[..length], sheet::text(&rows).as_bytes());
            assert_eq!(buffer[length..], before[length..enough]);
        }
    }
}

#[test]
fn questions_that_are_answered_without_a_sheet() {
    check(
        &[
            "sheet,146",
            "open,0",
            "sheet,3",
            "sheet,0",
            "sheet",
            "sheet,1,2",
        ],
        &["1,?", "3,11", "###", "4,11", "", "5,?", "6,?"],
    );
    check(&["open,0", "sheet,65537", "sheet,"], &["2,?", "3,?"]);
    // Prints nothing for first fields that are other words, nor for events of any outcome.
    check(
        &[
            "open,0",
            " sheet,146",
            "sheets,146",
            "park,0,0",
            "",
            "boat",
            "sheet,-",
        ],
        &["7,?"],
    );
    let most = answers(sheet::print, b"open,0\nsheet,65536");
    assert_eq!(most.len(), "2,0,146\n".len() + 65_536 + 1);
}

#[test]
fn a_list_begins_anew() {
    check(
        &[
            "open,0",
            "sheet,1",
            "=,second, of two",
            "sheet,1",
            "",
            "open,0",
            "sheet,2",
            "=x",
            "sheet,0",
            "=,third",
        ],
        &[
            "2,11",
            "#",
            "=,second, of two",
            "1,?",
            "4,11",
            "##",
            "6,11",
            "",
            "=,third",
        ],
    );
}
