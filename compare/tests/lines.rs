//! Which lines are well formed.

mod common;

use common::{output, program, talk_anew};
use compare::limited::Limits;

fn output_of(input: &[u8]) -> String {
    output(&mut program(Limits::default()), input)
}

#[test]
fn lines_are_counted() {
    assert_eq!(output_of(b""), "");
    assert_eq!(output_of(b"\n"), "1,?\n");
    assert_eq!(output_of(b"\n\n"), "1,?\n2,?\n");
    assert_eq!(output_of(b"\nopen,0"), "1,?\n2,0\n");
    assert_eq!(output_of(b"open,0\n"), "1,0\n");
    assert_eq!(output_of(b"open,0\n\n"), "1,0\n2,?\n");
}

#[test]
fn bytes_that_no_line_has() {
    for line in [
        &b"open,0\r"[..],
        b"open,0\0",
        b"\0",
        b"open,0 ",
        b" open,0",
        b"open, 0",
        b"open,0,",
        b"open,\xc2\xb2",
        b"\xff\xfe",
        b"open,\xff",
        b"Open,0",
        b"open",
        b"open,",
        b"open,+1",
        b"open,-",
        b"open,-1",
        b"open,0x1",
        b"open,1.0",
        b"open,0\t",
    ] {
        assert_eq!(output_of(line), "1,?\n", "{line:?}");
    }
}

#[test]
fn no_line_is_too_long() {
    let mut input = vec![b'9'; 3_000_000];
    input.extend_from_slice(b"\nopen,");
    input.extend(vec![b'0'; 1_000_000]);
    input.extend_from_slice(b"\nopen,00000000000000000001\n");
    assert_eq!(output_of(&input), "1,?\n2,?\n3,0\n");
}

#[test]
fn numbers_have_1_to_20_digits_and_their_width() {
    talk_anew(&[
        ("open,18446744073709551616", "?"),
        ("open,000000000000000000000", "?"),
        ("open,18446744073709551615", "0"),
        ("write,7,4294967296,0,0,0,1,1", "?"),
        ("write,7,0,4294967296,0,0,1,1", "?"),
        ("write,7,0,0,0,0,4294967296,1", "?"),
        ("write,7,4294967295,0,0,0,1,1", "0"),
        (
            "write,18446744073709551615,0,0,0,0,00000000004294967295,1",
            "0",
        ),
        ("take,7,2,4294967296,64,1,1,0,1,10", "?"),
        ("take,7,2,64,64,1,4294967296,0,1,10", "?"),
    ]);
}

#[test]
fn format_and_kind_have_64_bits() {
    talk_anew(&[
        ("open,0", "0"),
        ("take,7,4294967298,64,64,1,1,0,1,10", "2"),
        ("take,7,18446744073709551615,64,64,1,1,0,1,10", "2"),
        ("take,7,2,64,64,1,1,4294967296,1,10", "2"),
        ("take,7,18446744073709551616,64,64,1,1,0,1,10", "?"),
    ]);
}

#[test]
fn flags_are_0_or_1() {
    talk_anew(&[
        ("open,0", "0"),
        ("take,7,2,64,64,1,1,0,2,10", "?"),
        ("take,7,2,64,64,1,1,0,-,10", "?"),
        ("take,7,2,64,64,1,1,0,,10", "?"),
        ("take,7,2,64,64,1,1,0,01,10", "0,-,-"),
        ("plan,7,0,0,0,2", "?"),
        ("plan,7,0,0,0,00", "0,0"),
        ("plan,7,--,0,0,0", "?"),
        ("plan,7,-,0,0,-", "?"),
    ]);
}

#[test]
fn a_call_before_open_and_a_second_open() {
    talk_anew(&[
        ("drain", "?"),
        ("doomed", "?"),
        ("pop,0", "?"),
        ("take,7,2,64,64,1,1,0,1,10", "?"),
        ("open,0", "0"),
        ("open,0", "?"),
        // The take line before `open` is none.
        ("plan,7,-,0,0,0", "?"),
        ("take,7,2,64,64,1,1,0,1", "?"),
        ("plan,7,-,0,0,0", "?"),
        ("drain,", "?"),
        ("doomed,0", "?"),
        ("drain", "0,0"),
    ]);
}

#[test]
fn a_plan_uses_the_latest_take_line_even_if_refused() {
    talk_anew(&[
        ("open,0", "0"),
        ("take,7,9,64,64,1,1,0,1,10", "2"),
        ("plan,7,-,0,0,0", "2"),
        ("take,7,2,64,64,1,2,0,1,281474976710657", "3"),
        ("plan,7,-,0,0,0", "0,2 0,0,-,-,-,- 0,1,-,-,-,-"),
        ("take,7,2,64,64,1,1,0,1,10", "0,-,-"),
        ("plan,7,-,0,0,0", "0,1 0,0,-,-,-,-"),
        // A malformed take line is none.
        ("take,7,2,64,64,1,2,0,1,10,", "?"),
        ("plan,7,-,0,0,0", "0,1 0,0,-,-,-,-"),
        ("take,8,2,64,64,1,2,0,0,10", "0,-,-"),
        ("plan,7,-,0,0,0", "4"),
    ]);
}
