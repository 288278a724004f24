//! Behaviour of the Rust that is easily missed, as far as events show it. Expected answers follow from document 01.

mod common;

use common::{program, retire_and_park, talk, talk_anew, two_textures};
use compare::limited::Limits;
use compare::program::Program;

/// A program whose cap is 1,000 bytes, whose line is 6,000 and whose parking resumes below 5,000.
fn small() -> Program {
    let mut program = program(Limits::default());
    talk(&mut program, &[("open,8000", "0")]);
    program
}

#[test]
fn shapes_compare_raw() {
    talk_anew(&[
        ("open,0", "0"),
        ("take,1,2,0,64,1,1,0,1,10", "0,-,-"),
        ("retire,1,900,10", "0"),
        ("pop,10", "0,1,900"),
        ("park,0,10", "0"),
        // Both are one texel wide; the tracking is renewed all the same.
        ("take,1,2,1,64,1,1,0,1,10", "0,-,-"),
        ("doomed", "0,1 900"),
        ("take,1,2,1,64,0,1,0,1,10", "0,-,-"),
        ("take,2,2,1,64,1,1,0,1,10", "0,-,-"),
        ("plan,1,-,0,0,0", "4"),
    ]);
}

#[test]
fn without_a_history_held_is_known_0() {
    talk_anew(&[
        ("open,0", "0"),
        ("take,1,2,64,64,1,1,0,0,10", "0,-,-"),
        ("write,1,0,0,0,0,1,1", "0"),
        ("retire,1,900,10", "0"),
        ("pop,10", "0,1,900"),
        ("park,0,10", "0"),
        ("take,1,2,64,64,1,1,0,1,10", "0,900,0"),
        ("plan,1,0,0,0,0", "0,1 0,0,-,-,-,-"),
        // A dropped history: the count of writes before is gone too.
        ("take,2,2,64,64,1,1,0,1,10", "0,-,-"),
        ("write,2,0,0,0,0,1,1", "0"),
        ("retire,2,901,10", "0"),
        ("write,2,0,1,0,0,1,1", "0"),
        ("retire,2,902,10", "0"),
        ("pop,10", "0,2,901"),
        ("park,0,10", "0"),
        ("pop,10", "0,2,902"),
        ("park,0,10", "0"),
        ("take,2,2,64,64,1,1,0,1,10", "0,902,0"),
        ("take,2,2,64,64,1,1,0,1,10", "0,901,1"),
        ("plan,2,1,0,0,0", "0,1 0,0,-,-,-,-"),
    ]);
}

#[test]
fn every_write_inside_the_shape_counts() {
    let mut program = program(Limits::default());
    talk(
        &mut program,
        &[
            ("open,0", "0"),
            ("take,1,2,64,64,1,1,0,1,10", "0,-,-"),
            ("write,1,0,0,64,0,1,1", "0"),
            ("write,1,0,0,0,0,0,1", "0"),
            ("regen,1", "0"),
            // Nothing was stamped.
            ("plan,1,0,0,0,0", "0,0"),
        ],
    );
    retire_and_park(&mut program, 1, 900, 10, 10);
    talk(
        &mut program,
        &[
            ("take,1,2,64,64,1,1,0,1,10", "0,900,3"),
            ("write,1,0,0,0,0,1,1", "0"),
            ("plan,1,3,0,0,0", "0,1 0,0,0,0,16,16"),
            ("plan,1,4,0,0,0", "0,0"),
        ],
    );
}

#[test]
fn the_order_of_retiring_is_that_of_the_queue() {
    for (failed, held) in [(9, "0"), (10, "-"), (0, "0")] {
        let mut program = program(Limits::default());
        talk(
            &mut program,
            &[
                ("open,0", "0"),
                ("take,1,2,64,64,1,1,0,1,10", "0,-,-"),
                ("retire,1,900,10", "0"),
                ("pop,10", "0,1,900"),
                ("retire,1,901,5", "0"),
                ("retire,1,902,4", "8"),
                ("park,0,11", "0"),
                ("pop,5", "0,1,901"),
                // The birth of 901 is 10, the number of the retirement before its own.
                (&format!("park,{failed},11"), "0"),
                ("take,1,2,64,64,1,1,0,1,11", &format!("0,901,{held}")),
            ],
        );
    }
}

#[test]
fn birth_5_is_unknown_with_5_and_known_with_4() {
    for (failed, held) in [("4", "0"), ("5", "-"), ("0", "0")] {
        talk_anew(&[
            ("open,0", "0"),
            ("take,1,2,64,64,1,1,0,1,5", "0,-,-"),
            ("retire,1,900,5", "0"),
            ("retire,1,901,7", "0"),
            ("pop,7", "0,1,900"),
            // Birth 0: unknown with any failure.
            (&format!("park,{failed},7"), "0"),
            ("pop,7", "0,1,901"),
            (&format!("park,{failed},7"), "0"),
            ("take,1,2,64,64,1,1,0,1,8", &format!("0,901,{held}")),
            (
                "take,1,2,64,64,1,1,0,1,8",
                if failed == "0" { "0,900,0" } else { "0,900,-" },
            ),
        ]);
    }
}

#[test]
fn relief_counts_by_parking_number_and_gives_parked_first() {
    for (allocated, doomed) in [
        ("6001", "0,1 900"),
        ("6016", "0,1 900"),
        ("6017", "0,2 900 902"),
        ("6033", "0,3 900 901 902"),
    ] {
        let mut program = small();
        two_textures(&mut program);
        retire_and_park(&mut program, 1, 900, 1, 50);
        retire_and_park(&mut program, 1, 901, 1, 10);
        retire_and_park(&mut program, 2, 902, 1, 20);
        talk(
            &mut program,
            &[(&format!("note,{allocated}"), "0"), ("doomed", doomed)],
        );
    }
}

#[test]
fn relief_counts_what_is_queued_already() {
    let mut program = small();
    two_textures(&mut program);
    retire_and_park(&mut program, 1, 900, 1, 10);
    retire_and_park(&mut program, 2, 901, 1, 10);
    talk(
        &mut program,
        &[
            ("forget,1", "0"),
            ("note,6016", "0"),
            ("doomed", "0,1 900"),
            ("note,6016", "0"),
            ("doomed", "0,1 901"),
        ],
    );
}

#[test]
fn trim_stops_at_the_first_young_spare() {
    let mut program = small();
    two_textures(&mut program);
    retire_and_park(&mut program, 1, 900, 1, 50);
    retire_and_park(&mut program, 1, 901, 1, 10);
    talk(
        &mut program,
        &[
            ("trim,58", "0"),
            ("doomed", "0,0"),
            ("trim,59", "0"),
            ("doomed", "0,2 900 901"),
        ],
    );
}

#[test]
fn parked_10_stays_at_18_and_goes_at_19() {
    let mut program = small();
    two_textures(&mut program);
    retire_and_park(&mut program, 2, 900, 1, 10);
    retire_and_park(&mut program, 1, 901, 1, 10);
    talk(
        &mut program,
        &[
            ("trim,18", "0"),
            ("doomed", "0,0"),
            ("trim,19", "0"),
            // Ascending id.
            ("doomed", "0,2 901 900"),
        ],
    );
}

#[test]
fn due_is_not_the_last_rename() {
    let mut program = program(Limits::default());
    // A plan under texture 8's shape tells whether 7 is still tracked: 4 if so.
    talk(
        &mut program,
        &[
            ("open,0", "0"),
            ("take,7,2,64,64,1,1,0,1,200", "0,-,-"),
            ("take,7,2,64,64,1,1,0,1,10", "0,-,-"),
            ("take,8,2,32,32,1,1,0,0,400", "0,-,-"),
            ("trim,150", "0"),
            ("plan,7,-,0,0,0", "4"),
            ("trim,320", "0"),
            ("plan,7,-,0,0,0", "4"),
            ("trim,321", "0"),
            ("plan,7,-,0,0,0", "0,1 0,0,-,-,-,-"),
        ],
    );
}

#[test]
fn a_look_puts_due_off() {
    let mut program = program(Limits::default());
    talk(
        &mut program,
        &[
            ("open,0", "0"),
            ("take,7,2,64,64,1,1,0,1,10", "0,-,-"),
            ("take,8,2,32,32,1,1,0,0,1000", "0,-,-"),
        ],
    );
    retire_and_park(&mut program, 7, 900, 10, 130);
    talk(
        &mut program,
        &[
            // Looked at with a spare and an aged rename: due becomes 131.
            ("trim,131", "0"),
            ("trim,139", "0"),
            ("doomed", "0,1 900"),
            ("trim,251", "0"),
            ("plan,7,-,0,0,0", "4"),
            ("trim,252", "0"),
            ("plan,7,-,0,0,0", "0,1 0,0,-,-,-,-"),
            // Renamed since: due becomes the rename's number.
            ("take,7,2,64,64,1,1,0,1,300", "0,-,-"),
            ("take,7,2,64,64,1,1,0,1,310", "0,-,-"),
            ("take,8,2,32,32,1,1,0,0,1000", "0,-,-"),
            ("trim,430", "0"),
            ("plan,7,-,0,0,0", "4"),
            ("trim,431", "0"),
            ("plan,7,-,0,0,0", "0,1 0,0,-,-,-,-"),
        ],
    );
}

#[test]
fn drain_leaves_hand_and_mark() {
    let mut program = small();
    two_textures(&mut program);
    retire_and_park(&mut program, 2, 900, 1, 10);
    retire_and_park(&mut program, 1, 901, 1, 10);
    retire_and_park(&mut program, 9, 902, 1, 10);
    talk(
        &mut program,
        &[
            ("retire,1,903,2", "0"),
            ("retire,2,904,2", "0"),
            ("pop,2", "0,1,903"),
            // Queue, destroy queue, spares by ascending id.
            ("drain", "0,4 904 902 901 900"),
            ("drain", "0,0"),
            ("park,0,10", "0"),
            ("take,1,0,4,4,1,1,0,1,10", "0,903,0"),
            ("note,6001", "0"),
            ("drain", "0,0"),
        ],
    );
    retire_and_park(&mut program, 1, 905, 2, 10);
    // Still pressed.
    talk(&mut program, &[("doomed", "0,1 905")]);
}

#[test]
fn the_mark_is_released_below_resume_alone() {
    let mut program = small();
    two_textures(&mut program);
    for (at, (allocated, parked)) in [
        (6_000, true),
        (6_001, false),
        (6_000, false),
        (5_000, false),
        (4_999, true),
        (5_000, true),
        (6_000, true),
        (u64::MAX, false),
    ]
    .into_iter()
    .enumerate()
    {
        talk(&mut program, &[(&format!("note,{allocated}"), "0")]);
        retire_and_park(&mut program, 1, 900 + at as u64, 1, 1);
        let view = 900 + at;
        if parked {
            talk(
                &mut program,
                &[("take,1,0,4,4,1,1,0,1,1", &format!("0,{view},0"))],
            );
        } else {
            talk(&mut program, &[("doomed", &format!("0,1 {view}"))]);
        }
    }
}

#[test]
fn an_untracked_version_has_no_bytes() {
    let mut program = small();
    two_textures(&mut program);
    retire_and_park(&mut program, 9, 900, 1, 10);
    retire_and_park(&mut program, 1, 901, 1, 10);
    // 900 covers none of the excess of one byte.
    talk(
        &mut program,
        &[("note,6001", "0"), ("doomed", "0,2 900 901")],
    );
}

#[test]
fn a_version_of_an_older_tracking_does_not_park() {
    talk_anew(&[
        ("open,0", "0"),
        ("retire,1,900,1", "0"),
        ("take,1,2,64,64,1,1,0,1,1", "0,-,-"),
        ("retire,1,901,1", "0"),
        ("forget,1", "0"),
        ("take,1,2,64,64,1,1,0,1,1", "0,-,-"),
        ("retire,1,902,1", "0"),
        ("pop,1", "0,1,900"),
        ("park,0,1", "0"),
        ("pop,1", "0,1,901"),
        ("park,0,1", "0"),
        ("pop,1", "0,1,902"),
        ("park,0,1", "0"),
        ("doomed", "0,2 900 901"),
        ("take,1,2,64,64,1,1,0,1,1", "0,902,0"),
    ]);
}

#[test]
fn parking_ends_at_the_cap() {
    let mut program = program(Limits::default());
    talk(&mut program, &[("open,256", "0")]);
    two_textures(&mut program);
    // The cap is 32 bytes: two versions.
    (900..903).for_each(|view| retire_and_park(&mut program, view % 2 + 1, view, 1, 1));
    talk(
        &mut program,
        &[("doomed", "0,1 902"), ("drain", "0,2 900 901")],
    );
}

#[test]
fn full_cover_skips_the_named_level_alone() {
    talk_anew(&[
        ("open,0", "0"),
        ("take,1,2,64,64,1,2,0,1,1", "0,-,-"),
        ("plan,1,-,0,1,1", "0,1 0,0,-,-,-,-"),
        ("plan,1,-,0,2,1", "0,2 0,0,-,-,-,- 0,1,-,-,-,-"),
        ("plan,1,-,1,0,1", "0,2 0,0,-,-,-,- 0,1,-,-,-,-"),
        ("write,1,0,0,0,0,20,20", "0"),
        // What the upload writes is copied all the same, unless it covers the level.
        ("plan,1,0,0,0,0", "0,1 0,0,0,0,32,32"),
        ("plan,1,0,0,0,1", "0,0"),
        ("write,1,0,0,63,63,1,1", "0"),
        // A box equal to the level is whole.
        ("plan,1,0,0,0,0", "0,1 0,0,-,-,-,-"),
        ("plan,1,1,0,0,0", "0,1 0,0,48,48,16,16"),
        ("regen,1", "0"),
        ("plan,1,2,0,0,0", "0,1 0,1,-,-,-,-"),
        ("take,9,2,64,64,1,2,1,0,1", "0,-,-"),
        ("plan,8,0,5,1,1", &whole_cube_but_the_last()),
    ]);
}

/// Every level of a cube with two, but the last.
fn whole_cube_but_the_last() -> String {
    let copies = (0..11).map(|at| format!(" {},{},-,-,-,-", at / 2, at % 2));
    format!("0,11{}", copies.collect::<String>())
}
