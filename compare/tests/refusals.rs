//! Each refusal, its exact border, and which one comes first.

mod common;

use common::{program, retire_and_park, talk, talk_anew, wide};
use compare::limited::{Limits, MOST};
use compare::program::Program;
use compare::standins::TextureId;
use compare::texture_versions::inspect;

const FLAT: &str = "2,64,64,1,1,0";

fn opened(limits: Limits) -> Program {
    let mut program = program(limits);
    talk(&mut program, &[("open,0", "0")]);
    program
}

#[test]
fn bad_shapes() {
    let mut program = opened(wide());
    for (shape, answer) in [
        ("2,16384,16384,2048,15,0", "0,-,-"),
        ("2,16385,1,1,1,0", "2"),
        ("2,1,16385,1,1,0", "2"),
        // Of a flat texture too.
        ("2,1,1,2049,1,0", "2"),
        ("2,1,1,1,0,0", "2"),
        ("2,1,1,1,16,0", "2"),
        ("2,1,1,1,1,3", "2"),
        ("9,1,1,1,1,0", "2"),
        ("8,0,0,0,1,2", "0,-,-"),
    ] {
        talk(&mut program, &[(&format!("take,7,{shape},1,10"), answer)]);
    }
}

#[test]
fn submissions_end_at_2_to_the_48() {
    talk_anew(&[
        ("open,0", "0"),
        ("take,7,2,64,64,1,1,0,1,281474976710657", "3"),
        ("take,7,9,64,64,1,1,0,1,281474976710657", "2"),
        ("take,7,2,64,64,1,1,0,1,281474976710656", "0,-,-"),
        ("retire,7,900,281474976710657", "3"),
        ("retire,7,900,281474976710656", "0"),
        ("pop,281474976710657", "3"),
        ("park,281474976710657,0", "3"),
        ("park,0,281474976710657", "3"),
        ("pop,281474976710656", "0,7,900"),
        ("pop,281474976710657", "3"),
        ("park,281474976710656,281474976710656", "0"),
        ("trim,281474976710657", "3"),
        ("trim,281474976710656", "0"),
        ("take,7,2,64,64,1,1,0,1,0", "0,900,-"),
    ]);
}

#[test]
fn textures_full() {
    let mut program = opened(Limits::default());
    for id in 0..8 {
        talk(
            &mut program,
            &[(&format!("take,{id},{FLAT},0,10"), "0,-,-")],
        );
    }
    talk(
        &mut program,
        &[
            ("take,8,2,64,64,1,1,0,0,10", "5"),
            // 5 comes before 6, and after 3.
            ("take,8,2,64,64,1,15,1,1,10", "5"),
            ("take,8,2,64,64,1,1,0,0,281474976710657", "3"),
            // A tracked one, renewed or not, needs no further place.
            ("take,7,2,64,64,1,1,0,0,10", "0,-,-"),
            ("take,7,2,64,65,1,1,0,0,10", "0,-,-"),
            ("forget,3", "0"),
            ("take,8,2,64,64,1,1,0,0,10", "0,-,-"),
            ("take,3,2,64,64,1,1,0,0,10", "5"),
        ],
    );
}

#[test]
fn history_full() {
    // 6,144 stamps are lent. 12,288 by 16,384 texels have 1,024 in each of their first five levels, and 6,144 in ten.
    talk_anew(&[
        ("open,0", "0"),
        ("take,1,2,12288,16384,1,11,0,1,10", "6"),
        ("take,1,2,512,512,1,2,1,1,10", "6"),
        // Six slices of 1,024 stamps.
        ("take,1,2,512,512,1,1,1,1,10", "0,-,-"),
        ("take,2,2,1,1,1,1,0,1,10", "6"),
        ("take,2,2,1,1,1,1,0,0,10", "0,-,-"),
        // Known already: `records` is not looked at again.
        ("take,2,2,1,1,1,1,0,1,10", "0,-,-"),
        // Its own stamps are free for the new shape; one too many is refused and the old stays.
        ("take,1,2,12288,16384,1,11,0,1,10", "6"),
        ("plan,1,0,0,0,0", "4"),
        ("take,1,2,12288,16384,1,10,0,1,10", "0,-,-"),
        ("take,1,2,16384,16384,1,5,0,1,10", "0,-,-"),
        // 1,024 are free; 384 by 512 texels have as many in five levels.
        ("take,3,2,384,512,1,6,0,1,10", "6"),
        ("take,3,2,384,512,1,5,0,1,10", "0,-,-"),
        // Renewed without a history, it gives its stamps back.
        ("take,1,2,64,64,1,6,0,0,10", "0,-,-"),
        ("take,4,2,16384,16384,1,5,0,1,10", "0,-,-"),
        // So does a dropped history, and a forgotten texture.
        ("take,5,2,1,1,1,1,0,1,10", "6"),
        ("write,3,1,0,0,0,1,1", "0"),
        ("take,5,2,512,512,1,1,0,1,10", "0,-,-"),
        ("forget,4", "0"),
        ("take,6,2,16384,16384,1,5,0,1,10", "0,-,-"),
        ("take,7,2,1,1,1,1,0,1,10", "6"),
        ("trim,131", "0"),
        ("take,7,2,512,512,1,1,1,1,10", "0,-,-"),
    ]);
}

/// A cube of fifteen levels has ninety grids, and of at most 16 by 16 texels one stamp in each: a page holds eleven such histories.
#[test]
fn ninety_grids_of_one_stamp() {
    let mut program = opened(Limits {
        textures: 16,
        pages: 1,
        ..Limits::default()
    });
    let cube = |id: u64| format!("take,{id},2,16,16,1,15,1,1,10");
    for id in 1..=11 {
        talk(&mut program, &[(&cube(3 * id), "0,-,-")]);
    }
    talk(
        &mut program,
        &[
            // 34 of 1,024 are free.
            (&cube(36), "6"),
            ("take,36,2,80,112,1,1,0,1,10", "6"),
            ("take,36,2,32,272,1,1,0,1,10", "0,-,-"),
            ("take,37,2,1,1,1,1,0,1,10", "6"),
            // A grid of one stamp in the middle, read after those before it are gone.
            ("write,18,5,14,0,0,1,1", "0"),
            ("write,18,0,0,20,0,1,1", "0"),
            ("forget,6", "0"),
            ("write,9,6,0,0,0,1,1", "0"),
            (&cube(18), "0,-,-"),
            ("plan,18,0,0,0,0", "0,1 5,14,-,-,-,-"),
            ("plan,18,1,0,0,0", "0,0"),
            (&cube(5), "0,-,-"),
            (&cube(7), "0,-,-"),
            (&cube(37), "6"),
            (&cube(18), "0,-,-"),
            ("plan,18,0,0,0,0", "0,1 5,14,-,-,-,-"),
        ],
    );
}

/// Renewed to the same number of stamps, to fewer and to more, with all others full; they keep what was written.
#[test]
fn renewals_between_others() {
    talk_anew(&[
        ("open,0", "0"),
        ("take,1,2,512,512,1,1,0,1,10", "0,-,-"),
        ("take,3,2,16384,16384,1,4,0,1,10", "0,-,-"),
        ("take,2,2,512,512,1,1,0,1,10", "0,-,-"),
        ("write,1,0,0,500,500,1,1", "0"),
        ("write,3,0,3,2047,2047,1,1", "0"),
        ("write,3,0,0,0,0,1,1", "0"),
        // Equal: 384 by 512 in five levels.
        ("take,2,2,384,512,1,5,0,1,10", "0,-,-"),
        ("take,2,2,384,512,1,6,0,1,10", "6"),
        ("take,2,2,64,64,1,1,0,1,10", "0,-,-"),
        ("take,4,2,384,512,1,5,0,1,10", "6"),
        ("take,2,2,512,1024,1,1,0,1,10", "0,-,-"),
        ("take,3,2,16384,16384,1,4,0,1,10", "0,-,-"),
        ("plan,3,0,0,1,0", "0,2 0,0,0,0,512,512 0,3,1984,1984,64,64"),
        ("take,1,2,512,512,1,1,0,1,10", "0,-,-"),
        ("plan,1,0,0,0,0", "0,1 0,0,496,496,16,16"),
        ("take,2,2,512,1024,1,1,0,1,10", "0,-,-"),
        ("plan,2,0,0,0,0", "0,0"),
    ]);
}

#[test]
fn a_refused_take_leaves_the_spare() {
    talk_anew(&[
        ("open,0", "0"),
        ("take,1,2,64,64,1,1,0,1,10", "0,-,-"),
        ("retire,1,900,10", "0"),
        ("pop,10", "0,1,900"),
        ("park,0,10", "0"),
        ("take,1,2,12288,16384,1,11,0,1,10", "6"),
        ("take,1,2,16385,64,1,1,0,1,10", "2"),
        ("doomed", "0,0"),
        ("take,1,2,64,64,1,1,0,1,10", "0,900,0"),
    ]);
}

#[test]
fn versions_full_counts_queue_hand_spares_and_destroy_queue() {
    let mut program = opened(Limits {
        versions: 4,
        ..Limits::default()
    });
    talk(
        &mut program,
        &[
            ("take,1,2,64,64,1,1,0,1,10", "0,-,-"),
            ("retire,9,900,10", "0"),
            ("pop,10", "0,9,900"),
            ("park,0,10", "0"),
            ("retire,1,901,10", "0"),
            ("pop,10", "0,1,901"),
            ("park,0,10", "0"),
            ("retire,1,902,10", "0"),
            ("pop,10", "0,1,902"),
            ("retire,1,903,20", "0"),
            ("retire,1,904,20", "7"),
            // 7 comes before 8, and after 3.
            ("retire,1,904,5", "7"),
            ("retire,1,904,281474976710657", "3"),
            // A taken spare frees its place at once.
            ("take,1,2,64,64,1,1,0,1,10", "0,901,0"),
            ("retire,1,904,5", "8"),
            ("retire,1,904,20", "0"),
            ("retire,1,905,20", "7"),
            ("doomed", "0,1 900"),
            ("retire,1,905,20", "0"),
            ("retire,1,906,20", "7"),
            ("drain", "0,3 903 904 905"),
            ("park,0,20", "0"),
            ("take,1,2,64,64,1,1,0,1,20", "0,902,0"),
        ],
    );
}

#[test]
fn the_hand() {
    talk_anew(&[
        ("open,0", "0"),
        ("park,0,0", "10"),
        ("park,281474976710657,0", "3"),
        ("pop,5", "0,-,-"),
        ("retire,1,900,10", "0"),
        ("retire,1,901,12", "0"),
        ("pop,9", "0,-,-"),
        ("park,0,9", "10"),
        ("pop,10", "0,1,900"),
        // Even if nothing settled.
        ("pop,11", "9"),
        ("pop,12", "9"),
        ("pop,281474976710657", "3"),
        ("park,0,12", "0"),
        ("park,0,12", "10"),
        ("pop,12", "0,1,901"),
    ]);
}

#[test]
fn short_answers() {
    let mut program = opened(Limits {
        answers: 2,
        ..Limits::default()
    });
    talk(
        &mut program,
        &[
            ("take,1,2,64,64,1,3,0,1,10", "0,-,-"),
            ("plan,1,-,0,0,0", "11"),
            ("plan,1,-,0,2,1", "0,2 0,0,-,-,-,- 0,1,-,-,-,-"),
            ("plan,1,0,0,0,0", "0,0"),
            // 2 and 4 come before 11.
            ("take,1,2,64,64,1,16,0,1,10", "2"),
            ("plan,1,-,0,0,0", "2"),
            ("take,2,2,64,64,1,4,0,0,10", "0,-,-"),
            ("plan,1,-,0,0,0", "4"),
            ("retire,8,900,10", "0"),
            ("retire,8,901,10", "0"),
            ("pop,10", "0,8,900"),
            ("park,0,10", "0"),
            ("retire,8,902,10", "0"),
            ("drain", "11"),
            ("pop,10", "0,8,901"),
            ("park,0,10", "0"),
            ("pop,10", "0,8,902"),
            ("drain", "0,2 900 901"),
            ("park,0,10", "0"),
            ("doomed", "0,1 902"),
        ],
    );
}

#[test]
fn a_refused_batch_leaves_the_pace() {
    let mut program = opened(Limits {
        answers: 169,
        ..wide()
    });
    for view in 0..678 {
        retire_and_park(&mut program, 8, view, 10, 10);
    }
    // Were the arrivals noted, nine calls would have put zeros in all eight places.
    (0..9).for_each(|_| talk(&mut program, &[("doomed", "11")]));
    assert_eq!(
        inspect::next_batch(program.pool().expect("open").published()),
        170
    );
}

#[test]
fn spent_write_counts() {
    let mut program = opened(Limits::default());
    talk(&mut program, &[("take,1,2,64,64,1,2,0,1,10", "0,-,-")]);
    let pool = program.pool().expect("open").published();
    inspect::set_writes(pool, TextureId::from_raw(1), MOST - 1);
    talk(
        &mut program,
        &[
            ("plan,1,0,0,0,1", "0,0"),
            ("write,1,0,1,0,0,1,1", "0"),
            ("write,1,0,1,0,0,1,1", "12"),
            // The cut is empty, but the count would be raised.
            ("write,1,0,0,64,64,1,1", "12"),
            ("regen,1", "12"),
            // Only a plan that skips a covered level is refused.
            ("plan,1,0,0,0,0", "0,1 0,1,0,0,16,16"),
            ("plan,1,0,0,0,1", "12"),
            ("plan,1,-,0,1,1", "12"),
            ("plan,1,0,0,2,1", "0,1 0,1,0,0,16,16"),
            ("plan,1,0,1,0,1", "0,1 0,1,0,0,16,16"),
            ("retire,1,900,10", "0"),
            ("pop,10", "0,1,900"),
            ("park,0,10", "0"),
            ("take,1,2,64,64,1,2,0,1,10", "0,900,281474976710656"),
            // Outside the shape: the history is dropped, which is no 12.
            ("write,1,0,2,0,0,1,1", "0"),
            ("write,1,0,1,0,0,1,1", "0"),
            ("regen,1", "0"),
            ("plan,1,0,0,0,1", "0,1 0,1,-,-,-,-"),
        ],
    );
}

#[test]
fn spent_tracking_count() {
    let mut program = opened(Limits::default());
    let pool = program.pool().expect("open").published();
    inspect::set_trackings(pool, MOST - 1);
    talk(
        &mut program,
        &[
            ("take,1,2,64,64,1,2,0,1,10", "0,-,-"),
            ("take,2,2,64,64,1,1,0,1,10", "12"),
            ("take,1,2,64,64,1,1,0,1,10", "12"),
            ("take,1,2,12288,16384,1,11,0,1,10", "6"),
            ("take,1,2,64,64,1,2,0,1,10", "0,-,-"),
        ],
    );
}
