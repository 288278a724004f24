//! What the tests of the event program share.

// Each test file uses some of these and is built with a copy of its own.
#![allow(dead_code)]

use compare::limited::Limits;
use compare::lines;
use compare::program::Program;

/// A program with these limits that tests document 01's conditions on a pool after every line.
pub fn program(limits: Limits) -> Program {
    Program::new(limits, true)
}

/// The whole output for a whole input.
pub fn output(program: &mut Program, input: &[u8]) -> String {
    let bytes = lines::answer_bytes(input, |line, out| program.run(line, out));
    String::from_utf8(bytes).expect("the output is plain text")
}

/// Runs lines one by one; beside each stands its answer: the output lines without their line number, parted by blanks.
pub fn talk(program: &mut Program, lines: &[(&str, &str)]) {
    for (line, expected) in lines {
        let out = output(program, line.as_bytes());
        let answers: Vec<&str> = out
            .lines()
            .map(|line| line.split_once(',').expect("a line number and an answer").1)
            .collect();
        assert_eq!(answers.join(" "), *expected, "to {line}");
    }
}

/// The same in a program with the event program's limits.
pub fn talk_anew(lines: &[(&str, &str)]) {
    talk(&mut program(Limits::default()), lines);
}

/// Limits under which nothing is refused for want of room, and a few of document 01's largest sizes.
pub fn wide() -> Limits {
    Limits {
        textures: 4_096,
        versions: 4_096,
        pages: 4_096,
        answers: 4_096,
    }
}

/// Retires, pops and parks one version of a texture that must be accepted each time.
pub fn retire_and_park(program: &mut Program, id: u64, view: u64, seq: u64, parked: u64) {
    let retire = format!("retire,{id},{view},{seq}");
    let park = format!("park,0,{parked}");
    let popped = format!("0,{id},{view}");
    talk(
        program,
        &[
            (&retire, "0"),
            ("pop,281474976710656", &popped),
            (&park, "0"),
        ],
    );
}

/// Starts textures 1 and 2, each version 16 bytes.
pub fn two_textures(program: &mut Program) {
    talk(
        program,
        &[
            ("take,1,0,4,4,1,1,0,1,1", "0,-,-"),
            ("take,2,0,4,4,1,1,0,1,1", "0,-,-"),
        ],
    );
}
