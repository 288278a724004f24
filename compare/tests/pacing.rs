//! The pace of destroying, which shows only in pools larger than the event program's.

mod common;

use common::{program, retire_and_park, talk, two_textures, wide};
use compare::program::Program;

/// Queues `count` versions of an untracked texture, of no bytes, in the destroy queue.
fn doom(program: &mut Program, count: u64) {
    (0..count).for_each(|view| retire_and_park(program, 9, view, 1, 1));
}

/// How many versions each of the next drains hands out.
fn batches(program: &mut Program, drains: usize) -> Vec<usize> {
    (0..drains)
        .map(|_| common::output(program, b"doomed").lines().count() - 1)
        .collect()
}

fn wide_opened(line: &str) -> Program {
    let mut program = program(wide());
    talk(&mut program, &[(line, "0")]);
    program
}

#[test]
fn a_burst_of_678_is_spread() {
    let mut program = wide_opened("open,0");
    doom(&mut program, 678);
    assert_eq!(
        batches(&mut program, 8),
        [170, 149, 130, 114, 100, 15, 0, 0]
    );
    // The burst stays in the rate for eight drains and has left it at the ninth.
    doom(&mut program, 200);
    assert_eq!(batches(&mut program, 3), [64, 64, 64]);
}

#[test]
fn drain_clears_the_arrivals_and_the_count() {
    let mut program = wide_opened("open,0");
    doom(&mut program, 678);
    assert_eq!(batches(&mut program, 1), [170]);
    doom(&mut program, 100);
    assert!(common::output(&mut program, b"drain").contains(",0,608\n"));
    // A rate of 678 or 100 would show in the batch of 600: 75 + 75 without it.
    doom(&mut program, 600);
    assert_eq!(batches(&mut program, 1), [150]);
}

#[test]
fn the_excess_goes_in_one_batch() {
    // A line of 6,000 and a cap of 1,000.
    let mut program = wide_opened("open,8000");
    two_textures(&mut program);
    doom(&mut program, 100);
    (100..150).for_each(|view| retire_and_park(&mut program, 1, view, 1, 1));
    // 41 of the 50 spares cover the 641 bytes, behind the 100 versions of none that wait before them.
    talk(&mut program, &[("note,6641", "0")]);
    assert_eq!(batches(&mut program, 2), [141, 0]);
    doom(&mut program, 300);
    assert_eq!(batches(&mut program, 1), [94]);
}

#[test]
fn drain_leaves_the_excess() {
    let mut program = wide_opened("open,8000");
    talk(&mut program, &[("note,7000", "0"), ("drain", "0,0")]);
    doom(&mut program, 300);
    // All of them have no bytes, so none covers the excess and all go.
    assert_eq!(batches(&mut program, 1), [300]);
    doom(&mut program, 300);
    assert_eq!(batches(&mut program, 1), [113]);
}
