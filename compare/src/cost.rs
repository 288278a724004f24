//! Reports what the plans of an event list move, each copy counted by `copies` (02, W-203), over the published pool.
//!
//! A line for each plan that is called: its number and its refusal, or 0 and the bytes of its copies. Then `sum`, the bytes of all these,
//! and what the same copies would have moved had each been whole.

use crate::copies::{self, Region, Shape};
use crate::limited::Limits;
use crate::lines::lines_of;
use crate::program::{Planned, Program};
use crate::text::{push_field, push_number};
use crate::texture_versions::PreserveCopy;

/// Has the least sum that prints as "-": a program whose sums end at the largest number of 64 bits can't tell it from larger ones.
pub const TOO_LARGE: u128 = u64::MAX as u128;

/// Sums bytes in 128 bits, which no list is long enough to pass.
#[derive(Clone, Copy, Debug, Default, PartialEq, Eq)]
pub struct Sums {
    /// Counts the bytes that the copies moved.
    pub moved: u128,
    /// Counts the bytes that they would have moved had each been whole.
    pub whole: u128,
}

/// Returns the report on a whole list, for a program of these sizes.
pub fn report(limits: Limits, list: &[u8]) -> Vec<u8> {
    let mut program = Program::new(limits, false);
    let mut out = Vec::new();
    let mut all = Sums::default();
    for (line, number) in lines_of(list).zip(1..) {
        if let Some(planned) = program.run_plan(line) {
            push_number(&mut out, number);
            all.add(report_plan(&planned, &mut out));
            out.push(b'\n');
        }
    }
    out.extend_from_slice(b"sum");
    push_sum(&mut out, all.moved);
    push_sum(&mut out, all.whole);
    out.push(b'\n');
    out
}

/// Appends a plan's outcome and, if it was accepted, its bytes; returns what it adds to the sums of the list.
fn report_plan(planned: &Planned, out: &mut Vec<u8>) -> Sums {
    match &planned.outcome {
        Err(refusal) => {
            push_field(out, refusal.number());
            Sums::default()
        }
        Ok(copies) => {
            let sums = plan_sums(&Shape::from(&planned.shape), copies);
            push_field(out, 0);
            push_sum(out, sums.moved);
            sums
        }
    }
}

/// Sums the copies of a plan that went by the shape.
fn plan_sums(shape: &Shape, copies: &[PreserveCopy]) -> Sums {
    let mut sums = Sums::default();
    for copy in copies {
        let region = copy.region().map(Region::from);
        let bytes = |region| {
            let bytes = copies::bytes(shape, copy.level().into(), region);
            u128::from(bytes.expect("a plan by a bad shape is refused"))
        };
        sums.add(Sums {
            moved: bytes(region.as_ref()),
            whole: bytes(None),
        });
    }
    sums
}

impl Sums {
    pub const fn add(&mut self, other: Self) {
        self.moved += other.moved;
        self.whole += other.whole;
    }
}

/// Appends a comma and a sum, or "-" where it is too large.
pub fn push_sum(out: &mut Vec<u8>, sum: u128) {
    if sum >= TOO_LARGE {
        out.extend_from_slice(b",-");
    } else {
        push_field(out, sum as u64);
    }
}
