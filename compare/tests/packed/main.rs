//! Histories packed close (02, W-201), kept beside the Rust. Their plans and their refusals are the Rust's on every list; and each of some
//! faults of such a store is seen by the lists that are made for it.

#[path = "../common/mod.rs"]
mod common;
mod store;

use common::program;
use compare::event;
use compare::limited::Limits;
use compare::lines::lines_of;
use compare::lists::{self, KINDS};
use compare::replies::Replies;
use compare::texture_versions::inspect;
use store::{FAULTS, Fault, Packed};

/// The first line of a list that the store would have answered differently.
fn first_difference(list: &[u8], limits: Limits, fault: Fault) -> Option<usize> {
    let mut rust = program(limits);
    let mut packed = Packed::new(&limits, fault);
    let mut before = Vec::new();
    for (at, line) in lines_of(list).enumerate() {
        let mut out = Vec::new();
        rust.run(line, &mut out);
        let reply = Replies::new(&out).next();
        let reply = reply.expect("an answer").expect("a well formed one");
        let (Some(event), Some(pool)) = (event::parse(line), rust.pool()) else {
            continue;
        };
        let after = inspect::all_tracked(pool.published());
        if !packed.agrees(&event, &reply, &before, &after) {
            return Some(at + 1);
        }
        assert!(
            fault != Fault::None || packed.is_packed(),
            "line {}",
            at + 1
        );
        before = after;
    }
    None
}

/// The event program's sizes, one page for sixteen textures, and none.
fn sizes() -> [Limits; 3] {
    let of = |textures, pages| Limits {
        textures,
        pages,
        ..Limits::default()
    };
    [of(8, 6), of(16, 1), of(4, 0)]
}

#[test]
fn packed_histories_answer_as_the_rust_does() {
    for limits in sizes() {
        for kind in KINDS {
            for seed in 1..=4 {
                let list = lists::list(kind, seed, 1_500, limits).expect("a kind");
                let different = first_difference(&list, limits, Fault::None);
                assert_eq!(different, None, "{kind} {seed}");
            }
        }
    }
}

#[test]
fn lists_of_stamps_see_each_fault() {
    for fault in FAULTS {
        let mut seen = 0;
        for seed in 1..=4 {
            let limits = Limits::default();
            let list = lists::list("stamps", seed, 3_000, limits).expect("a kind");
            seen += u32::from(first_difference(&list, limits, fault).is_some());
        }
        assert_eq!(seen, 4, "{fault:?} was seen in {seen} lists of 4");
    }
}
