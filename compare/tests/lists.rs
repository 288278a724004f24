//! The lists at several sizes: the Rust never panics, after every line it is what document 01 calls a pool, the stamps are filled
//! and moved in each way, and a seed gives the same list each time.

mod common;

use common::{output, program};
use compare::changes::Changes;
use compare::coverage::Counts;
use compare::limited::Limits;
use compare::lines;
use compare::lists::{self, KINDS};
use compare::replies::Replies;

const LINES: u64 = 5_000;

/// Runs lists of all kinds with the conditions tested after every line, and counts outcomes and what is done to the stamps.
fn run(limits: Limits, seeds: std::ops::Range<u64>) -> (Counts, Changes) {
    let (mut counts, mut changes) = (Counts::default(), Changes::default());
    for kind in KINDS {
        for seed in seeds.clone() {
            let list = lists::list(kind, seed, LINES, limits).expect("a kind");
            let out = output(&mut program(limits), &list);
            let mut replies = Replies::new(out.as_bytes());
            for line in lines::lines_of(&list) {
                let reply = replies.next().expect("a reply").expect("a well formed one");
                counts.add(line, &reply);
            }
            assert!(replies.next().is_none());
            changes.add(&list, limits);
        }
    }
    (counts, changes)
}

#[test]
fn event_program_sizes() {
    let limits = Limits::default();
    let (counts, changes) = run(limits, 0..4);
    assert_eq!(counts.faults(&limits), Vec::<String>::new());
    assert_eq!(changes.faults(&limits), Vec::<String>::new());
}

#[test]
fn other_sizes() {
    let small = Limits {
        textures: 3,
        versions: 7,
        pages: 0,
        answers: 6,
    };
    run(small, 0..2);
    let large = Limits {
        textures: 20,
        versions: 300,
        pages: 100,
        answers: 84,
    };
    let (counts, changes) = run(large, 0..4);
    assert_eq!(counts.faults(&large), Vec::<String>::new());
    assert_eq!(changes.faults(&large), Vec::<String>::new());
}

/// Lists of the kind `stamps` alone do to the stamps all that can be done, not just once.
#[test]
fn lists_of_stamps() {
    let page = Limits {
        textures: 16,
        pages: 1,
        ..Limits::default()
    };
    for limits in [Limits::default(), page] {
        let mut changes = Changes::default();
        for seed in 1..=8 {
            let list = lists::list("stamps", seed, LINES, limits).expect("a kind");
            changes.add(&list, limits);
        }
        assert_eq!(changes.faults(&limits), Vec::<String>::new());
        for (sort, times) in changes.counts() {
            assert!(times >= 5, "\"{sort}\" occurred {times} times");
        }
    }
}

#[test]
fn missed_outcomes_are_told() {
    let mut counts = Counts::default();
    let reply = Replies::new(b"1,0\n").next().expect("a reply");
    counts.add(b"open,0", &reply.expect("a well formed one"));
    let reply = Replies::new(b"2,12\n").next().expect("a reply");
    counts.add(b"trim,0", &reply.expect("a well formed one"));
    let faults = counts.faults(&Limits::default());
    assert!(faults.contains(&"take with 6 did not occur".to_string()));
    assert!(faults.contains(&"trim with 12 cannot occur".to_string()));
    assert!(!faults.contains(&"open with 0 did not occur".to_string()));
    assert!(!faults.contains(&"drain with 11 did not occur".to_string()));
}

#[test]
fn a_seed_gives_one_list() {
    for kind in KINDS {
        let list = |seed| lists::list(kind, seed, 300, Limits::default());
        assert_eq!(list(1), list(1));
        assert_ne!(list(1), list(2));
    }
    assert_eq!(lists::list("other", 1, 300, Limits::default()), None);
}
