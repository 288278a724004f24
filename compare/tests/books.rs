//! The two books beside the Rust agree; beside programs that answer wrongly they do not.

mod common;

use compare::books::{Books, Fault};
use compare::limited::Limits;
use compare::lines;
use compare::lists::{self, Answering};
use compare::program::Program;
use compare::replies::Replies;

const LINES: u64 = 4_000;

/// The first fault of a list with this output, and its line.
fn fault(list: &[u8], out: &[u8]) -> Option<(usize, Fault)> {
    let mut books = Books::default();
    let mut replies = Replies::new(out);
    for (at, line) in lines::lines_of(list).enumerate() {
        let reply = replies.next().expect("a reply").expect("a well formed one");
        if let Err(fault) = books.step(line, &reply) {
            return Some((at + 1, fault));
        }
    }
    None
}

/// Answers with the Rust, but changes what it is asked and what it answers.
fn altered<'a>(
    mut ask: impl FnMut(&str) -> String + 'a,
    mut answer: impl FnMut(&str, String) -> String + 'a,
) -> Answering<'a> {
    let mut program = Program::new(Limits::default(), false);
    Box::new(move |line, out| {
        let line = String::from_utf8(line.to_vec()).expect("these lists are text");
        let mut printed = Vec::new();
        program.run(ask(&line).as_bytes(), &mut printed);
        let printed = String::from_utf8(printed).expect("the output is text");
        out.extend(answer(&line, printed).into_bytes());
    })
}

/// The fault beside a program, on a list that follows its answers.
fn fault_beside<'a>(seed: u64, make: impl Fn() -> Answering<'a>) -> Option<(usize, Fault)> {
    let limits = Limits::default();
    let list = lists::list_beside("texels", seed, LINES, limits, make()).expect("a kind");
    let mut again = make();
    fault(
        &list,
        &lines::answer_bytes(&list, |line, out| again(line, out)),
    )
}

/// In how many of ten lists the answers break the demand.
fn broken<'a>(make: impl Fn() -> Answering<'a>) -> usize {
    let faults = (0..10).filter_map(|seed| fault_beside(seed, &make));
    faults
        .filter(|(_, fault)| match fault {
            Fault::Answers(_) => true,
            Fault::List(fault) => panic!("{fault}"),
        })
        .count()
}

fn same(line: &str) -> String {
    line.to_string()
}

#[test]
fn the_books_agree_beside_the_rust() {
    assert_eq!(broken(|| altered(same, |_, out| out)), 0);
    for seed in 0..4 {
        let list = lists::list("texels", seed, LINES, common::wide()).expect("a kind");
        let out = common::output(&mut common::program(common::wide()), &list);
        assert_eq!(fault(&list, out.as_bytes()), None);
    }
}

/// Leaves the last copy out of the plan with this number, counted from 0 among those that have copies.
fn without_copy(which: usize) -> Answering<'static> {
    let mut plans = 0;
    altered(same, move |line, out| {
        let mut lines: Vec<&str> = out.lines().collect();
        if !line.starts_with("plan") || lines.len() < 2 {
            return out;
        }
        plans += 1;
        if plans != which + 1 {
            return out;
        }
        lines.pop();
        let (number, _) = lines[0].split_once(',').expect("a line number");
        let head = format!("{number},0,{}", lines.len() - 1);
        [&[head.as_str()], &lines[1..]].concat().join("\n") + "\n"
    })
}

#[test]
fn one_copy_left_out() {
    // Harmless where the rename then ends refused, where the level is still to be written, and where the spare of a
    // texture without a history lacks no write, since such plans are whole.
    let found = (0..60).filter(|which| fault_beside(1, || without_copy(*which)).is_some());
    assert!(found.count() > 40);
}

/// Changes the second answer field of some accepted takes that hand out a spare.
fn held(change: fn(u64) -> u64) -> Answering<'static> {
    altered(same, move |line, out| {
        let fields: Vec<&str> = out.trim_end().split(',').collect();
        match (fields.get(3), line.starts_with("take")) {
            (Some(held), true) if *held != "-" => {
                let held = change(held.parse().expect("a number"));
                format!("{},0,{},{held}\n", fields[0], fields[2])
            }
            _ => out,
        }
    })
}

#[test]
fn held_numbers_raised() {
    assert!(broken(|| held(|held| held + 1)) > 7);
    // A number too low only makes the plan larger.
    assert_eq!(broken(|| held(|held| held.saturating_sub(1))), 0);
}

#[test]
fn failed_ignored() {
    let ignoring = |line: &str| match line.strip_prefix("park,") {
        Some(rest) => format!("park,0,{}", rest.split_once(',').expect("two fields").1),
        None => line.to_string(),
    };
    assert!(broken(|| altered(ignoring, |_, out| out)) > 7);
}

#[test]
fn writes_lost() {
    let losing = || {
        let mut writes = 0;
        move |line: &str| {
            writes += u64::from(line.starts_with("write"));
            if writes % 10 == 9 {
                line.replace("write", "forgotten")
            } else {
                line.to_string()
            }
        }
    };
    let accepting = |_: &str, out: String| out.replace(",?", ",0");
    assert!(broken(|| altered(losing(), accepting)) > 7);
}

#[test]
fn boxes_too_small() {
    let smaller = |line: &str, out: String| {
        let narrowed = |line: &str| match line.rsplit_once(',') {
            Some((rest, height)) if line.split(',').count() == 7 && height != "-" => {
                format!("{rest},{}\n", height.parse::<u64>().expect("a number") - 1)
            }
            _ => format!("{line}\n"),
        };
        if line.starts_with("plan") {
            out.lines().map(narrowed).collect()
        } else {
            out
        }
    };
    assert!(broken(|| altered(same, smaller)) > 3);
}

#[test]
fn the_wrong_version_handed_out() {
    // The view number of the spare before, if there was one: a version that is not parked.
    let make = || {
        let mut before = String::new();
        altered(same, move |line, out| {
            let fields: Vec<&str> = out.trim_end().split(',').collect();
            if !line.starts_with("take") || fields.len() < 4 || fields[2] == "-" {
                return out;
            }
            let view = std::mem::replace(&mut before, fields[2].to_string());
            let view = if view.is_empty() {
                before.clone()
            } else {
                view
            };
            format!("{},0,{view},{}\n", fields[0], fields[3])
        })
    };
    assert!((0..10).all(|seed| fault_beside(seed, make).is_some()));
}

#[test]
fn a_list_that_is_none_of_renames() {
    for (list, out) in [
        ("open,0\nretire,1,1,1\n", "1,0\n2,0\n"),
        (
            "open,0\ntake,1,0,4,4,1,1,0,1,1\npop,1\n",
            "1,0\n2,0,-,-\n3,0,-,-\n",
        ),
        (
            "open,0\ntake,1,0,4,4,1,1,0,1,1\nplan,1,0,0,0,0\n",
            "1,0\n2,0,-,-\n3,0,0\n",
        ),
    ] {
        let found = fault(list.as_bytes(), out.as_bytes());
        assert!(matches!(found, Some((_, Fault::List(_)))), "{list}");
    }
}
