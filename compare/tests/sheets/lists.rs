//! Tests lists with questions from seeds: each sort of question occurs, and every sheet can be read back.

use std::collections::BTreeMap;

use compare::limited::Limits;
use compare::lines::lines_of;
use compare::lists::KINDS;
use compare::lists::sheets::{ODD, asked_list};
use compare::program::Program;
use compare::sheet;
use compare::text::number;
use compare::texture_versions::inspect::SheetRow;

const EVENTS: u64 = 275;

fn list(kind: &str, seed: u64) -> Vec<u8> {
    asked_list(kind, seed, EVENTS, Limits::default()).expect("a kind")
}

/// Returns lists of all kinds, of each from the seeds 1 to `seeds`.
fn lists(seeds: u64) -> impl Iterator<Item = Vec<u8>> {
    let kinds = KINDS.iter();
    kinds.flat_map(move |kind| (1..=seeds).map(move |seed| list(kind, seed)))
}

/// Counts the sorts of questions, and of pools that are asked about.
#[derive(Default)]
struct Sorts(BTreeMap<String, u64>);

impl Sorts {
    fn count(&mut self, sort: impl Into<String>, occurs: bool) {
        *self.0.entry(sort.into()).or_default() += u64::from(occurs);
    }

    fn add(&mut self, question: &str, rows: Option<&[SheetRow]>) {
        for odd in ODD {
            self.count(odd.escape_default().to_string(), question == odd);
        }
        self.count("a question before open", rows.is_none());
        let field = question.strip_prefix("sheet,").unwrap_or_default();
        let (Some(bytes), Some(rows)) = (number(field.as_bytes()), rows) else {
            return;
        };
        let length = sheet::length(rows) as u64;
        self.count("just enough", bytes == length);
        self.count("one too few", bytes == length - 1);
        self.count("one more", bytes == length + 1);
        for many in [0, 72, 73, 146, 65_536] {
            self.count(format!("{many} bytes"), bytes == many);
        }
        self.count("many bytes", (1_001..=3_000).contains(&bytes));
        self.count_pool(rows);
    }

    fn count_pool(&mut self, rows: &[SheetRow]) {
        self.count("an empty pool", rows.is_empty());
        self.count("eight textures", rows.len() == 8);
        for kind in 0..3 {
            let occurs = rows.iter().any(|row| row.kind == kind);
            self.count(format!("kind {kind}"), occurs);
        }
        self.count("ten spares", rows.iter().any(|row| row.spares >= 10));
        let with_spares = rows.iter().filter(|row| row.spares > 0).count();
        self.count("spares of three textures", with_spares >= 3);
        self.count("fifteen levels", rows.iter().any(|row| row.levels == 15));
        let largest = rows.iter().any(|row| row.id == u64::MAX);
        self.count("an id of twenty digits", largest);
        self.count("a late rename", rows.iter().any(|row| row.rename > 1 << 40));
    }
}

#[test]
fn each_sort_of_question_occurs() {
    let mut sorts = Sorts::default();
    let mut questions = 0;
    for list in lists(8) {
        let mut program = Program::new(Limits::default(), false);
        for line in lines_of(&list) {
            assert!(line.len() < 1_000 && !line.starts_with(b"="));
            let text = String::from_utf8_lossy(line);
            if ODD.contains(&&*text) || text.starts_with("sheet") {
                sorts.add(&text, program.sheet_rows().as_deref());
                questions += 1;
            }
            program.run(line, &mut Vec::new());
        }
    }
    let missing = sorts.0.iter().filter(|(_, count)| **count == 0);
    assert_eq!(missing.collect::<Vec<_>>(), vec![]);
    assert!(
        (1_440..=2_160).contains(&questions),
        "{questions} questions"
    );
}

/// Reads the columns of a line back; a blank one is none.
fn columns(line: &str) -> [Option<u64>; 6] {
    assert_eq!((line.len(), &line[66..]), (72, "      "));
    let mut from = 0;
    [20, 1, 2, 4, 19, 15].map(|width| {
        let text = &line[from..from + width];
        from += width + 1;
        assert_eq!(&line[from - 1..from], " ");
        // Stands to the right, without leading zeros.
        let number = text.trim_start().parse::<u64>().ok();
        let printed = number.map_or(String::new(), |number| number.to_string());
        assert_eq!(text, format!("{printed:>width$}"));
        number
    })
}

/// Shows that a sheet determines the printed fields, and that its totals are the Rust's own.
#[test]
fn sheets_are_read_back() {
    for list in lists(4) {
        let mut program = Program::new(Limits::default(), true);
        for line in lines_of(&list) {
            program.run(line, &mut Vec::new());
            let Some(rows) = program.sheet_rows() else {
                continue;
            };
            let text = sheet::text(&rows);
            let lines: Vec<_> = text.lines().skip(1).map(columns).collect();
            let (totals, textures) = lines.split_last().expect("a line of totals");
            let wanted = rows.iter().map(|row| {
                let parked = row.spares * row.bytes;
                [row.id, row.kind, row.levels, row.spares, parked, row.rename].map(Some)
            });
            assert_eq!(textures, wanted.collect::<Vec<_>>());
            assert!(rows.is_sorted_by(|one, next| one.id < next.id));
            let spares = rows.iter().map(|row| row.spares).sum();
            let parked = program.pool().map(|pool| pool.parked_bytes());
            assert_eq!(*totals, [None, None, None, Some(spares), parked, None]);
        }
    }
}

#[test]
fn a_seed_gives_one_list() {
    for kind in KINDS {
        assert_eq!(list(kind, 1), list(kind, 1));
        assert_ne!(list(kind, 1), list(kind, 2));
    }
    assert_eq!(asked_list("other", 1, EVENTS, Limits::default()), None);
}
