//! Times the pool sheet of document 02's W-202 by Rust's own printing, since the Rust has no sheet: `sheet TEXTURES SHEETS GATHERED`.
//!
//! The pool is made by the calls that crates/bench_sheet makes, so that both print the same sheet. SHEETS are printed from rows that stand
//! ready, one after the other; before each of GATHERED the rows are taken from the pool.

use std::env;
use std::hint::black_box;
use std::io::{self, Write};

use bench::{clock, random_from, square_desc};
use compare::sheet::LINE_BYTES;
use compare::standins::TextureId;
use compare::texture_versions::inspect::{SheetRow, sheet_rows};
use compare::texture_versions::{TextureVersions, VersionBudget, VersionShape};

/// Holds how many spares a texture has, by its number.
const SPARES: [u64; 8] = [0, 1, 0, 3, 0, 1, 2, 1];

/// Returns an id of up to 20 digits. Its lowest twelve bits are those of `i`, so that no two are equal.
fn id_of(i: u64) -> TextureId {
    let drawn = random_from(i);
    let high = drawn >> (12 + 6 * (drawn % 8));
    TextureId::from_raw((high << 12) ^ (i % 4096))
}

/// Returns a submission of up to 15 digits.
fn submission_of(i: u64) -> u64 {
    let drawn = random_from(i ^ 65_536);
    drawn >> (16 + 4 * (drawn % 8))
}

/// Returns another shape for each submission: all kinds, up to thirteen levels.
fn shape_of(seq: u64) -> VersionShape {
    let kind = seq % 3;
    let depth = if kind == 2 { 4 } else { 1 };
    let levels = 1 + (seq % 13) as u32;
    VersionShape::of(&square_desc(2, 16 << (seq % 4), depth, levels, kind))
}

/// Returns a pool with `n` textures.
fn filled(n: u64) -> TextureVersions<u64> {
    let mut pool = TextureVersions::new(VersionBudget::from_working_set(17_179_869_184));
    for i in 0..n {
        let (id, seq) = (id_of(i), submission_of(i));
        pool.take_spare(id, shape_of(seq), false, seq);
        for _ in 0..SPARES[(i % 8) as usize] {
            pool.retire(id, seq, seq);
            let version = pool.pop_retired(seq).expect("a settled version");
            pool.park(version, 0, seq);
        }
    }
    pool
}

/// Prints the sheet of the rows in place of what `out` holds.
fn print_sheet(rows: &[SheetRow], out: &mut Vec<u8>) -> io::Result<()> {
    out.clear();
    writeln!(
        out,
        "{:>20} {:>1} {:>2} {:>4} {:>19} {:>15}      ",
        "id", "k", "lv", "sp", "parked", "last"
    )?;
    let (mut spares, mut parked) = (0, 0);
    for row in rows {
        let bytes = row.spares * row.bytes;
        writeln!(
            out,
            "{:>20} {:>1} {:>2} {:>4} {:>19} {:>15}      ",
            row.id, row.kind, row.levels, row.spares, bytes, row.rename
        )?;
        spares += row.spares;
        parked += bytes;
    }
    writeln!(
        out,
        "{:>20} {:>1} {:>2} {:>4} {:>19} {:>15}      ",
        "", "", "", spares, parked, ""
    )
}

/// Returns what so many sheets took, in microseconds, and their bytes.
fn timed(times: u64, mut sheet: impl FnMut() -> usize) -> (i64, usize) {
    let start = clock();
    let bytes = (0..times).map(|_| sheet()).sum();
    (clock() - start, bytes)
}

fn main() -> io::Result<()> {
    let numbers: Vec<u64> = env::args()
        .skip(1)
        .map(|a| a.parse().expect("a number"))
        .collect();
    let [n, ready, gathered] = numbers[..] else {
        panic!("sheet TEXTURES SHEETS GATHERED")
    };
    let pool = filled(n);
    let mut rows = sheet_rows(&pool);
    rows.sort_unstable_by_key(|row| row.id);
    let mut out = Vec::with_capacity(LINE_BYTES * (rows.len() + 2));
    let (ready_time, ready_bytes) = timed(ready, || {
        print_sheet(black_box(&rows), &mut out).expect("a page");
        black_box(&out).len()
    });
    let (gathered_time, gathered_bytes) = timed(gathered, || {
        let mut rows = sheet_rows(black_box(&pool));
        if cfg!(feature = "hash_maps") {
            rows.sort_unstable_by_key(|row| row.id);
        }
        print_sheet(&rows, &mut out).expect("a page");
        black_box(&out).len()
    });
    println!("ready {ready_time}");
    println!("gathered {gathered_time}");
    println!("ready_bytes {ready_bytes}");
    println!("gathered_bytes {gathered_bytes}");
    io::stdout().write_all(&out)
}
