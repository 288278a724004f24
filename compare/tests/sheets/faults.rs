//! Has wrong printers, each of which the stored questions tell from the right one.

use compare::pool_questions::Printer;
use compare::refusal::Refusal;
use compare::sheet;
use compare::texture_versions::inspect::SheetRow;

use crate::answers;

/// Returns the stored lists without their comments, as `store_questions.sh` writes them.
fn stored() -> String {
    let text = include_str!("../../stored/sheets.asked");
    let lines = text.split_inclusive('\n');
    lines.filter(|line| !line.starts_with('#')).collect()
}

/// Puts a text into the buffer as the right printer does with the right one.
fn put(text: &str, buffer: &mut [u8]) -> Result<usize, Refusal> {
    Refusal::ShortAnswer.when(buffer.len() < text.len())?;
    buffer[..text.len()].copy_from_slice(text.as_bytes());
    Ok(text.len())
}

/// Puts the right sheet with each line altered; the head is line 0.
fn put_lines(
    rows: &[SheetRow],
    buffer: &mut [u8],
    altered: impl Fn(usize, &str) -> String,
) -> Result<usize, Refusal> {
    let text = sheet::text(rows);
    let lines = text.lines().enumerate();
    let lines: Vec<String> = lines.map(|(at, line)| altered(at, line) + "\n").collect();
    put(&lines.concat(), buffer)
}

/// Puts the sheet of altered rows.
fn put_rows(
    rows: &[SheetRow],
    buffer: &mut [u8],
    alter: impl Fn(&mut SheetRow),
) -> Result<usize, Refusal> {
    let mut rows = rows.to_vec();
    rows.iter_mut().for_each(alter);
    put(&sheet::text(&rows), buffer)
}

/// Puts a sheet whose totals are another's, in its last line.
fn put_totals(rows: &[SheetRow], buffer: &mut [u8], totals: &[SheetRow]) -> Result<usize, Refusal> {
    let other = sheet::text(totals);
    let other = other.lines().last().expect("a line of totals");
    put_lines(rows, buffer, |at, line| {
        if at == rows.len() + 1 { other } else { line }.to_string()
    })
}

/// Lists printers with wrong columns.
const COLUMNS: [(&str, Printer); 10] = [
    ("id to the left", |rows, buffer| {
        put_lines(rows, buffer, |_, line| {
            format!("{:<20}{}", line[..20].trim(), &line[20..])
        })
    }),
    ("head shifted by one", |rows, buffer| {
        put_lines(rows, buffer, |at, line| match at {
            0 => format!("{} ", &line[1..]),
            _ => line.to_string(),
        })
    }),
    ("totals shifted by one", |rows, buffer| {
        put_lines(rows, buffer, |at, line| match at {
            at if at == rows.len() + 1 => format!("{} ", &line[1..]),
            _ => line.to_string(),
        })
    }),
    ("kind and levels exchanged", |rows, buffer| {
        put_rows(rows, buffer, |row| {
            (row.kind, row.levels) = (row.levels, row.kind);
        })
    }),
    ("spares of three characters", |rows, buffer| {
        put_lines(rows, buffer, |_, line| {
            format!("{}{} {}", &line[..26], &line[27..30], &line[30..])
        })
    }),
    ("no blanks at the end", |rows, buffer| {
        put_lines(rows, buffer, |_, line| line.trim_end().to_string())
    }),
    ("ids with a sign", |rows, buffer| {
        put_lines(rows, buffer, |_, line| {
            match line[..20].trim().parse::<u64>() {
                Ok(id) => format!("{:>20}{}", id as i64, &line[20..]),
                Err(_) => line.to_string(),
            }
        })
    }),
    ("last rename of 32 bits", |rows, buffer| {
        put_rows(rows, buffer, |row| row.rename &= 0xffff_ffff)
    }),
    ("volumes are flat", |rows, buffer| {
        put_rows(rows, buffer, |row| row.kind %= 2)
    }),
    ("parked bytes of one version", |rows, buffer| {
        let one = |row: &SheetRow| format!("{:>19}", row.bytes);
        put_lines(rows, buffer, |at, line| match at {
            at if (1..=rows.len()).contains(&at) => {
                format!("{}{}{}", &line[..31], one(&rows[at - 1]), &line[50..])
            }
            _ => line.to_string(),
        })
    }),
];

/// Lists printers with wrong totals, lines and refusals.
const OTHERS: [(&str, Printer); 9] = [
    ("totals without the last texture", |rows, buffer| {
        put_totals(rows, buffer, &rows[..rows.len().saturating_sub(1)])
    }),
    ("totals without the first texture", |rows, buffer| {
        put_totals(rows, buffer, &rows[rows.len().min(1)..])
    }),
    ("totals of 0 left blank", |rows, buffer| {
        put_lines(rows, buffer, |at, line| match line.trim() {
            "0                   0" if at == rows.len() + 1 => " ".repeat(72),
            _ => line.to_string(),
        })
    }),
    ("descending ids", |rows, buffer| {
        let rows: Vec<SheetRow> = rows.iter().rev().cloned().collect();
        put(&sheet::text(&rows), buffer)
    }),
    ("an empty pool without totals", |rows, buffer| {
        let text = sheet::text(rows);
        let length = if rows.is_empty() { 73 } else { text.len() };
        put(&text[..length], buffer)
    }),
    ("11 one byte late", |rows, buffer| {
        let text = sheet::text(rows);
        let cut = text.len() - usize::from(buffer.len() + 1 == text.len());
        put(&text[..cut], buffer).map(|_| text.len())
    }),
    ("11 one byte early", |rows, buffer| {
        Refusal::ShortAnswer.when(buffer.len() == sheet::length(rows))?;
        sheet::print(rows, buffer)
    }),
    ("11 alters the buffer", |rows, buffer| {
        let text = sheet::text(rows);
        let fits = buffer.len().min(text.len());
        buffer[..fits].copy_from_slice(&text.as_bytes()[..fits]);
        sheet::print(rows, buffer)
    }),
    ("bytes past the sheet are blanked", |rows, buffer| {
        let length = sheet::print(rows, buffer)?;
        buffer[length..].fill(b' ');
        Ok(length)
    }),
];

#[test]
fn each_fault_is_seen_by_the_stored_questions() {
    let stored = stored();
    let right = answers(sheet::print, stored.as_bytes());
    for (fault, printer) in COLUMNS.iter().chain(&OTHERS) {
        let wrong = answers(*printer, stored.as_bytes());
        assert_ne!(wrong, right, "{fault} is not seen");
    }
}

/// Shows that the functions above alter nothing by themselves: otherwise every fault would be seen, whatever is asked.
#[test]
fn printers_without_a_fault_are_not_seen() {
    let stored = stored();
    let right = answers(sheet::print, stored.as_bytes());
    let same: [Printer; 3] = [
        |rows, buffer| put_lines(rows, buffer, |_, line| line.to_string()),
        |rows, buffer| put_rows(rows, buffer, |_| {}),
        |rows, buffer| put_totals(rows, buffer, rows),
    ];
    for printer in same {
        assert_eq!(answers(printer, stored.as_bytes()), right);
    }
}
