//! Prints the pool sheet of document 02's W-202, from 02's text over the Rust's state: the Rust has no sheet.

use crate::refusal::Refusal;
use crate::texture_versions::inspect::SheetRow;

/// Counts the bytes of a line: 72 characters and a line feed.
pub const LINE_BYTES: usize = 73;

/// Prints the sheet at the front of `buffer` and returns its length. Refuses a buffer that is too short, and leaves it as it is.
pub fn print(rows: &[SheetRow], buffer: &mut [u8]) -> Result<usize, Refusal> {
    Refusal::ShortAnswer.when(buffer.len() < length(rows))?;
    let sheet = text(rows);
    assert_eq!(
        sheet.len(),
        length(rows),
        "a number is wider than its column"
    );
    buffer[..sheet.len()].copy_from_slice(sheet.as_bytes());
    Ok(sheet.len())
}

/// Returns the length of the sheet: a head line, a line for each texture, a line of totals.
pub const fn length(rows: &[SheetRow]) -> usize {
    LINE_BYTES * (rows.len() + 2)
}

/// Returns the whole sheet.
pub fn text(rows: &[SheetRow]) -> String {
    let mut sheet = line(["id", "k", "lv", "sp", "parked", "last"]);
    let (mut spares, mut parked) = (0, 0);
    for row in rows {
        sheet.push_str(&texture_line(row));
        spares += row.spares;
        parked += parked_bytes(row);
    }
    let (spares, parked) = (spares.to_string(), parked.to_string());
    sheet.push_str(&line(["", "", "", &spares, &parked, ""]));
    sheet
}

/// Returns the bytes of a texture's spares, which all have its shape.
pub const fn parked_bytes(row: &SheetRow) -> u64 {
    row.spares * row.bytes
}

fn texture_line(row: &SheetRow) -> String {
    let parked = parked_bytes(row);
    let cells = [row.id, row.kind, row.levels, row.spares, parked, row.rename];
    let [id, kind, levels, spares, parked, last] = cells.map(|number| number.to_string());
    line([&id, &kind, &levels, &spares, &parked, &last])
}

/// Returns a line with the six columns, each aligned to the right, one space between, and the rest blank.
fn line([id, kind, levels, spares, parked, last]: [&str; 6]) -> String {
    let columns = format!("{id:>20} {kind:>1} {levels:>2} {spares:>4} {parked:>19} {last:>15}");
    format!("{columns:<72}\n")
}
