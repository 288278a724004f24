//! Makes a list on which two programs differ short: lines are left out until none can be.

use std::time::{Duration, Instant};

/// Lines with their line feeds; the last may lack it.
pub fn pieces(list: &[u8]) -> Vec<&[u8]> {
    list.split_inclusive(|byte| *byte == b'\n').collect()
}

/// A list on which `differ` still holds and from which no line can be left out, or the shortest found in the time.
pub fn shrink<'a>(
    list: &'a [u8],
    time: Duration,
    mut differ: impl FnMut(&[u8]) -> bool,
) -> Vec<&'a [u8]> {
    let end = Instant::now() + time;
    let mut left = pieces(list);
    let mut chunk = left.len();
    while chunk > 0 && Instant::now() < end {
        let mut shorter = false;
        // From the end on: what follows the difference goes first.
        let mut at = left.len();
        while at > 0 && Instant::now() < end {
            let from = at.saturating_sub(chunk);
            let without = [&left[..from], &left[at..]].concat();
            if !without.is_empty() && differ(&without.concat()) {
                left = without;
                shorter = true;
            }
            at = from;
        }
        if !shorter || chunk > 1 {
            chunk = if chunk == 1 {
                0
            } else {
                chunk.div_ceil(2).min(left.len())
            };
        }
    }
    left
}

/// How many lines of the list lead to the first line of output that differs.
pub fn lines_to_difference(one: &[u8], other: &[u8]) -> Option<u64> {
    let (mut ones, mut others) = (pieces(one).into_iter(), pieces(other).into_iter());
    loop {
        let (one, other) = (ones.next(), others.next());
        if one != other {
            return number(one).max(number(other));
        }
        one?;
    }
}

/// The line number that an output line begins with.
fn number(line: Option<&[u8]>) -> Option<u64> {
    let field = line?.split(|byte| !byte.is_ascii_digit()).next()?;
    crate::text::number(field)
}
