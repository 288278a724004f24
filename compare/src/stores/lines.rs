//! Lines of our program over lent memory that are no events, as far as the Rust can answer them.

use crate::event::{Take, shape};
use crate::shape::RawShape;
use crate::text::Fields;

/// A well-formed line.
pub enum Line {
    /// A take with all twelve numbers of a shape.
    Take(Take),
    /// The shape that plans go by from here on.
    Shape(RawShape),
    /// The pacing book is lent from here on, which the Rust does not know.
    Lend,
    Records {
        id: u64,
    },
    Parked,
    Pending,
}

/// What a line asks for, or none if it is not well formed.
pub fn parse(line: &[u8]) -> Option<Line> {
    let mut fields = Fields::new(line);
    let f = &mut fields;
    let line = match f.next_field()? {
        b"take" => Line::Take(Take {
            id: f.next_u64()?,
            shape: whole_shape(f)?,
            records: f.next_flag()?,
            seq: f.next_u64()?,
        }),
        b"shape" => Line::Shape(whole_shape(f)?),
        b"lend" => Line::Lend,
        b"records" => Line::Records { id: f.next_u64()? },
        b"parked" => Line::Parked,
        b"pending" => Line::Pending,
        _ => return None,
    };
    fields.finish(line)
}

/// The twelve numbers of a shape; the last six are below 256 here.
fn whole_shape(f: &mut Fields) -> Option<RawShape> {
    let mut whole = shape(f)?;
    for number in &mut whole.compared {
        *number = f.next_u64()?.try_into().ok()?;
    }
    Some(whole)
}
