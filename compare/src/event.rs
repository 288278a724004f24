//! One line of the event program, read.

use crate::shape::RawShape;
use crate::text::Fields;
use crate::texture_versions::TexelRect;

/// A well-formed line.
pub enum Event {
    Open { working_set: u64 },
    Take(Take),
    Plan(Plan),
    Other(Call),
}

/// A take line. Its shape is that of the plans that follow.
pub struct Take {
    pub id: u64,
    pub shape: RawShape,
    pub records: bool,
    pub seq: u64,
}

/// A plan line.
pub struct Plan {
    pub id: u64,
    pub held: Option<u64>,
    /// The upload's slice and level, and whether it rewrites that whole level.
    pub slice: u32,
    pub level: u32,
    pub full_cover: bool,
}

/// The lines that need an open pool and nothing else.
pub enum Call {
    Retire { id: u64, view: u64, seq: u64 },
    Write(Write),
    Regen { id: u64 },
    Pop { settled: u64 },
    Park { failed: u64, now: u64 },
    Note { allocated: u64 },
    Doomed,
    Drain,
    Trim { now: u64 },
    Forget { id: u64 },
}

/// A write line.
pub struct Write {
    pub id: u64,
    pub slice: u32,
    pub level: u32,
    pub rect: TexelRect,
}

/// The event that a line names, or none if the line is not well formed.
pub fn parse(line: &[u8]) -> Option<Event> {
    let mut fields = Fields::new(line);
    let f = &mut fields;
    let event = match f.next_field()? {
        b"open" => Event::Open {
            working_set: f.next_u64()?,
        },
        b"take" => Event::Take(take(f)?),
        b"plan" => Event::Plan(plan(f)?),
        word => Event::Other(call(word, f)?),
    };
    fields.finish(event)
}

fn take(f: &mut Fields) -> Option<Take> {
    Some(Take {
        id: f.next_u64()?,
        shape: shape(f)?,
        records: f.next_flag()?,
        seq: f.next_u64()?,
    })
}

fn plan(f: &mut Fields) -> Option<Plan> {
    Some(Plan {
        id: f.next_u64()?,
        held: f.next_or_none()?,
        slice: f.next_u32()?,
        level: f.next_u32()?,
        full_cover: f.next_flag()?,
    })
}

fn call(word: &[u8], f: &mut Fields) -> Option<Call> {
    Some(match word {
        b"retire" => Call::Retire {
            id: f.next_u64()?,
            view: f.next_u64()?,
            seq: f.next_u64()?,
        },
        b"write" => Call::Write(write(f)?),
        b"regen" => Call::Regen { id: f.next_u64()? },
        b"pop" => Call::Pop {
            settled: f.next_u64()?,
        },
        b"park" => Call::Park {
            failed: f.next_u64()?,
            now: f.next_u64()?,
        },
        b"note" => Call::Note {
            allocated: f.next_u64()?,
        },
        b"doomed" => Call::Doomed,
        b"drain" => Call::Drain,
        b"trim" => Call::Trim { now: f.next_u64()? },
        b"forget" => Call::Forget { id: f.next_u64()? },
        _ => return None,
    })
}

fn write(f: &mut Fields) -> Option<Write> {
    Some(Write {
        id: f.next_u64()?,
        slice: f.next_u32()?,
        level: f.next_u32()?,
        rect: rect(f)?,
    })
}

/// The six shape fields: format, width, height, depth, levels, kind.
pub fn shape(f: &mut Fields) -> Option<RawShape> {
    Some(RawShape {
        format: f.next_u64()?,
        width: f.next_u32()?,
        height: f.next_u32()?,
        depth: f.next_u32()?,
        levels: f.next_u32()?,
        kind: f.next_u64()?,
        compared: [0; 6],
    })
}

/// Left, top, width and height.
pub fn rect(f: &mut Fields) -> Option<TexelRect> {
    let (x, y) = (f.next_u32()?, f.next_u32()?);
    Some(TexelRect::new(x, y, f.next_u32()?, f.next_u32()?))
}
