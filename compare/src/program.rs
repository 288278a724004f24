//! Document 01's event program over the published pool.

use crate::event::{self, Call, Event, Plan, Take};
use crate::limited::{LimitedPool, Limits};
use crate::refusal::Refusal;
use crate::shape::RawShape;
use crate::stores::lines::{self as lent, Line};
use crate::text::{push_field, push_number, push_optional};
use crate::texture_versions::inspect::SheetRow;
use crate::texture_versions::{PreserveCopy, UploadFootprint};

/// The program between two lines.
pub struct Program {
    limits: Limits,
    /// Whether document 01's conditions on a pool are tested after every call.
    checks: bool,
    /// Whether the lines are those of our program over lent memory: queries and shapes of twelve numbers too, and a line
    /// `same` after each refusal and query.
    lent: bool,
    /// Lines read so far.
    line: u64,
    /// None before `open`.
    pool: Option<LimitedPool>,
    /// The shape of the latest well-formed take line after `open`, accepted or refused.
    latest: Option<RawShape>,
}

/// What a line is answered with. Views and copies go on lines of their own.
enum Answer {
    /// No call was made.
    Question,
    /// Nothing is printed.
    Silent,
    Refused(Refusal),
    Done,
    Pair(Option<u64>, Option<u64>),
    Number(u64),
    Views(Vec<u64>),
    Copies(Vec<PreserveCopy>),
}

/// Holds a plan that was called: the shape that it went by, and its copies or its refusal.
pub struct Planned {
    pub shape: RawShape,
    pub outcome: Result<Vec<PreserveCopy>, Refusal>,
}

impl Program {
    pub const fn new(limits: Limits, checks: bool) -> Self {
        Self {
            limits,
            checks,
            lent: false,
            line: 0,
            pool: None,
            latest: None,
        }
    }

    /// The same for the lines of our program over lent memory.
    pub const fn lent(limits: Limits) -> Self {
        let mut program = Self::new(limits, false);
        program.lent = true;
        program
    }

    /// The pool, once opened; for tests.
    pub fn pool(&mut self) -> Option<&mut LimitedPool> {
        self.pool.as_mut()
    }

    /// Returns what a pool sheet shows of each texture, in ascending id; none before `open`.
    pub fn sheet_rows(&self) -> Option<Vec<SheetRow>> {
        self.pool.as_ref().map(LimitedPool::sheet_rows)
    }

    /// Runs one line and appends its output lines.
    pub fn run(&mut self, line: &[u8], out: &mut Vec<u8>) {
        let answer = self.answer(line);
        answer.print(self.line, out);
        if self.lent && matches!(answer, Answer::Refused(_) | Answer::Number(_)) {
            push_number(out, self.line);
            out.extend_from_slice(b",same\n");
        }
    }

    /// Runs one line and returns, where it is a plan that is called, what came of it and by which shape.
    pub fn run_plan(&mut self, line: &[u8]) -> Option<Planned> {
        let plan = matches!(event::parse(line), Some(Event::Plan(_)));
        let outcome = match self.answer(line) {
            Answer::Copies(copies) => Ok(copies),
            Answer::Refused(refusal) if plan => Err(refusal),
            _ => return None,
        };
        let shape = self.latest?;
        Some(Planned { shape, outcome })
    }

    /// Counts a line, runs it and tests the pool behind it.
    fn answer(&mut self, line: &[u8]) -> Answer {
        self.line += 1;
        let answer = match event::parse(line) {
            Some(event) => self.call(event),
            None if self.lent => self.call_lent(line),
            None => Answer::Question,
        };
        if self.checks
            && let Some(fault) = self.pool.as_ref().and_then(LimitedPool::fault)
        {
            panic!("{fault}");
        }
        answer
    }

    fn call(&mut self, event: Event) -> Answer {
        let answer = match (event, &mut self.pool) {
            (Event::Open { working_set }, None) => {
                self.pool = Some(LimitedPool::new(working_set, self.limits));
                Ok(Answer::Done)
            }
            (Event::Open { .. }, Some(_)) | (_, None) => Ok(Answer::Question),
            (Event::Take(take), Some(pool)) => {
                self.latest = Some(take.shape);
                call_take(pool, &take)
            }
            (Event::Plan(plan), Some(pool)) => match &self.latest {
                None => Ok(Answer::Question),
                Some(shape) => call_plan(pool, shape, &plan),
            },
            (Event::Other(call), Some(pool)) => call_other(pool, call),
        };
        answer.unwrap_or_else(Answer::Refused)
    }
}

impl Program {
    /// A line of our program over lent memory that is no event.
    fn call_lent(&mut self, line: &[u8]) -> Answer {
        let answer = match (lent::parse(line), &mut self.pool) {
            (Some(Line::Take(take)), Some(pool)) => {
                self.latest = Some(take.shape);
                call_take(pool, &take)
            }
            (Some(Line::Shape(shape)), _) => {
                self.latest = Some(shape);
                Ok(Answer::Silent)
            }
            (Some(Line::Lend), _) => Ok(Answer::Silent),
            (Some(Line::Records { id }), Some(pool)) => {
                Ok(Answer::Number(pool.records_writes(id).into()))
            }
            (Some(Line::Parked), Some(pool)) => Ok(Answer::Number(pool.parked_bytes())),
            (Some(Line::Pending), Some(pool)) => Ok(Answer::Number(pool.pending_destroy_bytes())),
            (_, None) | (None, _) => Ok(Answer::Question),
        };
        answer.unwrap_or_else(Answer::Refused)
    }
}

/// If the Rust itself panics, says at which line.
impl Drop for Program {
    fn drop(&mut self) {
        if std::thread::panicking() {
            eprintln!("events: stopped in line {}", self.line);
        }
    }
}

fn call_take(pool: &mut LimitedPool, take: &Take) -> Result<Answer, Refusal> {
    let spare = pool.take_spare(take.id, &take.shape, take.records, take.seq)?;
    let view = spare.map(|(view, _)| view);
    Ok(Answer::Pair(view, spare.and_then(|(_, held)| held)))
}

fn call_plan(pool: &LimitedPool, shape: &RawShape, plan: &Plan) -> Result<Answer, Refusal> {
    let upload = UploadFootprint::new(plan.slice, plan.level, plan.full_cover);
    pool.preserve_plan(plan.id, shape, plan.held, &upload)
        .map(Answer::Copies)
}

fn call_other(pool: &mut LimitedPool, call: Call) -> Result<Answer, Refusal> {
    match call {
        Call::Retire { id, view, seq } => pool.retire(id, view, seq).map(done),
        Call::Write(write) => pool
            .note_write(write.id, write.slice, write.level, &write.rect)
            .map(done),
        Call::Regen { id } => pool.note_mip_regeneration(id).map(done),
        Call::Pop { settled } => {
            let popped = pool.pop_retired(settled)?;
            Ok(Answer::Pair(
                popped.map(|(id, _)| id),
                popped.map(|(_, view)| view),
            ))
        }
        Call::Park { failed, now } => pool.park(failed, now).map(done),
        Call::Note { allocated } => {
            pool.note_allocated(allocated);
            Ok(Answer::Done)
        }
        Call::Doomed => pool.take_doomed().map(Answer::Views),
        Call::Drain => pool.drain_versions().map(Answer::Views),
        Call::Trim { now } => pool.trim(now).map(done),
        Call::Forget { id } => {
            pool.forget_texture(id);
            Ok(Answer::Done)
        }
    }
}

/// The answer of a call that answers nothing.
fn done((): ()) -> Answer {
    Answer::Done
}

impl Answer {
    fn print(&self, line: u64, out: &mut Vec<u8>) {
        if matches!(self, Self::Silent) {
            return;
        }
        push_number(out, line);
        match self {
            Self::Question => out.extend_from_slice(b",?"),
            Self::Refused(refusal) => push_field(out, refusal.number()),
            _ => push_field(out, 0),
        }
        match self {
            Self::Question | Self::Silent | Self::Refused(_) | Self::Done => {}
            Self::Number(number) => push_field(out, *number),
            Self::Pair(first, second) => {
                push_optional(out, *first);
                push_optional(out, *second);
            }
            Self::Views(views) => push_field(out, views.len() as u64),
            Self::Copies(copies) => push_field(out, copies.len() as u64),
        }
        out.push(b'\n');
        match self {
            Self::Views(views) => print_views(views, line, out),
            Self::Copies(copies) => print_copies(copies, line, out),
            _ => {}
        }
    }
}

fn print_views(views: &[u64], line: u64, out: &mut Vec<u8>) {
    for view in views {
        push_number(out, line);
        push_field(out, *view);
        out.push(b'\n');
    }
}

fn print_copies(copies: &[PreserveCopy], line: u64, out: &mut Vec<u8>) {
    for copy in copies {
        push_number(out, line);
        push_field(out, u64::from(copy.slice()));
        push_field(out, u64::from(copy.level()));
        match copy.region() {
            None => out.extend_from_slice(b",-,-,-,-"),
            Some(region) => {
                for number in [region.x(), region.y(), region.width(), region.height()] {
                    push_field(out, u64::from(number));
                }
            }
        }
        out.push(b'\n');
    }
}
