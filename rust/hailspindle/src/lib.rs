//! Hailspindle for Rust: formulas over nested lists, checked, listed and run by the verified
//! library.
//!
//! Every buffer is the caller's: a call that is refused answers a [`Refusal`], and a buffer is
//! changed only where the call's documentation says so. `include/hailspindle.h` documents the same
//! calls for C, and `docs/LANGUAGE.md` what a formula and a job are.

#![deny(unsafe_code)]
#![forbid(missing_docs)]

#[allow(unsafe_code)]
pub mod calls;
mod refusal;
mod value_type;

pub use refusal::Refusal;
pub use value_type::{Base, Type};

/// The elements of a stream buffer that a run can use; more may be lent and are left alone.
pub const STREAM_ELEMENTS: usize = 16_384;

/// The bytes that a formula or a job may have.
pub const JOB_BYTES: usize = 65_536;

/// The bytes that the run program lends for an answer and the list program for a listing. No job and
/// no formula is known that needs more; where one does, the refusal's place is the bytes it needs.
pub const TEXT_BYTES: usize = 65_536;

/// The most lengths of a value's streams, one more than the deepest depth.
pub const LENGTHS: usize = 9;

/// What an accepted run tells beside what it writes.
#[derive(Clone, Copy, Debug, PartialEq, Eq)]
pub struct Counts {
    /// The bytes of the answer's text.
    pub text_bytes: usize,
    /// The work: the charge over every evaluation.
    pub work: u64,
    /// The transducers executed.
    pub steps: u64,
    /// The stream elements held, inputs counted.
    pub room: u64,
}

/// Runs a job. The answer's text stands at the start of `answer` and the run's streams, one after
/// another, at the start of `streams`; what lies behind keeps its content.
///
/// After refusals 1 to 7 nothing is written. After 8, 9 and 10 `answer` is untouched and the first
/// [`STREAM_ELEMENTS`] of `streams` are zero.
pub fn run(job: &[u8], streams: &mut [i32], answer: &mut [u8]) -> Result<Counts, Refusal> {
    let mut figures = [0; 4];
    let number = calls::run(job, streams, answer, &mut figures);
    let [text_bytes, work, steps, room] = accepted(number, figures)?;
    Ok(Counts { text_bytes: text_bytes as usize, work, steps, room })
}

/// Writes the instructions that a formula becomes to the start of `text`, and answers the
/// listing's bytes. Refused, nothing is written.
pub fn list(formula: &[u8], text: &mut [u8]) -> Result<usize, Refusal> {
    let mut figures = [0];
    let number = calls::list(formula, text, &mut figures);
    accepted(number, figures).map(|[bytes]| bytes as usize)
}

/// The type of a formula.
pub fn check(formula: &[u8]) -> Result<Type, Refusal> {
    let mut figures = [0; 2];
    let number = calls::check(formula, &mut figures);
    let [depth, base] = accepted(number, figures)?;
    Ok(Type { base: Base::of(base), depth: depth as u8 })
}

/// The part of the job's own bytes that holds the text of an input, counted from 0. It is empty
/// where there is no such input or the job is refused by 1 to 4.
pub fn find(job: &[u8], input: usize) -> &[u8] {
    let mut figures = [0; 2];
    calls::find(job, input, &mut figures);
    let [start, bytes] = figures.map(|figure| figure as usize);
    &job[start..start + bytes]
}

/// Writes the streams of a value of this type, data first and outermost flags last, to `elements`
/// and their lengths, one more than the depth, to `lengths`, and answers how many elements they have
/// in all. Refused, nothing is written.
pub fn text_to_streams(
    text: &[u8],
    value_type: Type,
    elements: &mut [i32],
    lengths: &mut [usize],
) -> Result<usize, Refusal> {
    let mut figures = [0];
    let (base, depth) = (value_type.base.number(), value_type.depth);
    let number = calls::text_to_streams(text, base, depth, elements, lengths, &mut figures);
    accepted(number, figures).map(|[elements]| elements as usize)
}

/// Writes the text of the value of this type that streams represent to the start of `answer`, and
/// answers its bytes. `elements` are all of the streams' elements and `lengths` are as [`text_to_streams`]
/// writes them. Refused, nothing is written.
pub fn streams_to_text(
    elements: &[i32],
    lengths: &[usize],
    value_type: Type,
    answer: &mut [u8],
) -> Result<usize, Refusal> {
    let mut figures = [0];
    let (base, depth) = (value_type.base.number(), value_type.depth);
    let number = calls::streams_to_text(elements, lengths, base, depth, answer, &mut figures);
    accepted(number, figures).map(|[bytes]| bytes as usize)
}

fn accepted<const COUNT: usize>(
    number: u64,
    figures: [u64; COUNT],
) -> Result<[u64; COUNT], Refusal> {
    match number {
        0 => Ok(figures),
        _ => Err(Refusal::new(number, figures[0])),
    }
}
