//! The model's answers in the form of the library's C functions: a number, and figures written to
//! a lent slice as far as it goes.

use reference::{lent, Base, Refusal, Type};

pub fn run(job: &[u8], streams: &mut [i32], answer: &mut [u8], figures: &mut [u64]) -> u64 {
    let counts = lent::run(job, streams, answer);
    let told = counts.map(|counts| [counts.text_bytes, counts.work, counts.steps, counts.room]);
    reply(told, figures)
}

pub fn list(formula: &[u8], text: &mut [u8], figures: &mut [u64]) -> u64 {
    reply(lent::list(formula, text).map(|bytes| [bytes]), figures)
}

pub fn check(formula: &[u8], figures: &mut [u64]) -> u64 {
    let told = |checked: Type| [u64::from(checked.depth), u64::from(base_number(checked.base))];
    reply(reference::check(formula).map(told), figures)
}

/// The number that stands for a base: 0 for ints and 1 for bools.
pub fn base_number(base: Base) -> u8 {
    match base {
        Base::Int => 0,
        Base::Bool => 1,
    }
}

fn type_of(base: u8, depth: u8) -> Type {
    match base {
        0 => Type::ints(depth),
        _ => Type::bools(depth),
    }
}

pub fn find(job: &[u8], input: usize, figures: &mut [u64]) -> u64 {
    let part = reference::find(job, input);
    reply(Ok([part.start as u64, part.len() as u64]), figures)
}

pub fn text_to_streams(
    text: &[u8],
    base: u8,
    depth: u8,
    elements: &mut [i32],
    lengths: &mut [usize],
    figures: &mut [u64],
) -> u64 {
    let count = lent::text_to_streams(text, type_of(base, depth), elements, lengths);
    reply(count.map(|count| [count]), figures)
}

pub fn streams_to_text(
    elements: &[i32],
    lengths: &[usize],
    base: u8,
    depth: u8,
    answer: &mut [u8],
    figures: &mut [u64],
) -> u64 {
    let bytes = lent::streams_to_text(elements, lengths, type_of(base, depth), answer);
    reply(bytes.map(|bytes| [bytes]), figures)
}

/// A refusal's first figure is its place, and the others are 0.
fn reply<const COUNT: usize>(answer: Result<[u64; COUNT], Refusal>, figures: &mut [u64]) -> u64 {
    let (number, told) = match answer {
        Ok(told) => (0, told),
        Err(refusal) => {
            let mut told = [0; COUNT];
            told[0] = refusal.place;
            (u64::from(refusal.number), told)
        }
    };
    for (figure, value) in figures.iter_mut().zip(told) {
        *figure = value;
    }
    number
}
