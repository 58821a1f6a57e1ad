//! The other side where no library is linked: the model on bytes written to notation and back.
//!
//! A smoke test only: it shows that the comparison runs and that notation loses nothing.

use crate::model;

pub use model::{streams_to_text, text_to_streams};

pub fn run(job: &[u8], streams: &mut [i32], answer: &mut [u8], figures: &mut [u64]) -> u64 {
    model::run(&written_again(job), streams, answer, figures)
}

pub fn list(formula: &[u8], text: &mut [u8], figures: &mut [u64]) -> u64 {
    model::list(&written_again(formula), text, figures)
}

pub fn check(formula: &[u8], figures: &mut [u64]) -> u64 {
    model::check(&written_again(formula), figures)
}

pub fn find(job: &[u8], input: usize, figures: &mut [u64]) -> u64 {
    model::find(&written_again(job), input, figures)
}

/// The same bytes by way of notation; bytes that have no notation stay as they are.
fn written_again(bytes: &[u8]) -> Vec<u8> {
    let Ok(shown) = notation::show(bytes) else { return bytes.to_vec() };
    let mut lines = shown.lines();
    let formula = lines.next().expect("a line for the formula");
    let texts: Vec<&str> = lines.collect();
    let written =
        if texts.is_empty() { notation::formula(formula) } else { notation::job(formula, &texts) };
    written.unwrap_or_else(|error| panic!("what is shown can be read back: {error}"))
}
