//! Random jobs and conversions from a seed, to be run by the model and by the library.
//!
//! The same seed always makes the same case. Most formulas are well typed, a quarter of them with
//! guards in the shapes that matter; some are mangled, and some stand at a limit or one past it. Buffers are lent in the sizes that matter: what the case
//! needs, one less, one more, none.

#![forbid(unsafe_code)]

mod conditions;
mod conversions;
mod edges;
mod formulas;
mod guards;
mod mangle;
mod random;
mod values;

pub use conversions::{streams_case, text_case, StreamsCase, TextCase};
pub use random::Random;

use reference::limits;
use reference::record::Record;

/// A job and its formula, with what is lent to run the one and list the other.
#[derive(Clone, Debug, PartialEq, Eq)]
pub struct JobCase {
    pub job: Vec<u8>,
    pub formula: Vec<u8>,
    pub elements: usize,
    pub answer: usize,
    pub listing: usize,
    /// An input to find.
    pub input: usize,
}

/// The records of a random well-typed formula, and a value text for each input.
pub fn well_typed(seed: u64) -> (Vec<Record>, Vec<Vec<u8>>) {
    formula_and_texts(&mut Random::new(seed))
}

fn formula_and_texts(random: &mut Random) -> (Vec<Record>, Vec<Vec<u8>>) {
    if random.one_in(4) {
        conditions::formula_and_texts(random)
    } else {
        formulas::formula_and_texts(random)
    }
}

/// The job case of a seed.
pub fn job_case(seed: u64) -> JobCase {
    let mut random = Random::new(seed);
    let (job, formula) = if random.one_in(40) {
        edges::job_and_formula(&mut random)
    } else {
        let (records, texts) = formula_and_texts(&mut random);
        match random.below(10) {
            0 => mangle::bytes_of_job_and_formula(&mut random, &records, &texts),
            1 | 2 => mangle::records_of_job_and_formula(&mut random, records, texts),
            _ => job_and_formula(&records, &texts),
        }
    };
    let (elements, answer) = run_sizes(&mut random, &job);
    let listing = listing_size(&mut random, &formula);
    let input = match random.below(20) {
        0 => usize::MAX,
        1..=4 => random.below(limits::INPUTS as u64 + 2) as usize,
        _ => random.below(4) as usize,
    };
    JobCase { job, formula, elements, answer, listing, input }
}

/// The bytes of a job and of its formula alone.
fn job_and_formula(records: &[Record], texts: &[Vec<u8>]) -> (Vec<u8>, Vec<u8>) {
    let formula = Record::write_all(records);
    let mut job = formula.clone();
    for text in texts {
        Record::Value { text: text.clone() }.write(&mut job);
    }
    (job, formula)
}

fn run_sizes(random: &mut Random, job: &[u8]) -> (usize, usize) {
    let plenty = (limits::STREAM_ELEMENTS, limits::ANSWER_BYTES);
    match reference::run(job, plenty.0, plenty.1) {
        Ok(answer) => (
            size_near(random, answer.room as usize, plenty.0),
            size_near(random, answer.text.len(), plenty.1),
        ),
        Err(_) => (size_near(random, 20, plenty.0), size_near(random, 5, plenty.1)),
    }
}

fn listing_size(random: &mut Random, formula: &[u8]) -> usize {
    let needed = reference::list(formula, usize::MAX).map_or(0, |text| text.len());
    size_near(random, needed, limits::ANSWER_BYTES)
}

/// A size that is plenty, or near what is needed, or past the plenty.
fn size_near(random: &mut Random, needed: usize, plenty: usize) -> usize {
    match random.below(12) {
        0..=3 => plenty,
        4 => needed,
        5 => needed.saturating_sub(1),
        6 => needed + 1,
        7 => random.below(needed as u64 + 1) as usize,
        8 => random.below(2) as usize,
        9 => plenty + 1 + random.below(5) as usize,
        _ => needed + random.below(100) as usize,
    }
}

#[cfg(test)]
mod tests {
    use super::*;
    use std::collections::BTreeMap;

    #[test]
    fn a_seed_makes_one_case() {
        for seed in 0..200 {
            assert_eq!(job_case(seed), job_case(seed));
            assert_eq!(text_case(seed), text_case(seed));
            assert_eq!(streams_case(seed), streams_case(seed));
        }
    }

    #[test]
    fn well_typed_formulas_check() {
        for seed in 0..2_000 {
            let (records, texts) = well_typed(seed);
            let (job, formula) = job_and_formula(&records, &texts);
            assert!(reference::check(&formula).is_ok(), "seed {seed}");
            let refused = reference::run(&job, 16_384, 65_536).err().map(|refusal| refusal.number);
            assert!(matches!(refused, None | Some(8) | Some(9)), "seed {seed}: {refused:?}");
        }
    }

    #[test]
    fn jobs_meet_every_outcome_and_most_are_answered() {
        let mut outcomes = BTreeMap::new();
        for seed in 0..6_000 {
            let case = job_case(seed);
            let outcome = reference::run(&case.job, case.elements, case.answer);
            *outcomes.entry(outcome.map_or_else(|refusal| refusal.number, |_| 0)).or_insert(0) += 1;
        }
        assert!((0..=10).all(|number| outcomes.contains_key(&number)), "{outcomes:?}");
        assert!(outcomes[&0] > 2_000, "{outcomes:?}");
    }

    #[test]
    fn conversions_meet_every_outcome() {
        let mut to_streams = BTreeMap::new();
        let mut to_text = BTreeMap::new();
        for seed in 0..3_000 {
            let case = text_case(seed);
            let outcome = reference::text_to_streams(
                &case.text,
                case.value_type,
                case.elements,
                case.lengths,
            );
            *to_streams.entry(outcome.map_or_else(|refusal| refusal.number, |_| 0)).or_insert(0) +=
                1;
            let case = streams_case(seed);
            let outcome = reference::streams_to_text(
                &case.elements,
                &case.lengths,
                case.value_type,
                case.answer,
            );
            *to_text.entry(outcome.map_or_else(|refusal| refusal.number, |_| 0)).or_insert(0) += 1;
        }
        assert_eq!(to_streams.keys().copied().collect::<Vec<u32>>(), [0, 3, 7, 9]);
        assert_eq!(to_text.keys().copied().collect::<Vec<u32>>(), [0, 3, 10, 11]);
    }
}
