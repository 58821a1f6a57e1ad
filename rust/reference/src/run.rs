//! A whole run of a job: all refusals in order, the answer and its counts.

use crate::evaluate::{evaluate, WithoutValue};
use crate::formula::read_job;
use crate::limits;
use crate::machine;
use crate::refusal::Refusal;
use crate::representation::{streams_of, value_of};
use crate::translate::translate;
use crate::types::check_formula;
use crate::value::Value;

/// What an accepted run gives. `streams` is what the stream buffer's first `room` elements hold.
#[derive(Clone, Debug, PartialEq, Eq)]
pub struct Answer {
    pub text: Vec<u8>,
    pub work: u64,
    pub steps: u64,
    pub room: u64,
    pub streams: Vec<i32>,
}

/// Runs a job, with so many stream elements and answer bytes lent.
///
/// Value, work and steps come from the evaluation, room, streams, 8 and 9 from the machine.
pub fn run(job: &[u8], elements_lent: usize, answer_lent: usize) -> Result<Answer, Refusal> {
    let read = read_job(job)?;
    let answer_type = check_formula(&read.formula)?;
    let mut values = Vec::new();
    for (input, part) in read.formula.inputs.iter().zip(&read.values) {
        let value = Value::read(&job[part.text.clone()], input.value_type);
        values.push(value.ok_or(Refusal::new(7, part.offset))?);
    }
    let inputs = read.formula.inputs.iter().zip(&values);
    let input_streams = inputs.map(|(input, value)| streams_of(value, input.value_type)).collect();
    let program = translate(&read.formula);
    let finished = match machine::run(&program, input_streams, elements_lent) {
        Ok(finished) => finished,
        Err(refusal) => {
            debug_assert!(
                refusal.number == 9 || evaluate(&read.formula, &values).is_err(),
                "8 is given only where the rules give no value"
            );
            return Err(refusal);
        }
    };
    let evaluation = match evaluate(&read.formula, &values) {
        Ok(evaluation) => evaluation,
        Err(WithoutValue::NoValue) => panic!("the streams ran through where there is no value"),
        Err(WithoutValue::TooLarge) => panic!("the streams held what is too large for them"),
    };
    let result_streams = finished.tree(&program.result);
    debug_assert_eq!(result_streams.len(), answer_type.depth as usize + 1, "of the type's depth");
    let represented = value_of(&result_streams, answer_type.base);
    debug_assert_eq!(Ok(&evaluation.value), represented.as_ref());
    debug_assert_eq!(evaluation.work, finished.work);
    debug_assert!(evaluation.work <= limits::FACTOR * evaluation.plain, "demand 3's bound");
    debug_assert_eq!(evaluation.steps, finished.steps);
    let text = evaluation.value.write();
    if text.len() > answer_lent {
        return Err(Refusal::new(10, text.len()));
    }
    let streams = finished.buffer();
    debug_assert_eq!(streams.len(), finished.room);
    Ok(Answer {
        text,
        work: evaluation.work,
        steps: evaluation.steps,
        room: finished.room as u64,
        streams,
    })
}
