//! Each call made on both sides over like buffers, and compared whole.

use crate::model;
use generate::{job_case, streams_case, text_case, Random};
use std::fmt::{Debug, Write};

#[cfg(not(feature = "linked"))]
use crate::written_again as other;
#[cfg(feature = "linked")]
use hailspindle::calls as other;

/// What one side answered: the number, and every lent buffer afterwards.
struct Side {
    number: u64,
    numbers: Vec<i32>,
    bytes: Vec<u8>,
    lengths: Vec<usize>,
    figures: Vec<u64>,
}

/// The buffers lent to a side, with the same content for both.
struct Lent {
    numbers: usize,
    bytes: usize,
    lengths: usize,
}

/// Makes the cases of a seed and compares every call. The answer is the run's refusal number, 0
/// for a value; where the sides disagree it tells how.
pub fn compare_case(seed: u64) -> Result<u64, String> {
    let case = job_case(seed);
    let sizes = format!("{} elements and {} answer bytes lent", case.elements, case.answer);
    let lent = Lent { numbers: case.elements, bytes: case.answer, lengths: 0 };
    let number = compare(
        seed,
        &lent,
        |side| model::run(&case.job, &mut side.numbers, &mut side.bytes, &mut side.figures),
        |side| other::run(&case.job, &mut side.numbers, &mut side.bytes, &mut side.figures),
        || format!("run, {sizes}, job {}", hexadecimal(&case.job)),
    )?;

    let lent = Lent { numbers: 0, bytes: case.listing, lengths: 0 };
    compare(
        seed,
        &lent,
        |side| model::list(&case.formula, &mut side.bytes, &mut side.figures),
        |side| other::list(&case.formula, &mut side.bytes, &mut side.figures),
        || format!("list, {} bytes lent, formula {}", case.listing, hexadecimal(&case.formula)),
    )?;

    let nothing = Lent { numbers: 0, bytes: 0, lengths: 0 };
    compare(
        seed,
        &nothing,
        |side| model::check(&case.formula, &mut side.figures),
        |side| other::check(&case.formula, &mut side.figures),
        || format!("check, formula {}", hexadecimal(&case.formula)),
    )?;
    compare(
        seed,
        &nothing,
        |side| model::find(&case.job, case.input, &mut side.figures),
        |side| other::find(&case.job, case.input, &mut side.figures),
        || format!("find input {}, job {}", case.input, hexadecimal(&case.job)),
    )?;

    compare_conversions(seed)?;
    Ok(number)
}

fn compare_conversions(seed: u64) -> Result<(), String> {
    let case = text_case(seed);
    let (base, depth) = (model::base_number(case.value_type.base), case.value_type.depth);
    let text = &case.text;
    let lent = Lent { numbers: case.elements, bytes: 0, lengths: case.lengths };
    compare(
        seed,
        &lent,
        |side| {
            let (elements, lengths) = (&mut side.numbers, &mut side.lengths);
            model::text_to_streams(text, base, depth, elements, lengths, &mut side.figures)
        },
        |side| {
            let (elements, lengths) = (&mut side.numbers, &mut side.lengths);
            other::text_to_streams(text, base, depth, elements, lengths, &mut side.figures)
        },
        || {
            let sizes = format!("{} elements and {} lengths lent", case.elements, case.lengths);
            let text = hexadecimal(text);
            format!("text to streams, base {base}, depth {depth}, {sizes}, text {text}")
        },
    )?;

    let case = streams_case(seed);
    let (base, depth) = (model::base_number(case.value_type.base), case.value_type.depth);
    let lent = Lent { numbers: 0, bytes: case.answer, lengths: 0 };
    let (elements, lengths) = (&case.elements, &case.lengths);
    compare(
        seed,
        &lent,
        |side| {
            let (answer, figures) = (&mut side.bytes, &mut side.figures);
            model::streams_to_text(elements, lengths, base, depth, answer, figures)
        },
        |side| {
            let (answer, figures) = (&mut side.bytes, &mut side.figures);
            other::streams_to_text(elements, lengths, base, depth, answer, figures)
        },
        || {
            let sizes = format!("{} answer bytes lent", case.answer);
            let streams = format!("{lengths:?}, {elements:?}");
            format!("streams to text, base {base}, depth {depth}, {sizes}, {streams}")
        },
    )?;
    Ok(())
}

/// The job of a seed, for a case that stopped the program.
pub fn describe_case(seed: u64) -> String {
    let case = job_case(seed);
    let (elements, answer) = (case.elements, case.answer);
    let sizes = format!("{elements} elements and {answer} answer bytes lent");
    format!("job {}\nformula {}\n{sizes}", hexadecimal(&case.job), hexadecimal(&case.formula))
}

/// Makes a call on both sides; the number answered, or how the sides differ.
fn compare(
    seed: u64,
    lent: &Lent,
    model_call: impl Fn(&mut Side) -> u64,
    other_call: impl Fn(&mut Side) -> u64,
    describe: impl Fn() -> String,
) -> Result<u64, String> {
    let mut model = Side::new(seed, lent);
    model.number = model_call(&mut model);
    let mut other = Side::new(seed, lent);
    other.number = other_call(&mut other);
    let mut report = String::new();
    if model.number != other.number {
        report.push_str("  the answers differ\n");
    }
    report_difference(&mut report, "figures", &model.figures, &other.figures);
    report_difference(&mut report, "number buffer", &model.numbers, &other.numbers);
    report_difference(&mut report, "byte buffer", &model.bytes, &other.bytes);
    report_difference(&mut report, "length buffer", &model.lengths, &other.lengths);
    if report.is_empty() {
        return Ok(model.number);
    }
    let (model, other) = (model.describe(), other.describe());
    Err(format!("{}\n{report}  model: {model}\n  other: {other}", describe()))
}

fn report_difference<Element: PartialEq + Debug>(
    report: &mut String,
    name: &str,
    model: &[Element],
    other: &[Element],
) {
    if let Some(place) = (0..model.len()).find(|place| model[*place] != other[*place]) {
        let (model, other) = (&model[place], &other[place]);
        let _ = writeln!(report, "  the {name} at {place}: model {model:?}, other {other:?}");
    }
}

impl Side {
    /// The figures lent are none to six, so that some calls have room for all of theirs and more.
    fn new(seed: u64, lent: &Lent) -> Side {
        let mut random = Random::new(seed);
        let figures = random.below(7);
        Side {
            number: 0,
            numbers: (0..lent.numbers).map(|_| random.number() as i32).collect(),
            bytes: (0..lent.bytes).map(|_| random.number() as u8).collect(),
            lengths: (0..lent.lengths).map(|_| random.number() as usize).collect(),
            figures: (0..figures).map(|_| random.number()).collect(),
        }
    }

    fn describe(&self) -> String {
        let (number, figures) = (self.number, &self.figures);
        let shown = |text: &[u8]| String::from_utf8_lossy(text).into_owned();
        let bytes = figures.first().and_then(|count| self.bytes.get(..*count as usize));
        match (number, bytes) {
            (0, Some(bytes)) => format!("accepted, figures {figures:?}, text {}", shown(bytes)),
            (0, None) => format!("accepted, figures {figures:?}"),
            _ => format!("refused {number}, figures {figures:?}"),
        }
    }
}

fn hexadecimal(bytes: &[u8]) -> String {
    bytes.iter().map(|byte| format!("{byte:02x}")).collect()
}

#[cfg(test)]
mod tests {
    use super::*;

    #[test]
    fn a_hundred_cases_agree() {
        for seed in 0..100 {
            assert_eq!(compare_case(seed).err(), None);
        }
    }

    #[test]
    fn a_changed_buffer_is_a_disagreement() {
        let lent = Lent { numbers: 3, bytes: 2, lengths: 0 };
        let write_last = |side: &mut Side| {
            side.numbers[2] ^= 1;
            0
        };
        let report = compare(9, &lent, |_| 0, write_last, || "call".to_string());
        assert!(report.unwrap_err().contains("number buffer at 2"));
        assert_eq!(compare(9, &lent, |_| 0, |_| 0, || "call".to_string()), Ok(0));
    }

    #[test]
    fn another_answer_is_a_disagreement() {
        let lent = Lent { numbers: 0, bytes: 0, lengths: 0 };
        let report = compare(9, &lent, |_| 0, |_| 8, || "call".to_string()).unwrap_err();
        assert!(report.contains("model: accepted"), "{report}");
        assert!(report.contains("other: refused 8"), "{report}");
    }
}
