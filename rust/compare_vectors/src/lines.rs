//! The vector lines of a random case, with the model's answers.

use generate::{job_case, streams_case, text_case};
use reference::vectors::{answer, hexadecimal, joined, KINDS};
use reference::Base;

/// The characters of an input: two for each of the 4,096 bytes that the program reads of a field.
const INPUT: usize = 8_192;
/// The bytes of an output that the program reads.
const OUTPUT: usize = 4_096;

/// A line of one of the kinds, by its number.
#[derive(Clone, Debug, PartialEq, Eq)]
pub struct Line {
    pub kind: usize,
    pub input: String,
    pub output: String,
}

impl Line {
    fn new(input: String) -> Line {
        let word = input.split(' ').next().expect("a kind's word");
        // The program counts a conversion of bools with those of ints.
        let word = word.strip_suffix('b').unwrap_or(word);
        let kind = KINDS.iter().position(|kind| *kind == word).expect("a kind's word");
        let output = answer(&input);
        Line { kind, input, output }
    }

    /// Whether the program reads all of it.
    pub fn fits(&self) -> bool {
        self.input.len() <= INPUT && self.output.len() <= OUTPUT
    }

    /// The line as the program reads it.
    pub fn text(&self) -> String {
        format!("{} | {}\n", self.input, self.output.replace('\n', "\\n"))
    }

    /// The number of the refusal that it names, 0 where it names none.
    pub fn refusal(&self) -> u32 {
        let number = self.output.strip_prefix("refused ").and_then(|rest| rest.split(' ').next());
        number.map_or(0, |number| number.parse().expect("a refusal's number"))
    }
}

/// The lines of a seed: its job run, its streams where the run goes through with a whole answer
/// lent, its formula listed and checked, an input found, and both conversions.
pub fn lines(seed: u64) -> Vec<Line> {
    let case = job_case(seed);
    let (job, formula) = (hexadecimal(&case.job), hexadecimal(&case.formula));
    let (elements, bytes) = (case.elements, case.answer);
    let mut lines = vec![Line::new(format!("run {elements} {bytes} {job}"))];
    let streams = Line::new(format!("streams {elements} {job}"));
    if streams.refusal() == 0 {
        lines.push(streams);
    }
    lines.push(Line::new(format!("list {} {formula}", case.listing)));
    lines.push(Line::new(format!("check {formula}")));
    lines.push(Line::new(format!("find {} {job}", case.input)));

    let case = text_case(seed);
    let (of, depth) = (suffix(case.value_type.base), case.value_type.depth);
    let sizes = format!("{depth} {} {}", case.elements, case.lengths);
    lines.push(Line::new(format!("t2s{of} {sizes} {}", hexadecimal(&case.text))));

    let case = streams_case(seed);
    let (of, depth) = (suffix(case.value_type.base), case.value_type.depth);
    let (lengths, elements) = (joined(&case.lengths), joined(&case.elements));
    lines.push(Line::new(format!("s2t{of} {depth} {} ; {lengths} ; {elements}", case.answer)));
    lines
}

/// What stands behind a conversion's word: `b` where it is of bools.
fn suffix(base: Base) -> &'static str {
    match base {
        Base::Int => "",
        Base::Bool => "b",
    }
}

#[cfg(test)]
mod tests {
    use super::*;

    #[test]
    fn a_line_is_an_input_and_the_models_answer() {
        let line = Line::new("check 4b4e05000000".to_string());
        assert_eq!((line.kind, line.refusal(), line.fits()), (3, 0, true));
        assert_eq!(line.text(), "check 4b4e05000000 | depth 0\n");
        let line = Line::new("check 4b4201".to_string());
        assert_eq!(line.text(), "check 4b4201 | bool depth 0\n");
        let line = Line::new("t2sb 1 9 2 7b547d".to_string());
        assert_eq!((line.kind, line.refusal()), (5, 0));
        assert_eq!(line.text(), "t2sb 1 9 2 7b547d | lengths 1 2\\nelements 1 0 1\\n\n");
        let line = Line::new("run 9 1 -".to_string());
        assert_eq!((line.kind, line.refusal()), (0, 2));
        assert_eq!(line.text(), "run 9 1 - | refused 2 at 0\\n\n");
    }

    #[test]
    fn what_the_program_does_not_read_whole_does_not_fit() {
        let text = format!("{{{}1}}", "1,".repeat(2_100));
        let long = Line::new(format!("t2s 1 9 2 {}", hexadecimal(text.as_bytes())));
        assert!(!long.fits() && long.refusal() == 9);
        let fits = Line::new(format!("t2s 1 9 2 {}", hexadecimal(&text.as_bytes()[..4_000])));
        assert!(fits.fits() && fits.refusal() == 7);
    }

    #[test]
    fn every_kind_has_lines_that_fit() {
        let fitting: Vec<Line> = (0..200).flat_map(lines).filter(Line::fits).collect();
        for kind in 0..KINDS.len() {
            assert!(fitting.iter().filter(|line| line.kind == kind).count() > 50, "{kind}");
        }
    }
}
