//! Runs every line of the vectors against the model: those of request 1, which the program `vectors`
//! reads too (crates/vectors/stdin), and those of the base, document 01.
//!
//! Each line is `INPUT | OUTPUT`, as the program's sources say.

use reference::lent;
use reference::vectors::{answer, bytes};

const OF_THE_PROGRAM: &str = include_str!("../../../crates/vectors/stdin");
const OF_THE_BASE: &str = include_str!("base.txt");

#[test]
fn every_line_of_the_program_holds() {
    holds(OF_THE_PROGRAM, 823);
}

#[test]
fn every_line_of_the_base_holds() {
    holds(OF_THE_BASE, 826);
}

fn holds(vectors: &str, count: usize) {
    let mut failures = Vec::new();
    for (index, line) in vectors.lines().enumerate() {
        let (input, output) = line.split_once(" | ").unwrap_or_else(|| panic!("line {line}"));
        let answer = answer(input).replace('\n', "\\n");
        if answer != output {
            failures.push(format!("line {}: {line}\n  model: {answer}", index + 1));
        }
    }
    assert_eq!(vectors.lines().count(), count);
    assert!(failures.is_empty(), "{} lines fail:\n{}", failures.len(), failures.join("\n"));
}

/// The first job of document 01: {3,1} and 4 give {7,5}, with room 10.
const JOB: &str = "494e0501494e0600454107050106504c0706564105007b332c317d5641010034";

#[test]
fn an_accepted_run_leaves_what_lies_past_its_writing() {
    let (mut streams, mut answer) = ([-7; 12], [b'?'; 8]);
    let counts =
        lent::run(&bytes(JOB), &mut streams, &mut answer).expect("a run that goes through");
    assert_eq!((counts.text_bytes, counts.work, counts.steps, counts.room), (5, 17, 3, 10));
    assert_eq!(streams, [3, 1, 0, 0, 1, 4, 4, 4, 7, 5, -7, -7]);
    assert_eq!(&answer, b"{7,5}???");
}

#[test]
fn a_run_refused_by_nine_or_ten_zeroes_the_used_part_and_leaves_the_answer() {
    for (elements, answer_bytes, number) in [(9, 8, 9), (16_390, 4, 10)] {
        let (mut streams, mut answer) = (vec![-7; elements], vec![b'?'; answer_bytes]);
        let refusal = lent::run(&bytes(JOB), &mut streams, &mut answer).expect_err("a refusal");
        assert_eq!(refusal.number, number);
        let used = elements.min(16_384);
        assert!(streams[..used].iter().all(|element| *element == 0));
        assert!(streams[used..].iter().all(|element| *element == -7));
        assert!(answer.iter().all(|byte| *byte == b'?'));
    }
}

#[test]
fn a_run_refused_before_it_starts_writes_nothing() {
    let (mut streams, mut answer) = ([-7; 12], [b'?'; 8]);
    let refusal = lent::run(&bytes(JOB)[..20], &mut streams, &mut answer).expect_err("a refusal");
    assert_eq!((refusal.number, refusal.place), (2, 18));
    assert_eq!((streams, answer), ([-7; 12], [b'?'; 8]));
}
