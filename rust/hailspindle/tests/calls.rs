//! The safe functions over the linked library, on document 01's examples.

use hailspindle::{check, find, list, run, streams_to_text, text_to_streams};
use hailspindle::{Counts, Refusal, Type};

/// `IN 5 1, IN 6 0, EA 7 5 1 6, PL 7 6`
const FORMULA: &[u8] = b"IN\x05\x01IN\x06\0EA\x07\x05\x01\x06PL\x07\x06";

fn job(texts: [&str; 2]) -> Vec<u8> {
    let mut job = FORMULA.to_vec();
    for text in texts {
        job.extend_from_slice(b"VA");
        job.extend_from_slice(&(text.len() as u16).to_le_bytes());
        job.extend_from_slice(text.as_bytes());
    }
    job
}

#[test]
fn a_run_answers_writes_and_counts() {
    let (mut streams, mut answer) = ([9; 12], [b'-'; 8]);
    let counts = run(&job(["{3,1}", "4"]), &mut streams, &mut answer);
    assert_eq!(counts, Ok(Counts { text_bytes: 5, work: 17, steps: 3, room: 10 }));
    assert_eq!(&answer, b"{7,5}---");
    assert_eq!(streams, [3, 1, 0, 0, 1, 4, 4, 4, 7, 5, 9, 9]);
}

#[test]
fn a_refusal_has_its_place() {
    let (mut streams, mut answer) = ([9; 12], [b'-'; 8]);
    let large = job(["{3,2147483647}", "4"]);
    assert_eq!(run(&large, &mut streams, &mut answer), Err(Refusal::NoValue(5)));
    assert_eq!((streams, answer), ([0; 12], [b'-'; 8]));
    assert_eq!(run(&job(["{3", "4"]), &mut [], &mut []), Err(Refusal::NoValueText(18)));
    assert_eq!(run(&job(["{3,1}", "4"]), &mut [0; 9], &mut [0; 8]), Err(Refusal::NoRoom(5)));
    let short = run(&job(["{3,1}", "4"]), &mut [0; 10], &mut [0; 4]);
    assert_eq!(short, Err(Refusal::NoAnswerRoom(5)));
}

#[test]
fn a_formula_is_checked_and_listed() {
    assert_eq!(check(FORMULA), Ok(Type::ints(1)));
    // `IB 0 0, GU 0 1 0, NO 0`
    assert_eq!(check(b"IB\0\0GU\0\x01\0NO\0"), Ok(Type::bools(1)));
    assert_eq!(check(b"VR\x03"), Err(Refusal::Unbound(0)));
    assert_eq!(check(&[0; 65_537]), Err(Refusal::TooLong));
    let mut text = [0; 200];
    let bytes = list(FORMULA, &mut text).expect("the formula is listed");
    let listing = "s3 := Usum(s1)\ns4 := Distr(s1,s2)\n[s5] := WithCtrl(s3,[s0,s4]) {\n\
                   s5 := MapTwo+(s0,s4)\n}\nresult (s5,s1)\n";
    assert_eq!(&text[..bytes], listing.as_bytes());
    assert_eq!(list(FORMULA, &mut []), Err(Refusal::NoAnswerRoom(bytes as u64)));
}

#[test]
fn a_text_is_found() {
    let job = job(["{3,1}", "4"]);
    assert_eq!(find(&job, 0), b"{3,1}");
    assert_eq!(find(&job, 1), b"4");
    assert_eq!(find(&job, 2), b"");
    assert_eq!(find(b"XX", 0), b"");
}

#[test]
fn a_text_goes_to_streams_and_back() {
    let (mut elements, mut lengths) = ([0; 20], [0; 3]);
    let count = text_to_streams(b"{{3,1},{}}", Type::ints(2), &mut elements, &mut lengths);
    assert_eq!(count, Ok(9));
    assert_eq!(elements[..9], [3, 1, 0, 0, 1, 1, 0, 0, 1]);
    assert_eq!(lengths, [2, 4, 3]);
    let mut answer = [0; 20];
    assert_eq!(streams_to_text(&elements[..9], &lengths, Type::ints(2), &mut answer), Ok(10));
    assert_eq!(&answer[..10], b"{{3,1},{}}");
    let misfit = streams_to_text(&elements[..8], &lengths, Type::ints(2), &mut answer);
    assert_eq!(misfit, Err(Refusal::NoRepresentation(3)));
}

#[test]
fn bools_go_to_streams_and_back() {
    let (mut elements, mut lengths) = ([0; 9], [0; 3]);
    let count = text_to_streams(b"{{T,F},{}}", Type::bools(2), &mut elements, &mut lengths);
    assert_eq!((count, elements, lengths), (Ok(9), [1, 0, 0, 0, 1, 1, 0, 0, 1], [2, 4, 3]));
    let mut answer = [0; 10];
    assert_eq!(streams_to_text(&elements, &lengths, Type::bools(2), &mut answer), Ok(10));
    assert_eq!(&answer, b"{{T,F},{}}");
    elements[1] = 2;
    let misfit = streams_to_text(&elements, &lengths, Type::bools(2), &mut answer);
    assert_eq!(misfit, Err(Refusal::NoRepresentation(0)));
}

#[test]
fn a_guard_keeps_a_value_or_none() {
    // `IN 0 0, IB 1 0, GU 1 1 0, VR 0`
    let formula = b"IN\0\0IB\x01\0GU\x01\x01\0VR\0";
    for (truth, answer) in [(b'T', b"{7}".as_slice()), (b'F', b"{}")] {
        let job = [formula.as_slice(), b"VA\x01\x007VA\x01\0", &[truth]].concat();
        let mut text = [0; 3];
        let counts = run(&job, &mut [0; 9], &mut text).expect("a value");
        assert_eq!(&text[..counts.text_bytes], answer);
    }
}
