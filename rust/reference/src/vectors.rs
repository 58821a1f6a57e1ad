//! The lines of the vectors, `INPUT | OUTPUT`: what the model answers to an input.
//!
//! Bytes are hexadecimal, `-` for none. A line writes a line feed of its output as `\n`, which
//! the answers here do not.

use crate::limits;
use crate::{check, find, list, run, streams_to_text, text_to_streams, Base, Refusal, Type};
use std::fmt::Display;
use std::str::FromStr;

/// The kinds of lines that the program `vectors` counts, each by its first word.
pub const KINDS: [&str; 7] = ["run", "streams", "list", "check", "find", "t2s", "s2t"];

/// The output of a line with this input. Of a refused run's streams, which no line names, it is
/// the refusal.
pub fn answer(input: &str) -> String {
    let (kind, rest) = input.split_once(' ').expect("a kind and its fields");
    let fields: Vec<&str> = rest.split(' ').collect();
    match kind {
        "run" => {
            lines(run(&bytes(fields[2]), number(fields[0]), number(fields[1])).map(|answer| {
                let text = String::from_utf8(answer.text).expect("value text is ASCII");
                let (work, steps, room) = (answer.work, answer.steps, answer.room);
                format!("value {text}\nwork {work}\nsteps {steps}\nroom {room}\n")
            }))
        }
        "streams" => {
            let answer = run(&bytes(fields[1]), number(fields[0]), limits::ANSWER_BYTES);
            lines(answer.map(|answer| joined(&answer.streams)))
        }
        "list" => lines(list(&bytes(fields[1]), number(fields[0]))),
        "check" => match check(&bytes(fields[0])) {
            Ok(Type { base: Base::Int, depth }) => format!("depth {depth}"),
            Ok(Type { base: Base::Bool, depth }) => format!("bool depth {depth}"),
            Err(refusal) => refusal.to_string(),
        },
        "find" => {
            let part = find(&bytes(fields[1]), number(fields[0]));
            // A line does not say where an empty part lies.
            let part = if part.is_empty() { 0..0 } else { part };
            format!("{} {}", part.start, part.end)
        }
        "t2s" | "t2sb" => {
            let value_type = Type { base: base_of(kind), depth: number(fields[0]) };
            let (elements, lengths) = (number(fields[1]), number(fields[2]));
            let streams = text_to_streams(&bytes(fields[3]), value_type, elements, lengths);
            lines(streams.map(|streams| {
                let (lengths, elements) = (joined(&streams.lengths), joined(&streams.elements));
                format!("lengths {lengths}\nelements {elements}\n")
            }))
        }
        "s2t" | "s2tb" => {
            let parts: Vec<&str> = rest.split(';').collect();
            let sizes: Vec<usize> = numbers(parts[0]);
            let (lengths, elements) = (numbers::<usize>(parts[1]), numbers::<i32>(parts[2]));
            let value_type = Type { base: base_of(kind), depth: sizes[0] as u8 };
            let text = streams_to_text(&elements, &lengths, value_type, sizes[1]);
            lines(text.map(|text| {
                format!("text {}\n", String::from_utf8(text).expect("value text is ASCII"))
            }))
        }
        _ => panic!("unknown kind {kind}"),
    }
}

/// The base of a conversion's line: a `b` behind its kind says that it is of bools.
fn base_of(kind: &str) -> Base {
    if kind.ends_with('b') {
        Base::Bool
    } else {
        Base::Int
    }
}

fn lines(answer: Result<String, Refusal>) -> String {
    answer.unwrap_or_else(|refusal| format!("{refusal}\n"))
}

fn number<Number: FromStr>(text: &str) -> Number {
    text.parse().unwrap_or_else(|_| panic!("a number, not {text}"))
}

fn numbers<Number: FromStr>(text: &str) -> Vec<Number> {
    text.split_whitespace().map(number).collect()
}

/// Numbers as a line has them, with a blank between.
pub fn joined<Number: Display>(numbers: &[Number]) -> String {
    numbers.iter().map(Number::to_string).collect::<Vec<_>>().join(" ")
}

/// The bytes that a field stands for.
pub fn bytes(hexadecimal: &str) -> Vec<u8> {
    if hexadecimal == "-" {
        return vec![];
    }
    let pairs = hexadecimal.as_bytes().chunks(2);
    let pair = |pair: &[u8]| u8::from_str_radix(std::str::from_utf8(pair).unwrap(), 16).unwrap();
    pairs.map(pair).collect()
}

/// The field that stands for these bytes.
pub fn hexadecimal(bytes: &[u8]) -> String {
    if bytes.is_empty() {
        return "-".to_string();
    }
    bytes.iter().map(|byte| format!("{byte:02x}")).collect()
}
