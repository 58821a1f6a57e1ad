//! Random cases for the two conversions by themselves: texts and streams, whole and mangled.

use crate::random::Random;
use crate::values::{self, Scalars};
use crate::{mangle, size_near};
use reference::limits;
use reference::value::Value;
use reference::{Base, Type};

/// A text to turn to streams, with what is lent for them.
#[derive(Clone, Debug, PartialEq, Eq)]
pub struct TextCase {
    pub text: Vec<u8>,
    pub value_type: Type,
    pub elements: usize,
    pub lengths: usize,
}

/// Streams to turn to text, with the bytes lent for it.
#[derive(Clone, Debug, PartialEq, Eq)]
pub struct StreamsCase {
    pub elements: Vec<i32>,
    pub lengths: Vec<usize>,
    pub value_type: Type,
    pub answer: usize,
}

pub fn text_case(seed: u64) -> TextCase {
    let mut random = Random::new(seed);
    let (value, of) = value_and_type(&mut random);
    let mut text = value.write();
    if random.one_in(3) {
        mangle::mangle_text(&mut random, &mut text);
    }
    let value_type = stated_type(&mut random, of);
    let needed = reference::text_to_streams(&text, value_type, usize::MAX, usize::MAX)
        .map_or(3, |streams| streams.elements.len());
    let elements = size_near(&mut random, needed, limits::STREAM_ELEMENTS);
    let lengths = size_near(&mut random, value_type.depth as usize + 1, limits::DEPTH as usize + 1);
    TextCase { text, value_type, elements, lengths }
}

pub fn streams_case(seed: u64) -> StreamsCase {
    let mut random = Random::new(seed);
    let (value, of) = value_and_type(&mut random);
    let text = value.write();
    let streams = reference::representation::streams_of(&value, of);
    let mut elements = streams.iter().flat_map(|stream| stream.elements()).collect();
    let mut lengths = streams.iter().map(|stream| stream.length()).collect();
    if random.one_in(2) {
        for _ in 0..=random.below(2) {
            mangle_streams(&mut random, &mut elements, &mut lengths);
        }
    }
    let value_type = stated_type(&mut random, of);
    let answer = size_near(&mut random, text.len(), 99);
    StreamsCase { elements, lengths, value_type, answer }
}

fn value_and_type(random: &mut Random) -> (Value, Type) {
    let base = if random.one_in(3) { Base::Bool } else { Base::Int };
    let half = limits::STREAM_ELEMENTS as i32 / 2;
    if random.one_in(150) {
        let items = half - 1 + random.below(2) as i32;
        let item = |number: i32| match base {
            Base::Int => Value::Int(number),
            Base::Bool => Value::Bool(number % 3 == 0),
        };
        return (Value::list((0..items).map(item).collect()), Type { base, depth: 1 });
    }
    let depth = random.below(u64::from(limits::DEPTH) + 1) as u8;
    let scalars = Scalars::choose(random, base);
    (values::value(random, depth, scalars), Type { base, depth })
}

/// The value's own type mostly, now and then of another base or depth or of one out of range.
fn stated_type(random: &mut Random, of: Type) -> Type {
    let Type { base, depth } = of;
    match random.below(25) {
        0 => Type { base, depth: limits::DEPTH + 1 },
        1 => Type { base, depth: random.number() as u8 },
        2 => Type { base, depth: random.below(u64::from(limits::DEPTH) + 1) as u8 },
        3 => Type { base: if base == Base::Int { Base::Bool } else { Base::Int }, depth },
        _ => of,
    }
}

fn mangle_streams(random: &mut Random, elements: &mut Vec<i32>, lengths: &mut Vec<usize>) {
    let place = random.below(elements.len() as u64 + 1) as usize;
    let (from, to) = (
        random.below(lengths.len() as u64 + 1) as usize,
        random.below(lengths.len() as u64 + 1) as usize,
    );
    let flags = [0, 1, 2, -1, i32::MAX];
    match random.below(10) {
        0..=2 if place < elements.len() => elements[place] = *random.pick(&flags),
        3 if place < elements.len() => drop(elements.remove(place)),
        4 => elements.insert(place, *random.pick(&flags)),
        5 | 6 if from < lengths.len() && to < lengths.len() && lengths[from] > 0 => {
            lengths[from] -= 1;
            lengths[to] += 1;
        }
        7 if from < lengths.len() => {
            lengths[from] = *random.pick(&[0, 1, usize::MAX, usize::MAX / 2 + 1]);
        }
        8 if from < lengths.len() => drop(lengths.remove(from)),
        9 if from < lengths.len() && to < lengths.len() => {
            // Each past the other by as much as wraps to nothing.
            lengths[from] = lengths[from].wrapping_add(1 << 63);
            lengths[to] = lengths[to].wrapping_add(1 << 63);
        }
        _ => lengths.insert(from, random.below(3) as usize),
    }
}
