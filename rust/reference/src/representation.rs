//! Values as streams and back, and the two conversions by themselves.

use crate::limits;
use crate::refusal::Refusal;
use crate::stream::Stream;
use crate::value::Value;
use crate::value_type::{Base, Type};

/// A value's streams one after another in tree order, with the length of each.
#[derive(Clone, Debug, PartialEq, Eq)]
pub struct Streams {
    pub elements: Vec<i32>,
    pub lengths: Vec<usize>,
}

/// The streams of a value of this type, in tree order.
pub fn streams_of(value: &Value, value_type: Type) -> Vec<Stream> {
    let mut data = match value_type.base {
        Base::Int => Stream::Numbers(vec![]),
        Base::Bool => Stream::Bools(vec![]),
    };
    let mut flags = vec![Vec::new(); value_type.depth as usize];
    append(value, &mut flags, &mut data);
    [data].into_iter().chain(flags.into_iter().map(Stream::Flags)).collect()
}

/// Appends a value's streams; the last of the flags are its outermost.
fn append(value: &Value, flags: &mut [Vec<bool>], data: &mut Stream) {
    match (value, flags, data) {
        (Value::Int(number), [], Stream::Numbers(numbers)) => numbers.push(*number),
        (Value::Bool(truth), [], Stream::Bools(bools)) => bools.push(*truth),
        (Value::List(items), [inner @ .., outermost], data) => {
            outermost.extend(items.iter().map(|_| false));
            outermost.push(true);
            items.iter().for_each(|item| append(item, inner, data));
        }
        _ => panic!("a value of the type stated"),
    }
}

/// The value that streams in tree order represent, or the tree number of the first misfit.
pub fn value_of(streams: &[Vec<i32>], base: Base) -> Result<Value, usize> {
    let all_bits = |stream: &[i32]| stream.iter().all(|element| *element == 0 || *element == 1);
    let mut segments = 1;
    for (number, flags) in streams.iter().enumerate().skip(1).rev() {
        let ends = flags.iter().filter(|flag| **flag == 1).count();
        let closed = flags.last().is_none_or(|flag| *flag == 1);
        if !all_bits(flags) || ends != segments || !closed {
            return Err(number);
        }
        segments = flags.len() - ends;
    }
    if streams[0].len() != segments || (base == Base::Bool && !all_bits(&streams[0])) {
        return Err(0);
    }
    let mut taken = vec![0; streams.len()];
    Ok(take_value(streams, base, &mut taken))
}

/// The next value of streams that fit; what it takes of each is counted.
fn take_value(streams: &[Vec<i32>], base: Base, taken: &mut [usize]) -> Value {
    let last = streams.len() - 1;
    let next = |taken: &mut [usize]| {
        taken[last] += 1;
        streams[last][taken[last] - 1]
    };
    if last == 0 {
        return match base {
            Base::Int => Value::Int(next(taken)),
            Base::Bool => Value::Bool(next(taken) == 1),
        };
    }
    let mut items = Vec::new();
    while next(taken) == 0 {
        items.push(take_value(&streams[..last], base, &mut taken[..last]));
    }
    Value::list(items)
}

/// Text to streams, with so many elements and lengths lent: refusals 3, 7, 9, all at 0.
pub fn text_to_streams(
    text: &[u8],
    value_type: Type,
    elements_lent: usize,
    lengths_lent: usize,
) -> Result<Streams, Refusal> {
    if value_type.depth > limits::DEPTH {
        return Err(Refusal::new(3, 0));
    }
    let value = Value::read(text, value_type).ok_or(Refusal::new(7, 0))?;
    let streams = streams_of(&value, value_type);
    let elements: Vec<i32> = streams.iter().flat_map(Stream::elements).collect();
    let lengths: Vec<usize> = streams.iter().map(Stream::length).collect();
    if elements.len() > limits::used_part(elements_lent) || lengths.len() > lengths_lent {
        return Err(Refusal::new(9, 0));
    }
    Ok(Streams { elements, lengths })
}

/// Streams to text, with so many answer bytes lent: refusals 3, 11, 10.
pub fn streams_to_text(
    elements: &[i32],
    lengths: &[usize],
    value_type: Type,
    answer_lent: usize,
) -> Result<Vec<u8>, Refusal> {
    if value_type.depth > limits::DEPTH {
        return Err(Refusal::new(3, 0));
    }
    let streams_wanted = value_type.depth as usize + 1;
    let total: u128 = lengths.iter().map(|length| *length as u128).sum();
    if lengths.len() != streams_wanted
        || total != elements.len() as u128
        || total > limits::STREAM_ELEMENTS as u128
    {
        return Err(Refusal::new(11, streams_wanted));
    }
    let mut rest = elements;
    let mut streams = Vec::new();
    for length in lengths {
        let (stream, after) = rest.split_at(*length);
        streams.push(stream.to_vec());
        rest = after;
    }
    let value = value_of(&streams, value_type.base).map_err(|number| Refusal::new(11, number))?;
    let text = value.write();
    if text.len() > answer_lent {
        return Err(Refusal::new(10, text.len()));
    }
    Ok(text)
}
