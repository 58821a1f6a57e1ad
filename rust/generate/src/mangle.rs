//! Mangled jobs: bytes cut, changed, inserted and swapped, and records put wrong one by one.

use crate::job_and_formula;
use crate::random::Random;
use reference::record::Record;
use reference::Base;

/// A job and a formula whose bytes are mangled, each in its own way.
pub fn bytes_of_job_and_formula(
    random: &mut Random,
    records: &[Record],
    texts: &[Vec<u8>],
) -> (Vec<u8>, Vec<u8>) {
    let (mut job, mut formula) = job_and_formula(records, texts);
    for _ in 0..=random.below(3) {
        mangle_bytes(random, &mut job);
        mangle_bytes(random, &mut formula);
    }
    (job, formula)
}

/// A job and its formula with a record or a value text put wrong.
pub fn records_of_job_and_formula(
    random: &mut Random,
    mut records: Vec<Record>,
    mut texts: Vec<Vec<u8>>,
) -> (Vec<u8>, Vec<u8>) {
    let names = names(&records);
    for _ in 0..=random.below(2) {
        match random.below(8) {
            0 => mangle_order(random, &mut records),
            1 => mangle_value_texts(random, &mut texts),
            _ => {
                let index = random.below(records.len() as u64) as usize;
                mangle_fields(random, &names, &mut records[index]);
            }
        }
        if records.is_empty() {
            break;
        }
    }
    job_and_formula(&records, &texts)
}

pub fn mangle_bytes(random: &mut Random, bytes: &mut Vec<u8>) {
    let place = random.below(bytes.len() as u64 + 1) as usize;
    let other = random.below(bytes.len() as u64 + 1) as usize;
    let (first, second) = (place.min(other), place.max(other));
    let marks = b"INIBVRLTKNKBIOPLLEEQNOSMEAGUVA";
    match random.below(9) {
        0 => bytes.truncate(place),
        1 => drop(bytes.drain(first..second.min(first + 4))),
        2 if place < bytes.len() => bytes[place] = random.number() as u8,
        3 if place < bytes.len() => bytes[place] ^= 1 << random.below(8),
        4 => bytes.insert(place, random.number() as u8),
        5 => bytes.insert(place, *random.pick(marks)),
        6 if second < bytes.len() => bytes.swap(first, second),
        7 => {
            let copy = bytes[first..second.min(first + 6)].to_vec();
            bytes.splice(second..second, copy);
        }
        8 => match bytes.windows(3).rposition(|three| three.starts_with(b"KB")) {
            Some(start) => bytes[start + 2] = *random.pick(&[0, 1, 2, b'T', b'F', 255]),
            None => bytes.push(random.number() as u8),
        },
        _ => bytes.push(random.number() as u8),
    }
}

fn mangle_order(random: &mut Random, records: &mut Vec<Record>) {
    let (first, second) =
        (random.below(records.len() as u64) as usize, random.below(records.len() as u64) as usize);
    match random.below(4) {
        0 => drop(records.remove(first)),
        1 => records.insert(second, records[first].clone()),
        2 => records.swap(first, second),
        _ => records.insert(first, Record::Value { text: b"1".to_vec() }),
    }
}

fn mangle_value_texts(random: &mut Random, texts: &mut Vec<Vec<u8>>) {
    if texts.is_empty() || random.one_in(8) {
        texts.push(b"{}".to_vec());
        return;
    }
    let index = random.below(texts.len() as u64) as usize;
    match random.below(6) {
        0 => drop(texts.remove(index)),
        1 => texts[index].clear(),
        _ => mangle_text(random, &mut texts[index]),
    }
}

/// A value text with one byte or piece put wrong.
pub fn mangle_text(random: &mut Random, text: &mut Vec<u8>) {
    let place = random.below(text.len() as u64 + 1) as usize;
    let pieces: [&[u8]; 17] = [
        b"{",
        b"}",
        b",",
        b"-",
        b"0",
        b"-0",
        b"1",
        b" ",
        b"{}",
        b"{},",
        b"00",
        b"2147483648",
        b"-2147483649",
        b"\xff",
        b"T",
        b"F",
        b"{F},",
    ];
    match random.below(4) {
        0 if place < text.len() => drop(text.remove(place)),
        1 if place < text.len() => text[place] = random.pick(&pieces)[0],
        2 => text.truncate(place),
        _ => drop(text.splice(place..place, random.pick(&pieces).iter().copied())),
    }
}

/// The variables that the formula binds somewhere.
fn names(records: &[Record]) -> Vec<u8> {
    let name = |record: &Record| match record {
        Record::Input { variable, .. } | Record::Let { variable } => Some(*variable),
        Record::Each { item, .. } => Some(*item),
        _ => None,
    };
    records.iter().filter_map(name).collect()
}

/// Puts another variable, depth, count or number into a record; often a variable that is bound
/// but of another type or not in sight.
fn mangle_fields(random: &mut Random, names: &[u8], record: &mut Record) {
    let other_variable = |random: &mut Random| match random.below(6) {
        0 => 60 + random.below(8) as u8,
        1 => random.below(64) as u8,
        _ if names.is_empty() => 0,
        _ => *random.pick(names),
    };
    match record {
        Record::Input { variable, base, depth } => match random.below(5) {
            0 | 1 => *variable = other_variable(random),
            2 | 3 => *depth = random.below(11) as u8,
            _ => *base = if *base == Base::Int { Base::Bool } else { Base::Int },
        },
        Record::Variable { variable }
        | Record::Let { variable }
        | Record::Iota { variable }
        | Record::Not { variable }
        | Record::Sum { variable } => *variable = other_variable(random),
        Record::Plus { left, right }
        | Record::AtMost { left, right }
        | Record::Equal { left, right } => {
            let side = if random.one_in(2) { left } else { right };
            *side = other_variable(random);
        }
        Record::Constant { number } => *number = random.number() as i32,
        Record::Truth { truth } => *truth = !*truth,
        Record::Each { item, source, using } => match random.below(5) {
            0 => *item = other_variable(random),
            1 => *source = other_variable(random),
            2 => using.push(*random.pick(&[*item, *source])),
            3 => using.push(using.first().copied().unwrap_or(*source)),
            _ => using.resize(random.below(11) as usize, 0),
        },
        Record::Guarded { guard, using } => match random.below(5) {
            0 | 1 => *guard = other_variable(random),
            2 => using.push(other_variable(random)),
            3 => using.push(using.first().copied().unwrap_or(*guard)),
            _ => using.resize(random.below(11) as usize, 0),
        },
        Record::Value { text } => mangle_text(random, text),
    }
}
