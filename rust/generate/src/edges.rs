//! Jobs at a limit of document 01 and one past it.

use crate::guards;
use crate::random::Random;
use reference::limits;
use reference::record::Record;
use reference::Base;

pub type FormulaAndTexts = (Vec<Record>, Vec<Vec<u8>>);

/// A job at or one past some limit, and its formula.
pub fn job_and_formula(random: &mut Random) -> (Vec<u8>, Vec<u8>) {
    let past = random.below(2) as usize;
    let (records, texts) = match random.below(16) {
        0 => inputs(random, limits::INPUTS + past),
        1 => expression_records(random, limits::EXPRESSION_RECORDS + past),
        2 => nested_lets(random, limits::NESTING + past),
        3 => nested_comprehensions(past),
        4 => input_depth(limits::DEPTH as usize + past),
        5 => type_depth(limits::DEPTH as usize + past),
        6 => highest_variable(random, limits::VARIABLE + past as u8),
        7 => using_list(limits::USING + past),
        8 => full_stream_buffer(random, past),
        9 => guards::using_list(random, limits::USING + past),
        10 => guards::nested(random, limits::NESTING + past),
        11 => guards::type_depth(random, limits::DEPTH as usize + past),
        12 => guards::highest_variable(random, limits::VARIABLE + past as u8),
        13 => guards::full_stream_buffer(random, past),
        14 if random.one_in(2) => guards::deep_values(random, limits::NESTING + past),
        14 => {
            let nesting = 1 + random.below(9) as usize;
            guards::deep_values(random, nesting)
        }
        _ => return job_and_formula_of_bytes(limits::BYTES + past),
    };
    crate::job_and_formula(&records, &texts)
}

pub fn ints(variable: u8, depth: u8) -> Record {
    Record::Input { variable, base: Base::Int, depth }
}

pub fn bools(variable: u8, depth: u8) -> Record {
    Record::Input { variable, base: Base::Bool, depth }
}

fn one(variable: u8) -> [Record; 2] {
    [Record::Let { variable }, Record::Constant { number: 1 }]
}

/// Ints, now and then with bools between the first and the last.
fn inputs(random: &mut Random, count: usize) -> FormulaAndTexts {
    let mut records: Vec<Record> = (0..count).map(|index| ints(index as u8, 0)).collect();
    let mut texts = vec![b"7".to_vec(); count];
    if random.one_in(2) {
        for index in (1..count - 1).filter(|_| random.one_in(2)) {
            records[index] = bools(index as u8, 0);
            texts[index] = b"T".to_vec();
        }
    }
    records.push(Record::Plus { left: 0, right: count as u8 - 1 });
    (records, texts)
}

/// Lets and their parts; an even count takes a comprehension or a guard round them.
fn expression_records(random: &mut Random, count: usize) -> FormulaAndTexts {
    let mut records = vec![ints(0, 1), bools(1, 0)];
    if count.is_multiple_of(2) {
        records.push(match random.one_in(2) {
            true => Record::Each { item: 0, source: 0, using: vec![] },
            false => Record::Guarded { guard: 1, using: vec![] },
        });
    }
    lets(random, (count - 1) / 2, &mut records);
    (records, vec![b"{5,6}".to_vec(), b"T".to_vec()])
}

/// So many lets, with one part more than lets.
fn lets(random: &mut Random, count: usize, records: &mut Vec<Record>) {
    if count == 0 {
        records.push(match random.below(9) {
            0 => Record::Truth { truth: false },
            number => Record::Constant { number: number as i32 },
        });
        return;
    }
    let first = random.below(count as u64) as usize;
    records.push(Record::Let { variable: random.below(64) as u8 });
    lets(random, first, records);
    lets(random, count - 1 - first, records);
}

fn nested_lets(random: &mut Random, count: usize) -> FormulaAndTexts {
    let mut records = Vec::new();
    if random.one_in(2) {
        records.extend((0..count).flat_map(|_| one(3)));
        records.push(Record::Variable { variable: 3 });
    } else {
        records.extend((0..count).map(|_| Record::Let { variable: 3 }));
        records.push(Record::Constant { number: 1 });
        records.extend((0..count).map(|_| Record::Variable { variable: 3 }));
    }
    (records, vec![])
}

/// Sums over comprehensions in one another: each level puts four records round the next.
fn nested_comprehensions(past: usize) -> FormulaAndTexts {
    let levels = limits::NESTING / 4;
    let mut records = Vec::new();
    for _ in 0..levels {
        records.extend(one(0));
        records.extend([Record::Let { variable: 1 }, Record::Iota { variable: 0 }]);
        records.push(Record::Let { variable: 2 });
        records.push(Record::Each { item: 3, source: 1, using: vec![] });
    }
    records.extend((0..past).flat_map(|_| one(4)));
    records.push(Record::Constant { number: 5 });
    records.extend((0..levels).map(|_| Record::Sum { variable: 2 }));
    (records, vec![])
}

fn input_depth(depth: usize) -> FormulaAndTexts {
    let records = vec![ints(0, depth as u8), Record::Variable { variable: 0 }];
    (records, vec![[b"{".repeat(depth), b"4".to_vec(), b"}".repeat(depth)].concat()])
}

/// Iotas of items of iotas, till the type has this depth.
fn type_depth(depth: usize) -> FormulaAndTexts {
    let mut records = vec![ints(0, 1)];
    for level in 0..depth {
        if level > 0 {
            records.extend([Record::Let { variable: 0 }, Record::Iota { variable: 1 }]);
        }
        records.push(Record::Each { item: 1, source: 0, using: vec![] });
    }
    records.push(Record::Variable { variable: 1 });
    (records, vec![b"{9,0,10}".to_vec()])
}

fn highest_variable(random: &mut Random, variable: u8) -> FormulaAndTexts {
    let list = ints(1, 1);
    let int = ints(2, 0);
    let mut records = vec![list, int];
    let bound = [Record::Let { variable: 63 }, Record::Variable { variable: 2 }];
    match random.below(7) {
        0 => records[0] = ints(variable, 1),
        1 => records.push(Record::Let { variable }),
        2 => records.push(Record::Each { item: variable, source: 1, using: vec![] }),
        3 => {
            records.extend(bound);
            records.push(Record::Each { item: 3, source: 1, using: vec![2, variable] });
        }
        4 => {
            records.extend(bound);
            records.extend([Record::Let { variable: 5 }, Record::Iota { variable }]);
        }
        5 => {
            records.extend(bound);
            records
                .extend([Record::Let { variable: 5 }, Record::Plus { left: 2, right: variable }]);
        }
        _ => {
            records.extend([Record::Let { variable: 63 }, Record::Variable { variable: 1 }]);
            records.extend([Record::Let { variable: 5 }, Record::Sum { variable }]);
        }
    }
    if let Some(Record::Let { .. }) = records.last() {
        records.push(Record::Constant { number: 2 });
    }
    records.push(Record::Constant { number: 3 });
    (records, vec![b"{1,2}".to_vec(), b"3".to_vec()])
}

fn using_list(count: usize) -> FormulaAndTexts {
    let using: Vec<u8> = (1..=count as u8).collect();
    let mut records = vec![ints(0, 1)];
    records.extend(using.iter().map(|variable| ints(*variable, 0)));
    records.push(Record::Each { item: 0, source: 0, using });
    records.push(Record::Plus { left: 0, right: count as u8 });
    let mut texts = vec![b"8".to_vec(); count + 1];
    texts[0] = b"{4,-1,0}".to_vec();
    (records, texts)
}

/// Room for every element of the used part, or one more than that.
fn full_stream_buffer(random: &mut Random, past: usize) -> FormulaAndTexts {
    let half = limits::STREAM_ELEMENTS / 2;
    let list = ints(63, 1);
    let list_text = [b"{0".as_slice(), &b",1".repeat(half - 2), b"}"].concat();
    let (input, expression, scalars) = match random.below(3) {
        0 => (Some(list), vec![Record::Variable { variable: 63 }], 1 + past),
        1 => (Some(list), vec![Record::Sum { variable: 63 }], past),
        _ => {
            // The iota takes its constant, and three streams with one flag more.
            let number = (limits::STREAM_ELEMENTS as i32 - 2) / 3;
            let room = 3 * number as usize + 2;
            let constant = Record::Constant { number };
            let iota = Record::Iota { variable: 62 };
            let expression = vec![Record::Let { variable: 62 }, constant, iota];
            (None, expression, limits::STREAM_ELEMENTS - room + past)
        }
    };
    let mut records: Vec<Record> = (0..scalars).map(|index| ints(index as u8, 0)).collect();
    let mut texts = vec![b"-3".to_vec(); scalars];
    if let Some(input) = input {
        records.push(input);
        texts.push(list_text);
    }
    records.extend(expression);
    (records, texts)
}

/// A job and a formula of just so many bytes: a long value text, and bytes left over.
fn job_and_formula_of_bytes(length: usize) -> (Vec<u8>, Vec<u8>) {
    let records = [ints(0, 1), Record::Variable { variable: 0 }];
    let mut job = Record::write_all(&records);
    let (value_header, braces) = (4, 2);
    let inside_braces = length - job.len() - value_header - braces;
    let number = b"-2147483648,";
    let numbers = number.repeat((inside_braces - 1) / number.len());
    let mut last = vec![b'1'; inside_braces - numbers.len()];
    match last.len() {
        12 => last[1] = b',',
        11 => last[0] = b'-',
        _ => {}
    }
    Record::Value { text: [b"{", numbers.as_slice(), &last, b"}"].concat() }.write(&mut job);
    let mut formula = Record::write_all(&[Record::Constant { number: 0 }]);
    formula.resize(length, b'K');
    (job, formula)
}

#[cfg(test)]
mod tests {
    use super::*;

    /// The refusal's number, 0 for an answer.
    fn outcome(job: &[u8]) -> u32 {
        let answer = reference::run(job, limits::STREAM_ELEMENTS, limits::ANSWER_BYTES);
        answer.map_or_else(|refusal| refusal.number, |_| 0)
    }

    fn outcome_of((records, texts): FormulaAndTexts) -> u32 {
        outcome(&crate::job_and_formula(&records, &texts).0)
    }

    #[test]
    fn the_listing_of_deep_values_passes_what_the_program_lends() {
        let bytes = |nesting: usize| {
            let (records, _) = guards::deep_values(&mut Random::new(3), nesting);
            reference::list(&Record::write_all(&records), limits::ANSWER_BYTES)
        };
        assert!(bytes(2).is_ok());
        let refusal = bytes(limits::NESTING).expect_err("a listing that is too long");
        assert!(refusal.number == 10 && refusal.place > 300_000, "{refusal}");
    }

    #[test]
    fn a_limit_is_met_and_one_past_it_is_refused() {
        for seed in 0..40 {
            let mut random = Random::new(seed);
            let random = &mut random;
            assert_eq!([16, 17].map(|count| outcome_of(inputs(random, count))), [0, 4]);
            let records = [256, 257].map(|count| outcome_of(expression_records(random, count)));
            assert_eq!(records, [0, 4]);
            assert_eq!([64, 65].map(|count| outcome_of(nested_lets(random, count))), [0, 4]);
            assert_eq!([0, 1].map(|past| outcome_of(nested_comprehensions(past))), [0, 4]);
            assert_eq!([8, 9].map(|depth| outcome_of(input_depth(depth))), [0, 3]);
            assert_eq!([8, 9].map(|depth| outcome_of(type_depth(depth))), [0, 6]);
            assert_eq!([63, 64].map(|name| outcome_of(highest_variable(random, name))), [0, 3]);
            assert_eq!([8, 9].map(|count| outcome_of(using_list(count))), [0, 3]);
            assert_eq!([0, 1].map(|past| outcome_of(full_stream_buffer(random, past))), [0, 9]);
            let listed = [8, 9].map(|count| outcome_of(guards::using_list(random, count)));
            assert_eq!(listed, [0, 3]);
            let nested = [64, 65].map(|count| outcome_of(guards::nested(random, count)));
            assert_eq!(nested, [0, 4]);
            let depths = [8, 9].map(|depth| outcome_of(guards::type_depth(random, depth)));
            assert_eq!(depths, [0, 6]);
            let names = [63, 64].map(|name| outcome_of(guards::highest_variable(random, name)));
            assert_eq!(names, [0, 3]);
            let full = [0, 1].map(|past| outcome_of(guards::full_stream_buffer(random, past)));
            assert_eq!(full, [0, 9]);
        }
        for seed in 0..8 {
            let random = &mut Random::new(seed);
            let deep = [64, 65].map(|count| outcome_of(guards::deep_values(random, count)));
            assert_eq!(deep, [0, 4]);
        }
        let lengths = [65_536, 65_537];
        assert_eq!(lengths.map(|length| outcome(&job_and_formula_of_bytes(length).0)), [0, 1]);
        assert_eq!(lengths.map(|length| job_and_formula_of_bytes(length).0.len()), lengths);
    }
}
