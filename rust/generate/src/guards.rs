//! Guards at a limit of document 01 and one past it, where a guard counts as a comprehension does.

use crate::edges::{bools, ints, FormulaAndTexts};
use crate::random::Random;
use reference::limits;
use reference::record::Record;

/// The guard's own variable in the formulas here.
const GUARD: u8 = 0;

fn truth(random: &mut Random) -> Vec<u8> {
    random.pick(&[b"T", b"F"]).to_vec()
}

/// An int or a bool, or braces round it that hold none, one or two of them at the last level.
fn nested_text(random: &mut Random, of_ints: bool, depth: u8) -> Vec<u8> {
    let scalar: &[u8] = if of_ints { b"5" } else { b"F" };
    let inside = match random.below(4) {
        0 | 1 if depth > 0 => vec![],
        2 if depth > 0 => [scalar, b",", scalar].concat(),
        _ => scalar.to_vec(),
    };
    [b"{".repeat(depth as usize), inside, b"}".repeat(depth as usize)].concat()
}

/// So many inputs of any type listed, the last of them given back.
pub fn using_list(random: &mut Random, count: usize) -> FormulaAndTexts {
    let using: Vec<u8> = (1..=count as u8).collect();
    let mut records = vec![bools(GUARD, 0)];
    let mut texts = vec![truth(random)];
    let last = count as u8;
    for variable in &using {
        let of_ints = random.one_in(2);
        let deepest = if *variable == last { limits::DEPTH - 1 } else { limits::DEPTH };
        let depth = random.below(u64::from(deepest) + 1) as u8;
        records.push(if of_ints { ints(*variable, depth) } else { bools(*variable, depth) });
        texts.push(nested_text(random, of_ints, depth));
    }
    records.push(Record::Guarded { guard: GUARD, using });
    records.push(Record::Variable { variable: last });
    (records, texts)
}

/// Guards and lets, so many in one another: up to eight guards, and a let that ends their braces.
pub fn nested(random: &mut Random, count: usize) -> FormulaAndTexts {
    let guard = Record::Guarded { guard: GUARD, using: vec![GUARD] };
    let (mut records, texts) = (vec![bools(GUARD, 0)], vec![truth(random)]);
    nest(random, count, &[guard], &mut records);
    (records, texts)
}

/// Guards in one another, each of which packs eight variables, most of them as deep as may be.
pub fn deep_values(random: &mut Random, nesting: usize) -> FormulaAndTexts {
    let deepest = limits::DEPTH;
    let (mut records, mut texts) = (vec![bools(GUARD, 0)], vec![truth(random)]);
    let full = 1 + random.below(limits::USING as u64) as u8;
    for variable in 1..=limits::USING as u8 {
        let of_ints = random.one_in(2);
        records.push(if of_ints { ints(variable, deepest) } else { bools(variable, deepest) });
        let one_full = variable == full && random.one_in(3);
        texts.push(if one_full { nested_text(random, of_ints, deepest) } else { b"{}".to_vec() });
    }
    if random.one_in(2) {
        // The guard and seven others.
        let using = (GUARD..limits::USING as u8).collect();
        nest(random, nesting, &[Record::Guarded { guard: GUARD, using }], &mut records);
    } else {
        // Eight others, and a guard of its own before each.
        let truth = random.one_in(2);
        let using = (1..=limits::USING as u8).collect();
        let guard = [
            Record::Let { variable: GUARD },
            Record::Truth { truth },
            Record::Guarded { guard: GUARD, using },
        ];
        nest(random, nesting, &guard, &mut records);
    }
    (records, texts)
}

/// A constant with so many records round it, guards mostly. A let puts an end to the braces of the
/// guards in it; each guard is made by the same records, and those before the last are its lets.
fn nest(random: &mut Random, count: usize, guard: &[Record], records: &mut Vec<Record>) {
    let lets = guard.iter().filter(|record| matches!(record, Record::Let { .. })).count();
    let mut left = count;
    let mut closed_lets = 0;
    while left > 0 {
        let guards = (left / (lets + 1)).min(1 + random.below(u64::from(limits::DEPTH)) as usize);
        records.extend((0..guards).flat_map(|_| guard.to_vec()));
        left -= guards * (lets + 1);
        if left > 0 {
            records.push(Record::Let { variable: 40 });
            closed_lets += 1;
            left -= 1;
        }
    }
    if count > limits::NESTING && random.one_in(2) {
        // Another kind of record is the first past the limit.
        records.push(Record::Guarded { guard: GUARD, using: vec![] });
    }
    records.push(Record::Constant { number: 3 });
    records.extend((0..closed_lets).map(|_| Record::Constant { number: 4 }));
}

/// Comprehensions over bools and then guards in one another, till the type has this depth.
pub fn type_depth(random: &mut Random, depth: usize) -> FormulaAndTexts {
    let comprehensions = random.below(u64::from(limits::DEPTH) + 1) as usize;
    let mut records = vec![bools(GUARD, comprehensions as u8)];
    let text = nested_text(random, false, comprehensions as u8);
    for _ in 0..comprehensions {
        records.push(Record::Each { item: GUARD, source: GUARD, using: vec![] });
    }
    for _ in comprehensions..depth {
        records.push(Record::Guarded { guard: GUARD, using: vec![GUARD] });
    }
    records.push(Record::Variable { variable: GUARD });
    (records, vec![text])
}

/// The variable in each place of the records that conditions have.
pub fn highest_variable(random: &mut Random, variable: u8) -> FormulaAndTexts {
    let (list, int, bool) = (1, 2, 3);
    let mut records = vec![ints(list, 1), ints(int, 0), bools(bool, 0)];
    let highest = Record::Let { variable: limits::VARIABLE };
    let int_bound = [highest.clone(), Record::Variable { variable: int }];
    let bool_bound = [highest, Record::Variable { variable: bool }];
    let let_five = Record::Let { variable: 5 };
    let places = 9;
    match random.below(places) {
        0 => records[2] = bools(variable, 0),
        place @ 1..=3 => {
            records.extend(int_bound);
            records.push(let_five);
            records.push(match place {
                1 => Record::AtMost { left: variable, right: int },
                2 => Record::AtMost { left: int, right: variable },
                _ => Record::Equal { left: int, right: variable },
            });
        }
        4 => {
            records.extend(bool_bound);
            records.extend([let_five, Record::Not { variable }]);
        }
        5 => {
            records.extend(bool_bound);
            records.push(Record::Guarded { guard: variable, using: vec![] });
        }
        6 => {
            records.extend(bool_bound);
            records.push(Record::Guarded { guard: bool, using: vec![int, variable, list] });
        }
        7 => {
            records.extend(bool_bound);
            records.push(Record::Each { item: 6, source: list, using: vec![variable] });
        }
        _ => {
            records.extend(int_bound);
            records.extend([let_five, Record::Equal { left: variable, right: int }]);
        }
    }
    records.push(Record::Constant { number: 3 });
    (records, vec![b"{1,2}".to_vec(), b"3".to_vec(), truth(random)])
}

/// A list of bools packed whole, with room for every element of the used part or one more than that.
pub fn full_stream_buffer(random: &mut Random, past: usize) -> FormulaAndTexts {
    let kept = random.one_in(2);
    // A guard, its flags and an item are one element each, and so is each end of a list. An item is
    // there twice, as a bool and a flag, and so is its guard spread over it; kept, it is there again.
    let (beside, for_each) = if kept { (5, 5) } else { (3, 3) };
    let items = (limits::STREAM_ELEMENTS - beside) / for_each;
    let scalars = limits::STREAM_ELEMENTS - beside - for_each * items + past;
    let mut records: Vec<Record> = (0..scalars).map(|index| ints(10 + index as u8, 0)).collect();
    let mut texts = vec![b"-3".to_vec(); scalars];
    records.extend([bools(GUARD, 0), bools(1, 1)]);
    texts.push(if kept { b"T".to_vec() } else { b"F".to_vec() });
    texts.push([b"{F".as_slice(), &b",T".repeat(items - 1), b"}"].concat());
    records.push(Record::Guarded { guard: GUARD, using: vec![1] });
    records.push(Record::Variable { variable: 1 });
    (records, texts)
}
