//! Jobs with guards in the shapes that matter: over items, over counts, over failing bodies, over
//! deep values packed whole, and in one another.

use crate::random::Random;
use crate::values::{self, Scalars};
use reference::limits;
use reference::record::Record;
use reference::{Base, Type};

type FormulaAndTexts = (Vec<Record>, Vec<Vec<u8>>);

/// A well-typed formula with guards, and a value text for each input.
pub fn formula_and_texts(random: &mut Random) -> FormulaAndTexts {
    match random.below(6) {
        0 => kept_items(random),
        1 => kept_lists(random),
        2 => failing_body(random),
        3 | 4 => values_packed_whole(random),
        _ => bools_guard_themselves(random),
    }
}

fn input(variable: u8, of: Type) -> Record {
    Record::Input { variable, base: of.base, depth: of.depth }
}

/// Negates a bool half of the time.
fn maybe_not(random: &mut Random, variable: u8, records: &mut Vec<Record>) {
    if random.one_in(2) {
        records.extend([Record::Let { variable }, Record::Not { variable }]);
    }
}

/// `only the items that are at most (at least, just) the limit`, with a body that may fail.
fn kept_items(random: &mut Random) -> FormulaAndTexts {
    let (source, limit, item, guard) = (0, 1, 2, 3);
    let mut records = vec![input(source, Type::ints(1)), input(limit, Type::INT)];
    records.push(Record::Each { item, source, using: vec![limit] });
    records.push(Record::Let { variable: guard });
    records.push(match random.below(3) {
        0 => Record::AtMost { left: item, right: limit },
        1 => Record::AtMost { left: limit, right: item },
        _ => Record::Equal { left: limit, right: item },
    });
    if random.one_in(4) {
        maybe_not(random, guard, &mut records);
    }
    let using = if random.one_in(3) { vec![limit, item, guard] } else { vec![limit, item] };
    records.push(Record::Guarded { guard, using });
    let bodies = [
        Record::Variable { variable: item },
        Record::Plus { left: item, right: item },
        Record::Plus { left: limit, right: item },
        Record::Iota { variable: item },
        Record::Equal { left: item, right: limit },
    ];
    let body = random.pick(&bodies).clone();
    let (limits, others): (&[i32], &[i32]) = match body {
        // Mostly such that what the guard keeps has a value.
        Record::Iota { .. } => (&[0, 0, 0, 1, 2, 5], &[-1, i32::MIN, 7]),
        Record::Plus { .. } => {
            (&[i32::MAX / 2, i32::MIN / 2, 0, -1], &[i32::MAX, i32::MIN, i32::MAX / 2 + 1])
        }
        _ => (&[0, 1, i32::MAX, i32::MIN], &[-1, 2, i32::MAX]),
    };
    records.push(body);
    let limit = *random.pick(limits);
    let number = |random: &mut Random| match random.below(3) {
        0 => *random.pick(others),
        1 => limit,
        _ => random.below(4) as i32,
    };
    let count = random.below(7);
    let items: Vec<String> = (0..count).map(|_| number(random).to_string()).collect();
    let items = format!("{{{}}}", items.join(","));
    (records, vec![items.into_bytes(), limit.to_string().into_bytes()])
}

/// `only the lists with at most so many items`, whole, at any depth; further guards inside them.
fn kept_lists(random: &mut Random) -> FormulaAndTexts {
    let base = if random.one_in(2) { Base::Int } else { Base::Bool };
    let of = Type { base, depth: 2 + random.below(u64::from(limits::DEPTH) - 1) as u8 };
    let (source, limit, item, count, guard, inner) = (0, 1, 2, 3, 4, 5);
    let mut records = vec![input(source, of), input(limit, Type::INT)];
    records.push(Record::Each { item, source, using: vec![limit] });
    records.push(Record::Let { variable: count });
    records.push(Record::Each { item: inner, source: item, using: vec![] });
    records.push(Record::Constant { number: 1 });
    records.extend([Record::Let { variable: count }, Record::Sum { variable: count }]);
    records.push(Record::Let { variable: guard });
    records.push(Record::AtMost { left: count, right: limit });
    maybe_not(random, guard, &mut records);
    let mut using = vec![item, guard];
    using.extend([count, limit].into_iter().filter(|_| random.one_in(2)));
    if random.one_in(2) {
        using.reverse();
    }
    records.push(Record::Guarded { guard, using });
    // The comprehension and the guard take two braces.
    let depth_left = limits::DEPTH - 2;
    match random.below(3) {
        0 if of.depth > depth_left + 1 => records.push(Record::Not { variable: guard }),
        0 => records.push(Record::Variable { variable: item }),
        1 => {
            records.push(Record::Each { item: inner, source: item, using: vec![guard] });
            records.push(Record::Guarded { guard, using: vec![inner, guard] });
            let shallow = of.depth - 2 + 4 <= limits::DEPTH;
            let variable = if shallow { inner } else { guard };
            records.push(Record::Variable { variable });
        }
        _ => {
            records.push(Record::Guarded { guard, using: vec![guard, item] });
            let shallow = of.depth - 1 + 3 <= limits::DEPTH;
            let variable = if shallow { item } else { guard };
            records.push(Record::Variable { variable });
        }
    }
    let limit = random.below(3).to_string().into_bytes();
    (records, vec![values::text(random, of), limit])
}

/// A guard, mostly false, over a body without a value.
fn failing_body(random: &mut Random) -> FormulaAndTexts {
    let (guard, number, list, item) = (0, 1, 2, 3);
    let large = random.one_in(2);
    let constant = if large { i32::MAX } else { -1 };
    let mut records =
        vec![Record::Let { variable: guard }, Record::Truth { truth: random.one_in(5) }];
    records.extend([Record::Let { variable: number }, Record::Constant { number: constant }]);
    let outer_guards = random.below(3);
    for _ in 0..outer_guards {
        records.push(Record::Guarded { guard, using: vec![guard, number] });
    }
    if random.one_in(2) {
        // The guard is listed as a bool of every item.
        records.extend([Record::Let { variable: list }, Record::Constant { number: 2 }]);
        records.extend([Record::Let { variable: list }, Record::Iota { variable: list }]);
        records.push(Record::Each { item, source: list, using: vec![number, guard] });
    }
    records.push(Record::Guarded { guard, using: vec![number] });
    records.push(if large {
        Record::Plus { left: number, right: number }
    } else {
        Record::Iota { variable: number }
    });
    (records, vec![])
}

/// Up to eight inputs of any type packed whole, once or more, and one of them given back.
fn values_packed_whole(random: &mut Random) -> FormulaAndTexts {
    let guard = 20;
    let count = 1 + random.below(limits::USING as u64) as u8;
    let mut records = vec![input(guard, Type::BOOL)];
    let mut texts = vec![values::text(random, Type::BOOL)];
    let mut scope: Vec<(u8, Type)> = vec![];
    for variable in 0..count {
        let base = if random.one_in(3) { Base::Bool } else { Base::Int };
        let depth = random.below(u64::from(limits::DEPTH) + 1) as u8;
        let of = Type { base, depth: if random.one_in(4) { limits::DEPTH } else { depth } };
        records.push(input(variable, of));
        texts.push(values::text(random, of));
        scope.push((variable, of));
    }
    let mut braces = 0;
    let guards = 1 + random.below(3) as u8;
    for level in 0..guards {
        let mut using: Vec<u8> = scope.iter().map(|(variable, _)| *variable).collect();
        let place = random.below(using.len() as u64 + 1) as usize;
        if level + 1 < guards {
            // The guard is listed too, so that it is there for the next.
            using.insert(place, guard);
        }
        if using.len() > limits::USING || random.one_in(4) {
            let dropped = *random.pick(&scope);
            using.retain(|variable| *variable != dropped.0);
            scope.retain(|kept| *kept != dropped);
        }
        records.push(Record::Guarded { guard, using });
        braces += 1;
        if scope.is_empty() {
            break;
        }
    }
    let shallow: Vec<(u8, Type)> =
        scope.iter().copied().filter(|(_, of)| of.depth + braces <= limits::DEPTH).collect();
    records.push(match shallow.is_empty() {
        true => Record::Constant { number: 6 },
        false => Record::Variable { variable: random.pick(&shallow).0 },
    });
    (records, texts)
}

/// Down to the bools of a list, which guard themselves, one in another.
fn bools_guard_themselves(random: &mut Random) -> FormulaAndTexts {
    let levels = 1 + random.below(4) as u8;
    let of = Type::bools(levels);
    let (name, other) = (7, 8);
    let mut records = vec![input(name, of)];
    for _ in 0..levels {
        records.push(Record::Each { item: name, source: name, using: vec![] });
    }
    for _ in 0..random.below(u64::from(limits::DEPTH - levels)) {
        maybe_not(random, name, &mut records);
        records.push(Record::Guarded { guard: name, using: vec![name] });
    }
    match random.below(3) {
        0 => records.push(Record::Variable { variable: name }),
        1 => records.push(Record::Not { variable: name }),
        _ => {
            records.extend([Record::Let { variable: other }, Record::Truth { truth: true }]);
            records.push(Record::Guarded { guard: other, using: vec![] });
            records.push(Record::Constant { number: Scalars::Small.number(random) });
        }
    }
    (records, vec![values::text(random, of)])
}

#[cfg(test)]
mod tests {
    use super::*;
    use std::collections::BTreeMap;

    #[test]
    fn every_shape_checks_and_gets_a_value_or_none() {
        let shapes: [fn(&mut Random) -> FormulaAndTexts; 5] =
            [kept_items, kept_lists, failing_body, values_packed_whole, bools_guard_themselves];
        for (index, shape) in shapes.into_iter().enumerate() {
            let mut outcomes = BTreeMap::new();
            for seed in 0..500 {
                let (records, texts) = shape(&mut Random::new(seed));
                let (job, formula) = crate::job_and_formula(&records, &texts);
                assert_eq!(reference::check(&formula).err(), None, "shape {index}, {records:?}");
                let answer = reference::run(&job, limits::STREAM_ELEMENTS, limits::ANSWER_BYTES);
                let outcome = answer.map_or_else(|refusal| refusal.number, |_| 0);
                *outcomes.entry(outcome).or_insert(0) += 1;
            }
            assert!(outcomes.keys().all(|number| [0, 8, 9].contains(number)), "{outcomes:?}");
            assert!(outcomes[&0] > 350, "shape {index}: {outcomes:?}");
        }
    }
}
