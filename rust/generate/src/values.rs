//! Random values: empty lists everywhere, small numbers, numbers at the range's ends, and bools.

use crate::random::Random;
use reference::value::Value;
use reference::{Base, Type};

/// How the ints or the bools of a value are chosen.
#[derive(Clone, Copy)]
pub enum Scalars {
    /// From 0 to 5 mostly, so that an iota of them is small; now and then negative.
    Small,
    /// At the range's ends, with small ones between, so that totals come near the ends.
    NearTheEnds,
    Any,
    /// So many of four are true.
    Bools {
        true_of_four: u64,
    },
}

impl Scalars {
    pub fn choose(random: &mut Random, base: Base) -> Scalars {
        if base == Base::Bool {
            let true_of_four = *random.pick(&[0, 1, 2, 2, 3, 3, 4]);
            return Scalars::Bools { true_of_four };
        }
        match random.below(12) {
            0 => Scalars::NearTheEnds,
            1 => Scalars::Any,
            _ => Scalars::Small,
        }
    }

    fn one(self, random: &mut Random) -> Value {
        match self {
            Scalars::Bools { true_of_four } => Value::Bool(random.below(4) < true_of_four),
            _ => Value::Int(self.number(random)),
        }
    }

    /// An int; of bools, 0 or 1.
    pub fn number(self, random: &mut Random) -> i32 {
        let small = random.below(6) as i32;
        match self {
            Scalars::Small if random.one_in(60) => -1 - small,
            Scalars::Small if random.one_in(40) => 6 + 5 * small,
            Scalars::Small => small,
            Scalars::NearTheEnds => {
                let choices = [i32::MAX, i32::MIN, i32::MAX - small, i32::MIN + small, 1, -1, 0];
                *random.pick(&choices)
            }
            Scalars::Any => (random.number() >> random.below(64)) as i32,
            Scalars::Bools { .. } => small % 2,
        }
    }
}

/// A value of this depth whose scalars are so chosen.
pub fn value(random: &mut Random, depth: u8, scalars: Scalars) -> Value {
    if random.one_in(4) {
        return full_value(random, depth, scalars);
    }
    sparse_value(random, depth, scalars)
}

/// Empty lists are at every level, and deep values seldom reach their last.
fn sparse_value(random: &mut Random, depth: u8, scalars: Scalars) -> Value {
    if depth == 0 {
        return scalars.one(random);
    }
    let longest = if depth > 3 { 3 } else { 6 };
    let length = if random.one_in(4) { 0 } else { random.below(longest) };
    Value::list((0..length).map(|_| sparse_value(random, depth - 1, scalars)).collect())
}

/// Most lists hold something, so that deep values reach their last level.
fn full_value(random: &mut Random, depth: u8, scalars: Scalars) -> Value {
    if depth == 0 {
        return scalars.one(random);
    }
    let longest = if depth > 3 { 2 } else { 4 };
    let length = if random.one_in(12) { 0 } else { 1 + random.below(longest) };
    Value::list((0..length).map(|_| full_value(random, depth - 1, scalars)).collect())
}

pub fn text(random: &mut Random, value_type: Type) -> Vec<u8> {
    let scalars = Scalars::choose(random, value_type.base);
    value(random, value_type.depth, scalars).write()
}
