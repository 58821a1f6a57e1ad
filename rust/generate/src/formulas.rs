//! Random well-typed formulas of all forms, with value texts for their inputs.

use crate::random::Random;
use crate::values::{self, Scalars};
use reference::limits;
use reference::record::Record;
use reference::{Base, Type};

/// A formula's records, and a value text of the right type for each input.
pub fn formula_and_texts(random: &mut Random) -> (Vec<Record>, Vec<Vec<u8>>) {
    let count = if random.one_in(8) { random.below(17) } else { random.below(5) };
    let mut records = Vec::new();
    let mut scope = Scope::new();
    let mut texts = Vec::new();
    for _ in 0..count {
        let variable = variable_not_in(random, &scope);
        let value_type = value_type(random);
        let Type { base, depth } = value_type;
        records.push(Record::Input { variable, base, depth });
        texts.push(values::text(random, value_type));
        scope.push((variable, value_type));
    }
    let wanted = value_type(random);
    let fuel = random.below(14);
    Maker { random, records: &mut records, fuel }.expression(&scope, wanted, 0);
    (records, texts)
}

/// The variables in sight with their types, each once.
type Scope = Vec<(u8, Type)>;

fn value_type(random: &mut Random) -> Type {
    let base = if random.one_in(3) { Base::Bool } else { Base::Int };
    Type { base, depth: depth(random) }
}

fn depth(random: &mut Random) -> u8 {
    match random.below(20) {
        0 => random.below(u64::from(limits::DEPTH) + 1) as u8,
        1..=5 => 0,
        6..=12 => 1,
        13..=17 => 2,
        _ => 3,
    }
}

fn variable_not_in(random: &mut Random, scope: &Scope) -> u8 {
    loop {
        let variable = random.below(u64::from(limits::VARIABLE) + 1) as u8;
        if scope.iter().all(|(name, _)| *name != variable) {
            return variable;
        }
    }
}

fn with(scope: &Scope, variable: u8, value_type: Type) -> Scope {
    let mut inner: Scope = scope.iter().copied().filter(|(name, _)| *name != variable).collect();
    inner.push((variable, value_type));
    inner
}

/// The variables of a scope that can stand in each place.
struct InSight {
    ints: Scope,
    bools: Scope,
    scalars: Scope,
    lists: Scope,
    flat_lists: Scope,
}

impl InSight {
    fn new(scope: &Scope) -> InSight {
        let those =
            |fits: fn(Type) -> bool| scope.iter().copied().filter(|(_, of)| fits(*of)).collect();
        InSight {
            ints: those(|of| of == Type::INT),
            bools: those(|of| of == Type::BOOL),
            scalars: those(Type::is_scalar),
            lists: those(|of| !of.is_scalar()),
            flat_lists: those(|of| of == Type::ints(1)),
        }
    }
}

/// How an expression of a wanted type can be made.
#[derive(Clone, Copy)]
enum Way {
    Variable,
    Constant,
    Truth,
    Plus,
    Comparison,
    Not,
    Sum,
    Iota,
    Each,
    Guarded,
    Let,
}

struct Maker<'a> {
    random: &'a mut Random,
    records: &'a mut Vec<Record>,
    /// How many more lets and comprehensions may be made where a shorter way is there.
    fuel: u64,
}

impl Maker<'_> {
    /// Makes an expression of this type, with so many records round it.
    fn expression(&mut self, scope: &Scope, wanted: Type, nesting: usize) {
        let in_sight = InSight::new(scope);
        let same: Scope = scope.iter().copied().filter(|(_, of)| *of == wanted).collect();
        let mut ways = Vec::new();
        let mut way = |possible: bool, way: Way| {
            if possible {
                ways.push(way)
            }
        };
        way(!same.is_empty(), Way::Variable);
        way(wanted == Type::INT, Way::Constant);
        way(wanted == Type::INT && !in_sight.ints.is_empty(), Way::Plus);
        way(wanted == Type::INT && !in_sight.flat_lists.is_empty(), Way::Sum);
        way(wanted == Type::BOOL, Way::Truth);
        way(wanted == Type::BOOL && !in_sight.ints.is_empty(), Way::Comparison);
        way(wanted == Type::BOOL && !in_sight.bools.is_empty(), Way::Not);
        way(wanted == Type::ints(1) && !in_sight.ints.is_empty(), Way::Iota);
        let may_go_on = self.fuel > 0 && nesting + 12 < limits::NESTING;
        let only_longer_ways = ways.is_empty();
        if may_go_on || only_longer_ways {
            let each = !wanted.is_scalar() && !in_sight.lists.is_empty();
            let guarded = !wanted.is_scalar() && !in_sight.bools.is_empty();
            if each {
                ways.extend([Way::Each; 3]);
            }
            if guarded {
                ways.extend([Way::Guarded; 3]);
            }
            if may_go_on || !(each || guarded) {
                ways.extend([Way::Let; 2]);
            }
            self.fuel = self.fuel.saturating_sub(1);
        }
        match *self.random.pick(&ways) {
            Way::Variable => {
                let variable = self.random.pick(&same).0;
                self.records.push(Record::Variable { variable });
            }
            Way::Constant => self.constant(),
            Way::Truth => {
                let truth = self.random.one_in(2);
                self.records.push(Record::Truth { truth });
            }
            Way::Plus => {
                let (left, right) = self.two(&in_sight.ints);
                self.records.push(Record::Plus { left, right });
            }
            Way::Comparison => {
                let (left, right) = self.two(&in_sight.ints);
                self.records.push(if self.random.one_in(2) {
                    Record::AtMost { left, right }
                } else {
                    Record::Equal { left, right }
                });
            }
            Way::Not => {
                let variable = self.random.pick(&in_sight.bools).0;
                self.records.push(Record::Not { variable });
            }
            Way::Sum => {
                let variable = self.random.pick(&in_sight.flat_lists).0;
                self.records.push(Record::Sum { variable });
            }
            Way::Iota => {
                let variable = self.random.pick(&in_sight.ints).0;
                self.records.push(Record::Iota { variable });
            }
            Way::Each => self.each(scope, &in_sight, wanted, nesting),
            Way::Guarded => self.guarded(scope, &in_sight, wanted, nesting),
            Way::Let => self.let_in(scope, &in_sight, wanted, nesting),
        }
    }

    fn constant(&mut self) {
        let scalars = if self.random.one_in(25) {
            Scalars::choose(self.random, Base::Int)
        } else {
            Scalars::Small
        };
        let number = scalars.number(self.random);
        self.records.push(Record::Constant { number });
    }

    fn two(&mut self, ints: &Scope) -> (u8, u8) {
        (self.random.pick(ints).0, self.random.pick(ints).0)
    }

    fn each(&mut self, scope: &Scope, in_sight: &InSight, wanted: Type, nesting: usize) {
        let (source, source_type) = *self.random.pick(&in_sight.lists);
        let item = self.name(scope);
        let mut listed = self.listed(&in_sight.scalars, 2);
        listed.retain(|(variable, _)| *variable != item);
        let using = listed.iter().map(|(variable, _)| *variable).collect();
        self.records.push(Record::Each { item, source, using });
        self.expression(&with(&listed, item, source_type.item()), wanted.item(), nesting + 1);
    }

    fn guarded(&mut self, scope: &Scope, in_sight: &InSight, wanted: Type, nesting: usize) {
        let guard = self.random.pick(&in_sight.bools).0;
        let listed = self.listed(scope, 4);
        let using = listed.iter().map(|(variable, _)| *variable).collect();
        self.records.push(Record::Guarded { guard, using });
        self.expression(&listed, wanted.item(), nesting + 1);
    }

    /// Some variables for a using list, each once: so many at most, now and then as many as may be.
    fn listed(&mut self, choices: &Scope, few: usize) -> Scope {
        let longest = if self.random.one_in(10) { limits::USING } else { few };
        let mut listed = Scope::new();
        for _ in 0..self.random.below(longest as u64 + 1) {
            if choices.is_empty() {
                break;
            }
            let choice = *self.random.pick(choices);
            if !listed.contains(&choice) {
                listed.push(choice);
            }
        }
        listed
    }

    /// A let of something that helps towards what is wanted, or of anything.
    fn let_in(&mut self, scope: &Scope, in_sight: &InSight, wanted: Type, nesting: usize) {
        // An iota of an int gives a list to go through, and a bool is a guard.
        let helpful = match self.random.below(3) {
            0 if !wanted.is_scalar() => Type::BOOL,
            _ if wanted != Type::ints(1) && !wanted.is_scalar() && !in_sight.ints.is_empty() => {
                Type::ints(1)
            }
            _ => Type::INT,
        };
        let nothing_helps = in_sight.lists.is_empty() && in_sight.bools.is_empty();
        let bound = match self.random.below(4) {
            _ if self.fuel == 0 || (!wanted.is_scalar() && nothing_helps) => helpful,
            0 => {
                let Type { base, depth } = value_type(self.random);
                Type { base, depth: depth.min(wanted.depth + 1) }
            }
            1 => *self.random.pick(&[Type::ints(1), Type::BOOL, Type::bools(1)]),
            _ => helpful,
        };
        let variable = self.name(scope);
        self.records.push(Record::Let { variable });
        self.expression(scope, bound, nesting + 1);
        self.expression(&with(scope, variable, bound), wanted, nesting + 1);
    }

    /// A name to bind: often one that is in sight, which it then hides.
    fn name(&mut self, scope: &Scope) -> u8 {
        if !scope.is_empty() && self.random.one_in(3) {
            return self.random.pick(scope).0;
        }
        self.random.below(u64::from(limits::VARIABLE) + 1) as u8
    }
}
