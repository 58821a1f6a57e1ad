//! Evaluation element by element, with work and steps by the charge table.
//!
//! Work is the charge of every evaluation of every record, and the plain charge is added up beside
//! it. Steps are the transducers that some evaluation reaches, each counted once: a transducer is a
//! record and its place in that record's code. No stream is run here.

use crate::formula::{Expression, Form, Formula, Variable};
use crate::limits;
use crate::value::Value;
use std::collections::BTreeSet;

#[derive(Debug, PartialEq, Eq)]
pub struct Evaluation {
    pub value: Value,
    pub work: u64,
    pub plain: u64,
    pub steps: u64,
}

#[derive(Debug, PartialEq, Eq)]
pub enum WithoutValue {
    /// An iota of a negative, or a result out of range.
    NoValue,
    /// More iota items than any stream buffer holds: evaluation was given up.
    TooLarge,
}

/// Evaluates a checked formula over its inputs' values.
pub fn evaluate(formula: &Formula, values: &[Value]) -> Result<Evaluation, WithoutValue> {
    let variables = formula.inputs.iter().map(|input| input.variable);
    let mut scope: Scope = variables.zip(values.iter().cloned()).collect();
    let mut evaluator = Evaluator::default();
    let value = evaluator.value_of(&formula.expression, &mut scope)?;
    let Evaluator { work, plain, reached, .. } = evaluator;
    Ok(Evaluation { value, work, plain, steps: reached.len() as u64 })
}

/// The variables in sight; the last of a name counts.
type Scope = Vec<(Variable, Value)>;

/// A transducer of some record's code.
#[derive(Clone, Copy, PartialEq, Eq, PartialOrd, Ord)]
struct Place {
    record: usize,
    /// 0 for the record's own transducers, and i for those that pack its i-th listed variable.
    part: usize,
    index: usize,
}

#[derive(Default)]
struct Evaluator {
    work: u64,
    plain: u64,
    reached: BTreeSet<Place>,
    iota_items: usize,
}

impl Evaluator {
    fn value_of(
        &mut self,
        expression: &Expression,
        scope: &mut Scope,
    ) -> Result<Value, WithoutValue> {
        match &expression.form {
            Form::Variable(variable) => Ok(look_up(scope, *variable)),
            Form::Let { variable, bound, rest } => {
                let value = self.value_of(bound, scope)?;
                scope.push((*variable, value));
                let result = self.value_of(rest, scope);
                scope.pop();
                result
            }
            Form::Constant(number) => {
                self.charge(expression, 1, 1, 1);
                Ok(Value::Int(*number))
            }
            Form::Truth(truth) => {
                self.charge(expression, 1, 1, 1);
                Ok(Value::Bool(*truth))
            }
            Form::Iota(variable) => self.iota(expression, int(scope, *variable)),
            Form::Plus(left, right) => {
                self.charge(expression, 3, 1, 1);
                let sum = i64::from(int(scope, *left)) + i64::from(int(scope, *right));
                in_range(sum)
            }
            Form::AtMost(left, right) => {
                self.charge(expression, 3, 1, 1);
                Ok(Value::Bool(int(scope, *left) <= int(scope, *right)))
            }
            Form::Equal(left, right) => {
                self.charge(expression, 3, 1, 1);
                Ok(Value::Bool(int(scope, *left) == int(scope, *right)))
            }
            Form::Not(variable) => {
                self.charge(expression, 2, 1, 1);
                Ok(Value::Bool(!truth(scope, *variable)))
            }
            Form::Sum(variable) => {
                let items = list(scope, *variable);
                let count = items.len() as u64;
                self.charge(expression, 2 * count + 2, count + 1, 1);
                in_range(items.iter().map(|item| i64::from(number_of(item))).sum())
            }
            Form::Each { item, source, using, body } => {
                let items = list(scope, *source);
                let (count, listed) = (items.len() as u64, using.len() as u64);
                let work = 2 * count + 1 + listed * (2 * count + 2);
                self.charge(expression, work, (1 + listed) * (1 + count), 1 + using.len());
                let mut results = Vec::new();
                for element in items.iter() {
                    let mut inner = only(scope, using);
                    inner.push((*item, element.clone()));
                    results.push(self.value_of(body, &mut inner)?);
                }
                Ok(Value::list(results))
            }
            Form::Guarded { guard, using, body } => {
                let guard = truth(scope, *guard);
                let mut inner = only(scope, using);
                let elements: u64 = inner.iter().map(|(_, value)| value.elements()).sum();
                let once = u64::from(guard);
                self.charge(expression, (2 + once) + (1 + 2 * once), 2 + elements, 2);
                for (index, (_, value)) in inner.iter().enumerate() {
                    let first = Place { record: expression.number, part: index + 1, index: 0 };
                    self.pack(first, value, once);
                }
                if !guard {
                    return Ok(Value::list(vec![]));
                }
                Ok(Value::list(vec![self.value_of(body, &mut inner)?]))
            }
        }
    }

    fn iota(&mut self, expression: &Expression, number: i32) -> Result<Value, WithoutValue> {
        let count = usize::try_from(number).map_err(|_| WithoutValue::NoValue)?;
        self.iota_items += count;
        if self.iota_items > limits::STREAM_ELEMENTS {
            return Err(WithoutValue::TooLarge);
        }
        let (items, reached) = (count as u64, if count > 0 { 4 } else { 3 });
        self.charge(expression, 7 * items + 4, items + 1, reached);
        Ok(Value::list((0..number).map(Value::Int).collect()))
    }

    /// Charges the packing of a value whose code starts at a place; `once` is 1 where it is kept.
    fn pack(&mut self, first: Place, value: &Value, once: u64) {
        match value {
            Value::Int(_) | Value::Bool(_) => {
                self.work += 2 + once;
                self.reached.insert(first);
            }
            Value::List(items) => {
                let count = items.len() as u64;
                self.work += 5 * count + 5 + once * (count + 1);
                let at = |index| Place { index: first.index + index, ..first };
                self.reached.extend((0..3).map(at));
                items.iter().for_each(|item| self.pack(at(3), item, once));
            }
        }
    }

    /// Counts one evaluation, which reaches the first so many of the record's own transducers.
    fn charge(&mut self, expression: &Expression, work: u64, plain: u64, transducers: usize) {
        self.work += work;
        self.plain += plain;
        let place = |index| Place { record: expression.number, part: 0, index };
        self.reached.extend((0..transducers).map(place));
    }
}

fn look_up(scope: &Scope, variable: Variable) -> Value {
    let found = scope.iter().rev().find(|(name, _)| *name == variable);
    found.expect("a checked formula has no unbound variable").1.clone()
}

/// The listed variables alone, as a body sees them.
fn only(scope: &Scope, using: &[Variable]) -> Scope {
    using.iter().map(|name| (*name, look_up(scope, *name))).collect()
}

fn number_of(value: &Value) -> i32 {
    match value {
        Value::Int(number) => *number,
        _ => panic!("a checked formula has ints where it wants them"),
    }
}

fn int(scope: &Scope, variable: Variable) -> i32 {
    number_of(&look_up(scope, variable))
}

fn truth(scope: &Scope, variable: Variable) -> bool {
    match look_up(scope, variable) {
        Value::Bool(truth) => truth,
        _ => panic!("a checked formula has bools where it wants them"),
    }
}

fn list(scope: &Scope, variable: Variable) -> std::rc::Rc<[Value]> {
    match look_up(scope, variable) {
        Value::List(items) => items,
        _ => panic!("a checked formula has lists where it wants them"),
    }
}

fn in_range(number: i64) -> Result<Value, WithoutValue> {
    i32::try_from(number).map(Value::Int).map_err(|_| WithoutValue::NoValue)
}
