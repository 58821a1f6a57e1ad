//! Checking a formula: refusals 5 and 6, and its type.

use crate::formula::{read_formula, Expression, Form, Formula, Variable};
use crate::limits;
use crate::refusal::Refusal;
use crate::value_type::Type;
use std::collections::BTreeMap;

/// The type of each variable in sight.
type Scope = BTreeMap<Variable, Type>;

/// The formula's type, or one of 1 to 6.
pub fn check(formula: &[u8]) -> Result<Type, Refusal> {
    check_formula(&read_formula(formula)?)
}

pub fn check_formula(formula: &Formula) -> Result<Type, Refusal> {
    let mut scope = Scope::new();
    for input in &formula.inputs {
        if scope.insert(input.variable, input.value_type).is_some() {
            return Err(Refusal::new(5, input.offset));
        }
    }
    type_of(&formula.expression, &scope)
}

fn type_of(expression: &Expression, scope: &Scope) -> Result<Type, Refusal> {
    let unbound = Refusal::new(5, expression.offset);
    let wrong_type = Refusal::new(6, expression.offset);
    let bound = |variable: &Variable| scope.get(variable).copied().ok_or(unbound);
    let demand = |holds: bool, refusal: Refusal| if holds { Ok(()) } else { Err(refusal) };
    let listed = |using: &[Variable]| {
        let mut inner = Scope::new();
        for variable in using {
            let repeated = inner.insert(*variable, bound(variable)?).is_some();
            demand(!repeated, unbound)?;
        }
        Ok(inner)
    };
    let list_of = |body: &Expression, inner: &Scope| {
        let item = type_of(body, inner)?;
        demand(item.depth < limits::DEPTH, wrong_type)?;
        Ok(item.list())
    };
    match &expression.form {
        Form::Variable(variable) => bound(variable),
        Form::Let { variable, bound, rest } => {
            let mut inner = scope.clone();
            inner.insert(*variable, type_of(bound, scope)?);
            type_of(rest, &inner)
        }
        Form::Constant(_) => Ok(Type::INT),
        Form::Truth(_) => Ok(Type::BOOL),
        Form::Iota(variable) => {
            demand(bound(variable)? == Type::INT, wrong_type)?;
            Ok(Type::ints(1))
        }
        Form::Plus(left, right) | Form::AtMost(left, right) | Form::Equal(left, right) => {
            let types = (bound(left)?, bound(right)?);
            demand(types == (Type::INT, Type::INT), wrong_type)?;
            let plus = matches!(expression.form, Form::Plus(..));
            Ok(if plus { Type::INT } else { Type::BOOL })
        }
        Form::Not(variable) => {
            demand(bound(variable)? == Type::BOOL, wrong_type)?;
            Ok(Type::BOOL)
        }
        Form::Sum(variable) => {
            demand(bound(variable)? == Type::ints(1), wrong_type)?;
            Ok(Type::INT)
        }
        Form::Each { item, source, using, body } => {
            let source_type = bound(source)?;
            let mut inner = listed(using)?;
            demand(!using.contains(item), unbound)?;
            let scalars = inner.values().all(|listed| listed.is_scalar());
            demand(!source_type.is_scalar() && scalars, wrong_type)?;
            inner.insert(*item, source_type.item());
            list_of(body, &inner)
        }
        Form::Guarded { guard, using, body } => {
            let guard_type = bound(guard)?;
            let inner = listed(using)?;
            demand(guard_type == Type::BOOL, wrong_type)?;
            list_of(body, &inner)
        }
    }
}
