//! Translation of a checked formula to stream code.

use crate::code::{defined_ids, free_ids};
use crate::code::{Code, Instruction, Program, StreamId, Transducer, Tree};
use crate::formula::{Expression, Form, Formula, Variable};
use std::collections::{BTreeMap, BTreeSet};

pub fn translate(formula: &Formula) -> Program {
    let mut translator = Translator { next: 0 };
    let mut scope = Scope::new();
    let mut inputs = Vec::new();
    for input in &formula.inputs {
        let tree: Tree = (0..=input.value_type.depth).map(|_| translator.fresh()).collect();
        scope.insert(input.variable, tree.clone());
        inputs.push(tree);
    }
    let (code, result) = translator.expression(&formula.expression, &scope);
    Program { inputs, code, result }
}

type Scope = BTreeMap<Variable, Tree>;

pub(crate) struct Translator {
    next: usize,
}

impl Translator {
    fn fresh(&mut self) -> StreamId {
        let id = StreamId(self.next);
        self.next += 1;
        id
    }

    pub(crate) fn define(&mut self, code: &mut Code, transducer: Transducer) -> StreamId {
        let id = self.fresh();
        code.push(Instruction::Define { id, transducer });
        id
    }

    fn expression(&mut self, expression: &Expression, scope: &Scope) -> (Code, Tree) {
        let mut code = Code::new();
        let data = |variable: &Variable| scope[variable][0];
        let tree = match &expression.form {
            Form::Variable(variable) => scope[variable].clone(),
            Form::Let { variable, bound, rest } => {
                let (bound_code, bound_tree) = self.expression(bound, scope);
                let mut inner = scope.clone();
                inner.insert(*variable, bound_tree);
                let (rest_code, rest_tree) = self.expression(rest, &inner);
                code.extend(bound_code);
                code.extend(rest_code);
                rest_tree
            }
            Form::Constant(number) => self.one(&mut code, Transducer::Const(*number)),
            Form::Truth(truth) => self.one(&mut code, Transducer::ConstTruth(*truth)),
            Form::Iota(variable) => self.iota(&mut code, data(variable)),
            Form::Plus(left, right) => {
                self.one(&mut code, Transducer::MapTwoPlus(data(left), data(right)))
            }
            Form::AtMost(left, right) => {
                self.one(&mut code, Transducer::MapTwoAtMost(data(left), data(right)))
            }
            Form::Equal(left, right) => {
                self.one(&mut code, Transducer::MapTwoEqual(data(left), data(right)))
            }
            Form::Not(variable) => self.one(&mut code, Transducer::MapOneNot(data(variable))),
            Form::Sum(variable) => {
                let flags = scope[variable][1];
                self.one(&mut code, Transducer::SumPlus { flags, data: data(variable) })
            }
            Form::Each { item, source, using, body } => {
                self.each(&mut code, scope, *item, *source, using, body)
            }
            Form::Guarded { guard, using, body } => {
                self.guarded(&mut code, scope, data(guard), using, body)
            }
        };
        (code, tree)
    }

    /// The tree of a form whose code is one transducer.
    fn one(&mut self, code: &mut Code, transducer: Transducer) -> Tree {
        vec![self.define(code, transducer)]
    }

    /// Puts a body under a control. Its inputs are the body's free ids and its outputs the ids of
    /// the body's tree that the body defines.
    pub(crate) fn with_control(
        &mut self,
        code: &mut Code,
        control: StreamId,
        body: Code,
        tree: &Tree,
    ) {
        let defined = defined_ids(&body);
        let in_tree: BTreeSet<StreamId> = tree.iter().copied().collect();
        code.push(Instruction::WithCtrl {
            outputs: in_tree.intersection(&defined).copied().collect(),
            control,
            inputs: free_ids(&body).into_iter().collect(),
            body,
        });
    }

    fn iota(&mut self, code: &mut Code, count: StreamId) -> Tree {
        let flags = self.define(code, Transducer::ToFlags(count));
        let control = self.define(code, Transducer::Usum(flags));
        let mut body = Code::new();
        let ones = self.define(&mut body, Transducer::Const(1));
        self.with_control(code, control, body, &vec![ones]);
        let data = self.define(code, Transducer::ScanPlus { flags, data: ones });
        vec![data, flags]
    }

    fn each(
        &mut self,
        code: &mut Code,
        scope: &Scope,
        item: Variable,
        source: Variable,
        using: &[Variable],
        body: &Expression,
    ) -> Tree {
        let mut item_tree = scope[&source].clone();
        let flags = item_tree.pop().expect("a list's tree has flags");
        let control = self.define(code, Transducer::Usum(flags));
        let mut inner = Scope::new();
        for variable in using {
            let data = scope[variable][0];
            let spread = self.define(code, Transducer::Distr { flags, data });
            inner.insert(*variable, vec![spread]);
        }
        inner.insert(item, item_tree);
        let (body, mut tree) = self.expression(body, &inner);
        self.with_control(code, control, body, &tree);
        tree.push(flags);
        tree
    }

    fn guarded(
        &mut self,
        code: &mut Code,
        scope: &Scope,
        guard: StreamId,
        using: &[Variable],
        body: &Expression,
    ) -> Tree {
        let flags = self.define(code, Transducer::BoolToUnary(guard));
        let control = self.define(code, Transducer::Usum(flags));
        let mut inner = Scope::new();
        for variable in using {
            inner.insert(*variable, self.pack(code, guard, &scope[variable]));
        }
        let (body, mut tree) = self.expression(body, &inner);
        self.with_control(code, control, body, &tree);
        tree.push(flags);
        tree
    }
}
