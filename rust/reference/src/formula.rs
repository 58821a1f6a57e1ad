//! Reading a formula and a job: refusals 1 to 4, and the finder.

use crate::limits;
use crate::record::Record;
use crate::refusal::Refusal;
use crate::value_type::Type;
use std::ops::Range;

/// A name in a formula. Stream ids are another numbering.
#[derive(Clone, Copy, Debug, PartialEq, Eq, PartialOrd, Ord)]
pub struct Variable(pub u8);

#[derive(Clone, Debug)]
pub struct Input {
    pub offset: usize,
    pub variable: Variable,
    pub value_type: Type,
}

/// An expression, with its record's offset and its number among the expression records.
#[derive(Clone, Debug)]
pub struct Expression {
    pub offset: usize,
    pub number: usize,
    pub form: Form,
}

#[derive(Clone, Debug)]
pub enum Form {
    Variable(Variable),
    Let {
        variable: Variable,
        bound: Box<Expression>,
        rest: Box<Expression>,
    },
    Constant(i32),
    Truth(bool),
    Iota(Variable),
    Plus(Variable, Variable),
    AtMost(Variable, Variable),
    Equal(Variable, Variable),
    Not(Variable),
    Sum(Variable),
    Each {
        item: Variable,
        source: Variable,
        using: Vec<Variable>,
        body: Box<Expression>,
    },
    /// A list of the body's value alone where the guard is true, else an empty one.
    Guarded {
        guard: Variable,
        using: Vec<Variable>,
        body: Box<Expression>,
    },
}

#[derive(Clone, Debug)]
pub struct Formula {
    pub inputs: Vec<Input>,
    pub expression: Expression,
}

/// A VA record: its offset, and which of the job's bytes hold its text.
#[derive(Clone, Debug)]
pub struct ValuePart {
    pub offset: usize,
    pub text: Range<usize>,
}

#[derive(Clone, Debug)]
pub struct Job {
    pub formula: Formula,
    pub values: Vec<ValuePart>,
}

pub fn read_formula(bytes: &[u8]) -> Result<Formula, Refusal> {
    let mut reader = Reader::new(bytes)?;
    let formula = reader.formula()?;
    reader.end()?;
    Ok(formula)
}

pub fn read_job(bytes: &[u8]) -> Result<Job, Refusal> {
    let mut reader = Reader::new(bytes)?;
    let formula = reader.formula()?;
    let mut values = Vec::new();
    for _ in &formula.inputs {
        values.push(reader.value()?);
    }
    reader.end()?;
    Ok(Job { formula, values })
}

/// The part of the job's bytes that holds the text of an input, numbered from 0.
///
/// It is `0..0` where there is no such input or the job meets 1 to 4.
pub fn find(job: &[u8], input: usize) -> Range<usize> {
    let part = read_job(job).ok().and_then(|job| job.values.get(input).map(|v| v.text.clone()));
    part.unwrap_or(0..0)
}

struct Reader<'a> {
    bytes: &'a [u8],
    position: usize,
    expression_records: usize,
}

impl Reader<'_> {
    fn new(bytes: &[u8]) -> Result<Reader<'_>, Refusal> {
        if bytes.len() > limits::BYTES {
            return Err(Refusal::new(1, 0));
        }
        Ok(Reader { bytes, position: 0, expression_records: 0 })
    }

    fn formula(&mut self) -> Result<Formula, Refusal> {
        let mut inputs = Vec::new();
        while [b"IN", b"IB"].iter().any(|mark| self.bytes[self.position..].starts_with(*mark)) {
            let offset = self.position;
            let record = self.record(|_| true)?;
            let Record::Input { variable, base, depth } = record else { unreachable!() };
            if inputs.len() == limits::INPUTS {
                return Err(Refusal::new(4, offset));
            }
            let value_type = Type { base, depth };
            inputs.push(Input { offset, variable: Variable(variable), value_type });
        }
        let expression = self.expression(0)?;
        Ok(Formula { inputs, expression })
    }

    fn expression(&mut self, records_round_it: usize) -> Result<Expression, Refusal> {
        let offset = self.position;
        let record =
            self.record(|record| !matches!(record, Record::Input { .. } | Record::Value { .. }))?;
        let number = self.expression_records;
        if number == limits::EXPRESSION_RECORDS || records_round_it > limits::NESTING {
            return Err(Refusal::new(4, offset));
        }
        self.expression_records += 1;
        let mut part = || self.expression(records_round_it + 1).map(Box::new);
        let listed = |using: Vec<u8>| using.into_iter().map(Variable).collect();
        let form = match record {
            Record::Variable { variable } => Form::Variable(Variable(variable)),
            Record::Let { variable } => {
                Form::Let { variable: Variable(variable), bound: part()?, rest: part()? }
            }
            Record::Constant { number } => Form::Constant(number),
            Record::Truth { truth } => Form::Truth(truth),
            Record::Iota { variable } => Form::Iota(Variable(variable)),
            Record::Plus { left, right } => Form::Plus(Variable(left), Variable(right)),
            Record::AtMost { left, right } => Form::AtMost(Variable(left), Variable(right)),
            Record::Equal { left, right } => Form::Equal(Variable(left), Variable(right)),
            Record::Not { variable } => Form::Not(Variable(variable)),
            Record::Sum { variable } => Form::Sum(Variable(variable)),
            Record::Each { item, source, using } => Form::Each {
                item: Variable(item),
                source: Variable(source),
                using: listed(using),
                body: part()?,
            },
            Record::Guarded { guard, using } => {
                Form::Guarded { guard: Variable(guard), using: listed(using), body: part()? }
            }
            Record::Input { .. } | Record::Value { .. } => unreachable!(),
        };
        Ok(Expression { offset, number, form })
    }

    fn value(&mut self) -> Result<ValuePart, Refusal> {
        let offset = self.position;
        let record = self.record(|record| matches!(record, Record::Value { .. }))?;
        let Record::Value { text } = record else { unreachable!() };
        Ok(ValuePart { offset, text: self.position - text.len()..self.position })
    }

    /// The next record: 2 where it is not whole or may not stand here, then 3.
    fn record(&mut self, may_stand_here: impl Fn(&Record) -> bool) -> Result<Record, Refusal> {
        let offset = self.position;
        let (record, end) =
            Record::read(self.bytes, offset).map_err(|_| Refusal::new(2, offset))?;
        if !may_stand_here(&record) {
            return Err(Refusal::new(2, offset));
        }
        if !record.is_in_range() {
            return Err(Refusal::new(3, offset));
        }
        self.position = end;
        Ok(record)
    }

    fn end(&self) -> Result<(), Refusal> {
        if self.position < self.bytes.len() {
            return Err(Refusal::new(2, self.position));
        }
        Ok(())
    }
}
