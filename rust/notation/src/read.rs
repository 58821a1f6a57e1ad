//! Reading the notation of a formula: its text to records.

use crate::order::check_order;
use crate::NotationError;
use reference::limits;
use reference::record::Record;
use reference::Base;

/// The records of a formula, in an order that makes a whole formula.
pub fn records(notation: &str) -> Result<Vec<Record>, NotationError> {
    let texts: Vec<&str> = notation.split(',').map(str::trim).collect();
    let mut records = Vec::new();
    for (index, text) in texts.iter().enumerate() {
        let named = |wrong| NotationError(format!("record {} (`{text}`): {wrong}", index + 1));
        records.push(record(text).map_err(named)?);
    }
    check_order(&records).map_err(|(index, wrong)| {
        NotationError(format!("record {} (`{}`): {wrong}", index + 1, texts[index]))
    })?;
    Ok(records)
}

fn record(text: &str) -> Result<Record, String> {
    let mut words = text.split_whitespace();
    let mark = words.next().ok_or("no record stands here")?;
    let mut fields = Fields { words };
    let record = match mark {
        "IN" => input(&mut fields, Base::Int)?,
        "IB" => input(&mut fields, Base::Bool)?,
        "VR" => Record::Variable { variable: fields.variable("the variable")? },
        "LT" => Record::Let { variable: fields.variable("the variable let")? },
        "KN" => {
            let number = fields.number("the constant", i64::from(i32::MIN), i64::from(i32::MAX))?;
            Record::Constant { number: number as i32 }
        }
        "KB" => Record::Truth { truth: fields.number("the bool", 0, 1)? == 1 },
        "IO" => Record::Iota { variable: fields.variable("the variable")? },
        "PL" => {
            let (left, right) = two(&mut fields)?;
            Record::Plus { left, right }
        }
        "LE" => {
            let (left, right) = two(&mut fields)?;
            Record::AtMost { left, right }
        }
        "EQ" => {
            let (left, right) = two(&mut fields)?;
            Record::Equal { left, right }
        }
        "NO" => Record::Not { variable: fields.variable("the variable")? },
        "SM" => Record::Sum { variable: fields.variable("the variable")? },
        "EA" => Record::Each {
            item: fields.variable("the item's variable")?,
            source: fields.variable("the list's variable")?,
            using: using(&mut fields)?,
        },
        "GU" => Record::Guarded {
            guard: fields.variable("the guard's variable")?,
            using: using(&mut fields)?,
        },
        "VA" => return Err("value texts stand after the formula, not in it".to_string()),
        _ => {
            return Err(format!(
                "unknown mark `{mark}`; the marks are IN, IB, VR, LT, KN, KB, IO, PL, LE, EQ, NO, \
                 SM, EA and GU"
            ))
        }
    };
    match fields.words.next() {
        Some(word) => Err(format!("a field too many, `{word}`")),
        None => Ok(record),
    }
}

fn input(fields: &mut Fields, base: Base) -> Result<Record, String> {
    let variable = fields.variable("the input's variable")?;
    let depth = fields.number("the depth", 0, i64::from(limits::DEPTH))? as u8;
    Ok(Record::Input { variable, base, depth })
}

fn two(fields: &mut Fields) -> Result<(u8, u8), String> {
    Ok((fields.variable("the first variable")?, fields.variable("the second variable")?))
}

/// A using list: its count and then its variables, which end the record.
fn using(fields: &mut Fields) -> Result<Vec<u8>, String> {
    let count = fields.number("the using count", 0, limits::USING as i64)? as usize;
    let listed = fields.words.clone().count();
    if listed != count {
        return Err(format!(
            "the using count is {count}, and the variables after it number {listed}"
        ));
    }
    let mut using = Vec::new();
    for _ in 0..count {
        using.push(fields.variable("a variable of the using list")?);
    }
    Ok(using)
}

struct Fields<'a> {
    words: std::str::SplitWhitespace<'a>,
}

impl Fields<'_> {
    fn variable(&mut self, what: &str) -> Result<u8, String> {
        Ok(self.number(what, 0, i64::from(limits::VARIABLE))? as u8)
    }

    fn number(&mut self, what: &str, lowest: i64, highest: i64) -> Result<i64, String> {
        let word = self.words.next().ok_or(format!("{what} is missing"))?;
        let digits = word.strip_prefix('-').unwrap_or(word);
        if digits.is_empty() || !digits.bytes().all(|byte| byte.is_ascii_digit()) {
            return Err(format!("{what} is `{word}`, which is no number"));
        }
        let number = word.parse().ok().filter(|number| (lowest..=highest).contains(number));
        number.ok_or(format!("{what} is {word}; it runs from {lowest} to {highest}"))
    }
}
