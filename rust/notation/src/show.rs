//! Bytes back to notation: the formula on the first line, then a line for each value text.

use crate::order::check_order;
use crate::{text, NotationError};
use reference::record::{Record, Unreadable};

/// The notation of a formula's or a job's bytes, each line ended by a line feed.
pub fn show(bytes: &[u8]) -> Result<String, NotationError> {
    let mut records = Vec::new();
    let mut value_texts = Vec::new();
    let mut offsets = Vec::new();
    let mut position = 0;
    while position < bytes.len() || position == 0 {
        let wrong = |wrong: &str| {
            let number = offsets.len() + 1;
            NotationError(format!("record {number} (at byte {position}): {wrong}"))
        };
        let (record, end) = Record::read(bytes, position).map_err(|reason| match reason {
            Unreadable::NothingLeft => wrong("no record stands here"),
            Unreadable::UnknownMark => {
                let mark = text::from_bytes(&bytes[position..position + 2]);
                wrong(&format!("unknown mark `{mark}`"))
            }
            Unreadable::Cut => wrong("the bytes end inside it"),
            Unreadable::NoTruth => wrong("`KB` with a byte that is neither 0 nor 1"),
        })?;
        if !record.is_in_range() {
            let record = notation_of(&record);
            return Err(wrong(&format!("`{record}` has a variable, depth or count out of range")));
        }
        match record {
            Record::Value { text } => value_texts.push(text),
            _ if !value_texts.is_empty() => return Err(wrong("it stands after a VA record")),
            _ => records.push(record),
        }
        offsets.push(position);
        position = end;
    }
    check_order(&records).map_err(|(index, wrong)| {
        let record = records.get(index).map(notation_of).unwrap_or_default();
        let place = offsets.get(index).copied().unwrap_or(0);
        NotationError(format!("record {} (`{record}`, at byte {place}): {wrong}", index + 1))
    })?;
    let inputs = records.iter().filter(|record| matches!(record, Record::Input { .. })).count();
    if !value_texts.is_empty() && value_texts.len() != inputs {
        let values = value_texts.len();
        let wrong = "each IN or IB record wants a VA record";
        return Err(NotationError(format!("{wrong}: such records {inputs}, VA records {values}")));
    }
    let mut shown = records.iter().map(notation_of).collect::<Vec<_>>().join(", ");
    shown.push('\n');
    for value_text in value_texts {
        shown.push_str(&text::from_bytes(&value_text));
        shown.push('\n');
    }
    Ok(shown)
}

fn notation_of(record: &Record) -> String {
    let with_using = |first: &[u8], using: &[u8]| {
        let variables = |names: &[u8]| names.iter().map(|name| i64::from(*name)).collect();
        let (first, using): (Vec<i64>, Vec<i64>) = (variables(first), variables(using));
        [first, vec![using.len() as i64], using].concat()
    };
    let fields: Vec<i64> = match record {
        Record::Input { variable, depth, .. } => vec![i64::from(*variable), i64::from(*depth)],
        Record::Variable { variable }
        | Record::Let { variable }
        | Record::Iota { variable }
        | Record::Not { variable }
        | Record::Sum { variable } => vec![i64::from(*variable)],
        Record::Constant { number } => vec![i64::from(*number)],
        Record::Truth { truth } => vec![i64::from(*truth)],
        Record::Plus { left, right }
        | Record::AtMost { left, right }
        | Record::Equal { left, right } => vec![i64::from(*left), i64::from(*right)],
        Record::Each { item, source, using } => with_using(&[*item, *source], using),
        Record::Guarded { guard, using } => with_using(&[*guard], using),
        Record::Value { .. } => unreachable!("value texts are shown on lines of their own"),
    };
    let fields = fields.iter().map(|field| format!(" {field}")).collect::<String>();
    format!("{}{fields}", record.mark())
}
