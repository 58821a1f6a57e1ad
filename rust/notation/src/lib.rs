//! Document 01's notation for formulas and jobs, to bytes and back, with the records of document
//! 02's request 1.
//!
//! A formula is written as its records with commas between, each a mark and its fields:
//! `IN 5 1, IN 6 0, EA 7 5 1 6, PL 7 6`. A job is a formula and one value text for each input. An
//! error names the record by its number and text and says what is wrong with it.

#![forbid(unsafe_code)]

mod order;
mod read;
mod show;
mod text;

pub use show::show;

use reference::record::Record;

/// What is wrong with a notation, or with bytes to be shown, in words for people.
#[derive(Clone, Debug, PartialEq, Eq)]
pub struct NotationError(pub String);

impl std::fmt::Display for NotationError {
    fn fmt(&self, formatter: &mut std::fmt::Formatter) -> std::fmt::Result {
        formatter.write_str(&self.0)
    }
}

/// The bytes of a formula.
pub fn formula(notation: &str) -> Result<Vec<u8>, NotationError> {
    Ok(Record::write_all(&read::records(notation)?))
}

/// The bytes of a job: a formula and the value text of each input, in order.
pub fn job(notation: &str, value_texts: &[impl AsRef<str>]) -> Result<Vec<u8>, NotationError> {
    let mut records = read::records(notation)?;
    let inputs = records.iter().filter(|record| matches!(record, Record::Input { .. })).count();
    if inputs != value_texts.len() {
        return Err(NotationError(format!(
            "each IN or IB record wants a value text: such records {inputs}, value texts {}",
            value_texts.len()
        )));
    }
    for (index, value_text) in value_texts.iter().enumerate() {
        let of_input = |wrong: String| NotationError(format!("value text {}: {wrong}", index + 1));
        let text = text::to_bytes(value_text.as_ref()).map_err(of_input)?;
        if text.len() > usize::from(u16::MAX) {
            let wrong = format!("{} bytes, and a VA record holds 65,535 at most", text.len());
            return Err(of_input(wrong));
        }
        records.push(Record::Value { text });
    }
    Ok(Record::write_all(&records))
}
