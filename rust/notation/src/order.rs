//! The order of records that makes a whole formula: IN and IB records, then one expression.

use reference::record::Record;

/// Where the records make no whole formula: the index of the record to name, and what is wrong.
pub fn check_order(records: &[Record]) -> Result<(), (usize, String)> {
    let inputs = records.iter().take_while(|record| is_input(record)).count();
    let Some(last) = records.len().checked_sub(1) else {
        return Err((0, "no record stands here".to_string()));
    };
    // The records whose parts are still due, each with how many.
    let mut open: Vec<(usize, usize)> = Vec::new();
    for (index, record) in records.iter().enumerate().skip(inputs) {
        if index > inputs && open.is_empty() {
            return Err((index, "the formula's expression has ended before it".to_string()));
        }
        if is_input(record) {
            let mark = record.mark();
            return Err((index, format!("an {mark} record stands before the expression only")));
        }
        if let Some((_, due)) = open.last_mut() {
            *due -= 1;
        }
        if record.parts() > 0 {
            open.push((index, record.parts()));
        }
        while open.last().is_some_and(|(_, due)| *due == 0) {
            open.pop();
        }
    }
    if inputs == records.len() {
        return Err((last, "the formula ends here, without an expression".to_string()));
    }
    match open.last() {
        None => Ok(()),
        Some((index, due)) => {
            let missing = match (&records[*index], due) {
                (Record::Each { .. } | Record::Guarded { .. }, _) => "its body",
                (_, 2) => "its two expressions",
                _ => "the second of its two expressions",
            };
            Err((*index, format!("the formula ends without {missing}")))
        }
    }
}

fn is_input(record: &Record) -> bool {
    matches!(record, Record::Input { .. })
}
