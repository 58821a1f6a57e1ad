//! Values as nested vectors, and value text.

use crate::value_type::{Base, Type};
use std::rc::Rc;

#[derive(Clone, Debug, PartialEq, Eq)]
pub enum Value {
    Int(i32),
    Bool(bool),
    List(Rc<[Value]>),
}

impl Value {
    pub fn list(items: Vec<Value>) -> Value {
        Value::List(items.into())
    }

    /// The value that the whole text writes, where it is well formed and of this type.
    pub fn read(text: &[u8], value_type: Type) -> Option<Value> {
        let (value, rest) = read_item(text, value_type)?;
        rest.is_empty().then_some(value)
    }

    pub fn write(&self) -> Vec<u8> {
        let mut text = Vec::new();
        self.write_after(&mut text);
        text
    }

    /// How many elements represent it: a flag for each item and one for each end of a list.
    pub fn elements(&self) -> u64 {
        match self {
            Value::Int(_) | Value::Bool(_) => 1,
            Value::List(items) => items.iter().map(|item| 1 + item.elements()).sum::<u64>() + 1,
        }
    }

    fn write_after(&self, text: &mut Vec<u8>) {
        match self {
            Value::Int(number) => text.extend(number.to_string().bytes()),
            Value::Bool(truth) => text.push(if *truth { b'T' } else { b'F' }),
            Value::List(items) => {
                text.push(b'{');
                for (index, item) in items.iter().enumerate() {
                    if index > 0 {
                        text.push(b',');
                    }
                    item.write_after(text);
                }
                text.push(b'}');
            }
        }
    }
}

/// The item at the text's first byte, and the text after it.
fn read_item(text: &[u8], value_type: Type) -> Option<(Value, &[u8])> {
    if value_type.is_scalar() {
        return match value_type.base {
            Base::Int => read_int(text),
            Base::Bool => read_bool(text),
        };
    }
    let mut rest = text.strip_prefix(b"{")?;
    let mut items = Vec::new();
    if let Some(after) = rest.strip_prefix(b"}") {
        return Some((Value::list(items), after));
    }
    loop {
        let (item, after) = read_item(rest, value_type.item())?;
        items.push(item);
        if let Some(after) = after.strip_prefix(b"}") {
            return Some((Value::list(items), after));
        }
        rest = after.strip_prefix(b",")?;
    }
}

fn read_bool(text: &[u8]) -> Option<(Value, &[u8])> {
    match text {
        [b'T', rest @ ..] => Some((Value::Bool(true), rest)),
        [b'F', rest @ ..] => Some((Value::Bool(false), rest)),
        _ => None,
    }
}

fn read_int(text: &[u8]) -> Option<(Value, &[u8])> {
    let negative = text.starts_with(b"-");
    let unsigned = text.strip_prefix(b"-").unwrap_or(text);
    let count = unsigned.iter().take_while(|byte| byte.is_ascii_digit()).count();
    let (digits, rest) = unsigned.split_at(count);
    let leading_zero = digits.first() == Some(&b'0');
    if digits.is_empty() || (leading_zero && (negative || count > 1)) {
        return None;
    }
    let mut number: i64 = 0;
    for digit in digits {
        number = number * 10 + i64::from(digit - b'0');
        if number > 1 << 31 {
            return None;
        }
    }
    let signed = if negative { -number } else { number };
    Some((Value::Int(i32::try_from(signed).ok()?), rest))
}

#[cfg(test)]
mod tests {
    use super::*;

    #[test]
    fn texts_that_are_values_come_back_as_they_were() {
        let texts = [
            (0, "0"),
            (0, "-2147483648"),
            (0, "2147483647"),
            (1, "{}"),
            (3, "{{},{{}}}"),
            (2, "{{3,1},{},{-4}}"),
        ];
        for (depth, text) in texts {
            let value = Value::read(text.as_bytes(), Type::ints(depth)).expect(text);
            assert_eq!(value.write(), text.as_bytes());
        }
        for (depth, text) in [(0, "T"), (0, "F"), (1, "{}"), (2, "{{T,F},{},{F}}")] {
            let value = Value::read(text.as_bytes(), Type::bools(depth)).expect(text);
            assert_eq!(value.write(), text.as_bytes());
        }
    }

    #[test]
    fn a_value_has_as_many_elements_as_its_streams() {
        for (depth, text, elements) in [(0, "7", 1), (1, "{}", 1), (2, "{{3,1},{},{4}}", 13)] {
            let value = Value::read(text.as_bytes(), Type::ints(depth)).expect(text);
            assert_eq!(value.elements(), elements, "{text}");
        }
    }

    #[test]
    fn texts_that_are_no_values_are_none() {
        let texts = [
            (0, ""),
            (0, "-"),
            (0, "-0"),
            (0, "00"),
            (0, "01"),
            (0, "2147483648"),
            (0, "-2147483649"),
            (0, "99999999999999999999999"),
            (0, "1 "),
            (0, "+1"),
            (0, "{}"),
            (1, "1"),
            (1, "{1,}"),
            (1, "{,1}"),
            (1, "{1"),
            (1, "{}}"),
            (1, "{{}}"),
            (1, "{ }"),
            (0, "T"),
            (1, "{1,F}"),
        ];
        for (depth, text) in texts {
            assert_eq!(Value::read(text.as_bytes(), Type::ints(depth)), None, "{text}");
        }
        let texts = [(0, ""), (0, "1"), (0, "t"), (0, "TF"), (0, "-T"), (1, "{T,0}"), (1, "{T,}")];
        for (depth, text) in texts {
            assert_eq!(Value::read(text.as_bytes(), Type::bools(depth)), None, "{text}");
        }
    }
}
