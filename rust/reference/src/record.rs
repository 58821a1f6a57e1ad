//! One record: its bytes to its fields and back.
//!
//! A record here is whole but not yet judged: its variables, depth and using count may be out of
//! range, and it may stand where it must not.

use crate::limits;
use crate::value_type::Base;

#[derive(Clone, Debug, PartialEq, Eq)]
pub enum Record {
    Input { variable: u8, base: Base, depth: u8 },
    Variable { variable: u8 },
    Let { variable: u8 },
    Constant { number: i32 },
    Truth { truth: bool },
    Iota { variable: u8 },
    Plus { left: u8, right: u8 },
    AtMost { left: u8, right: u8 },
    Equal { left: u8, right: u8 },
    Not { variable: u8 },
    Sum { variable: u8 },
    Each { item: u8, source: u8, using: Vec<u8> },
    Guarded { guard: u8, using: Vec<u8> },
    Value { text: Vec<u8> },
}

/// Why no record can be read at an offset.
#[derive(Clone, Copy, Debug, PartialEq, Eq)]
pub enum Unreadable {
    NothingLeft,
    UnknownMark,
    Cut,
    /// A KB with a byte that is neither 0 nor 1.
    NoTruth,
}

impl Record {
    /// The record that starts at the offset, and the offset after it.
    pub fn read(bytes: &[u8], offset: usize) -> Result<(Record, usize), Unreadable> {
        let rest = &bytes[offset..];
        if rest.is_empty() {
            return Err(Unreadable::NothingLeft);
        }
        if rest.len() < 2 {
            return Err(Unreadable::Cut);
        }
        let field = |index: usize| rest.get(2 + index).copied().ok_or(Unreadable::Cut);
        let fields = |start: usize, count: usize| {
            rest.get(2 + start..2 + start + count).map(<[u8]>::to_vec).ok_or(Unreadable::Cut)
        };
        let (record, length) = match &rest[..2] {
            b"IN" => (Record::Input { variable: field(0)?, base: Base::Int, depth: field(1)? }, 2),
            b"IB" => (Record::Input { variable: field(0)?, base: Base::Bool, depth: field(1)? }, 2),
            b"VR" => (Record::Variable { variable: field(0)? }, 1),
            b"LT" => (Record::Let { variable: field(0)? }, 1),
            b"KN" => {
                let bytes = [field(0)?, field(1)?, field(2)?, field(3)?];
                (Record::Constant { number: i32::from_le_bytes(bytes) }, 4)
            }
            b"KB" => {
                let truth = match field(0)? {
                    0 => false,
                    1 => true,
                    _ => return Err(Unreadable::NoTruth),
                };
                (Record::Truth { truth }, 1)
            }
            b"IO" => (Record::Iota { variable: field(0)? }, 1),
            b"PL" => (Record::Plus { left: field(0)?, right: field(1)? }, 2),
            b"LE" => (Record::AtMost { left: field(0)?, right: field(1)? }, 2),
            b"EQ" => (Record::Equal { left: field(0)?, right: field(1)? }, 2),
            b"NO" => (Record::Not { variable: field(0)? }, 1),
            b"SM" => (Record::Sum { variable: field(0)? }, 1),
            b"EA" => {
                let count = field(2)? as usize;
                let using = fields(3, count)?;
                (Record::Each { item: field(0)?, source: field(1)?, using }, 3 + count)
            }
            b"GU" => {
                let count = field(1)? as usize;
                (Record::Guarded { guard: field(0)?, using: fields(2, count)? }, 2 + count)
            }
            b"VA" => {
                let count = u16::from_le_bytes([field(0)?, field(1)?]) as usize;
                (Record::Value { text: fields(2, count)? }, 2 + count)
            }
            _ => return Err(Unreadable::UnknownMark),
        };
        Ok((record, offset + 2 + length))
    }

    /// Puts the record's bytes after those already there.
    ///
    /// A using list must be shorter than 256 and a value text than 65,536: more has no bytes.
    pub fn write(&self, bytes: &mut Vec<u8>) {
        bytes.extend_from_slice(self.mark().as_bytes());
        match self {
            Record::Input { variable, depth, .. } => bytes.extend([variable, depth]),
            Record::Variable { variable }
            | Record::Let { variable }
            | Record::Iota { variable }
            | Record::Not { variable }
            | Record::Sum { variable } => bytes.push(*variable),
            Record::Constant { number } => bytes.extend(number.to_le_bytes()),
            Record::Truth { truth } => bytes.push(u8::from(*truth)),
            Record::Plus { left, right }
            | Record::AtMost { left, right }
            | Record::Equal { left, right } => bytes.extend([left, right]),
            Record::Each { item, source, using } => {
                bytes.extend([*item, *source, count_of(using)]);
                bytes.extend(using);
            }
            Record::Guarded { guard, using } => {
                bytes.extend([*guard, count_of(using)]);
                bytes.extend(using);
            }
            Record::Value { text } => {
                let count = u16::try_from(text.len()).expect("a value text under 65,536 bytes");
                bytes.extend(count.to_le_bytes());
                bytes.extend(text);
            }
        }
    }

    pub fn mark(&self) -> &'static str {
        match self {
            Record::Input { base: Base::Int, .. } => "IN",
            Record::Input { base: Base::Bool, .. } => "IB",
            Record::Variable { .. } => "VR",
            Record::Let { .. } => "LT",
            Record::Constant { .. } => "KN",
            Record::Truth { .. } => "KB",
            Record::Iota { .. } => "IO",
            Record::Plus { .. } => "PL",
            Record::AtMost { .. } => "LE",
            Record::Equal { .. } => "EQ",
            Record::Not { .. } => "NO",
            Record::Sum { .. } => "SM",
            Record::Each { .. } => "EA",
            Record::Guarded { .. } => "GU",
            Record::Value { .. } => "VA",
        }
    }

    /// Whether its variables, depth and using count are in range (refusal 3 where not).
    pub fn is_in_range(&self) -> bool {
        let variable_in_range = |variable: &u8| *variable <= limits::VARIABLE;
        let using_in_range =
            |using: &[u8]| using.len() <= limits::USING && using.iter().all(variable_in_range);
        match self {
            Record::Input { variable, depth, .. } => {
                variable_in_range(variable) && *depth <= limits::DEPTH
            }
            Record::Variable { variable }
            | Record::Let { variable }
            | Record::Iota { variable }
            | Record::Not { variable }
            | Record::Sum { variable } => variable_in_range(variable),
            Record::Plus { left, right }
            | Record::AtMost { left, right }
            | Record::Equal { left, right } => variable_in_range(left) && variable_in_range(right),
            Record::Each { item, source, using } => {
                variable_in_range(item) && variable_in_range(source) && using_in_range(using)
            }
            Record::Guarded { guard, using } => variable_in_range(guard) && using_in_range(using),
            Record::Constant { .. } | Record::Truth { .. } | Record::Value { .. } => true,
        }
    }

    /// How many expressions follow this record as its parts.
    pub fn parts(&self) -> usize {
        match self {
            Record::Let { .. } => 2,
            Record::Each { .. } | Record::Guarded { .. } => 1,
            _ => 0,
        }
    }

    /// The bytes of records one after another.
    pub fn write_all(records: &[Record]) -> Vec<u8> {
        let mut bytes = Vec::new();
        for record in records {
            record.write(&mut bytes);
        }
        bytes
    }
}

fn count_of(using: &[u8]) -> u8 {
    u8::try_from(using.len()).expect("a using list under 256")
}
