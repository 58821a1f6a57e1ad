//! Why a call has no answer, and where.

use std::fmt;

/// A refusal with its place; `docs/LANGUAGE.md` says of each number what it means and when it comes.
#[derive(Clone, Copy, Debug, PartialEq, Eq)]
#[non_exhaustive]
pub enum Refusal {
    /// 1: over 65,536 bytes.
    TooLong,
    /// 2: a record is unknown, misplaced, cut or missing, or bytes are left over; the record's
    /// offset.
    NoRecord(u64),
    /// 3: a variable over 63, a depth over 8 or a using list over 8; the record's offset.
    OverLimit(u64),
    /// 4: a 17th input, a 257th expression record or a 65th nesting; the record's offset.
    TooMany(u64),
    /// 5: a variable is unbound, an input is declared twice, or a using list repeats a name or
    /// holds the loop's own; the record's offset.
    Unbound(u64),
    /// 6: the types don't fit, a guard is no bool, or the depth passes 8; the record's offset.
    WrongType(u64),
    /// 7: an input's text is no value of its type; the VA record's offset.
    NoValueText(u64),
    /// 8: iota of a negative number, or a result out of range; the id of the stream to be defined.
    NoValue(u64),
    /// 9: the stream buffer is too short; the id of the stream that did not fit.
    NoRoom(u64),
    /// 10: the text is longer than its buffer; the bytes that it needs.
    NoAnswerRoom(u64),
    /// 11: the streams represent no value, also where a bool is neither 0 nor 1; the number of the
    /// first stream that does not fit.
    NoRepresentation(u64),
    /// A number that this crate doesn't know, as a newer library may answer it.
    Unknown {
        /// The number that the library answered.
        number: u64,
        /// The place beside it.
        place: u64,
    },
}

impl Refusal {
    /// What a refused call answered: its number and its first figure.
    pub(crate) fn new(number: u64, place: u64) -> Refusal {
        match number {
            1 => Refusal::TooLong,
            2 => Refusal::NoRecord(place),
            3 => Refusal::OverLimit(place),
            4 => Refusal::TooMany(place),
            5 => Refusal::Unbound(place),
            6 => Refusal::WrongType(place),
            7 => Refusal::NoValueText(place),
            8 => Refusal::NoValue(place),
            9 => Refusal::NoRoom(place),
            10 => Refusal::NoAnswerRoom(place),
            11 => Refusal::NoRepresentation(place),
            _ => Refusal::Unknown { number, place },
        }
    }

    /// Its number: 1 to 11, or one that this crate doesn't know.
    pub fn number(self) -> u64 {
        match self {
            Refusal::TooLong => 1,
            Refusal::NoRecord(_) => 2,
            Refusal::OverLimit(_) => 3,
            Refusal::TooMany(_) => 4,
            Refusal::Unbound(_) => 5,
            Refusal::WrongType(_) => 6,
            Refusal::NoValueText(_) => 7,
            Refusal::NoValue(_) => 8,
            Refusal::NoRoom(_) => 9,
            Refusal::NoAnswerRoom(_) => 10,
            Refusal::NoRepresentation(_) => 11,
            Refusal::Unknown { number, .. } => number,
        }
    }

    /// Its place: an offset in the bytes, an id, a number of bytes or a tree number.
    pub fn place(self) -> u64 {
        match self {
            Refusal::TooLong => 0,
            Refusal::NoRecord(place)
            | Refusal::OverLimit(place)
            | Refusal::TooMany(place)
            | Refusal::Unbound(place)
            | Refusal::WrongType(place)
            | Refusal::NoValueText(place)
            | Refusal::NoValue(place)
            | Refusal::NoRoom(place)
            | Refusal::NoAnswerRoom(place)
            | Refusal::NoRepresentation(place)
            | Refusal::Unknown { place, .. } => place,
        }
    }
}

impl fmt::Display for Refusal {
    fn fmt(&self, formatter: &mut fmt::Formatter) -> fmt::Result {
        match self {
            Refusal::TooLong => write!(formatter, "over 65,536 bytes"),
            Refusal::NoRecord(at) => write!(formatter, "no record that may stand at byte {at}"),
            Refusal::OverLimit(at) => write!(
                formatter,
                "a variable over 63, or a depth or using list over 8, in the record at byte {at}"
            ),
            Refusal::TooMany(at) => {
                write!(formatter, "one input, expression record or nesting too many at byte {at}")
            }
            Refusal::Unbound(at) => write!(
                formatter,
                "a name that is unbound or stands twice in the record at byte {at}"
            ),
            Refusal::WrongType(at) => {
                write!(formatter, "types that don't fit in the record at byte {at}")
            }
            Refusal::NoValueText(at) => {
                write!(formatter, "the text at byte {at} is no value of its input's type")
            }
            Refusal::NoValue(id) => {
                write!(
                    formatter,
                    "stream {id} would hold a number out of range, or iota of a negative"
                )
            }
            Refusal::NoRoom(id) => {
                write!(formatter, "no room in the stream buffer for stream {id}")
            }
            Refusal::NoAnswerRoom(bytes) => write!(formatter, "the text needs {bytes} bytes"),
            Refusal::NoRepresentation(tree) => {
                write!(formatter, "streams that represent no value, the first misfit is {tree}")
            }
            Refusal::Unknown { number, place } => {
                write!(formatter, "number {number}, which this crate does not know, at {place}")
            }
        }
    }
}

impl std::error::Error for Refusal {}

#[cfg(test)]
mod tests {
    use super::Refusal;

    #[test]
    fn a_number_keeps_its_number_and_place() {
        for number in 1..20 {
            let refusal = Refusal::new(number, 7);
            let place = if number == 1 { 0 } else { 7 };
            assert_eq!((refusal.number(), refusal.place()), (number, place));
            assert_eq!(matches!(refusal, Refusal::Unknown { .. }), number > 11);
            assert!(!refusal.to_string().is_empty());
        }
    }
}
