//! The limits of document 01, each a named constant.

/// Bytes of a job or a formula.
pub const BYTES: usize = 65_536;
/// Inputs of a formula.
pub const INPUTS: usize = 16;
/// Expression records of a formula.
pub const EXPRESSION_RECORDS: usize = 256;
/// LT, EA and GU records round another record.
pub const NESTING: usize = 64;
/// Variables in a using list.
pub const USING: usize = 8;
/// Depth of a type.
pub const DEPTH: u8 = 8;
/// The highest variable.
pub const VARIABLE: u8 = 63;
/// Elements of a stream buffer that are used.
pub const STREAM_ELEMENTS: usize = 16_384;
/// How many times the plain charge the work may be.
pub const FACTOR: u64 = 7;
/// Bytes that the programs lend for a listing or an answer.
pub const ANSWER_BYTES: usize = 65_536;

/// The used part of a stream buffer of which so many elements are lent.
pub fn used_part(elements: usize) -> usize {
    elements.min(STREAM_ELEMENTS)
}
