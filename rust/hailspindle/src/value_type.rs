//! A type: ints or bools, and how many braces stand round them.

/// What a type is made of.
#[derive(Clone, Copy, Debug, PartialEq, Eq)]
pub enum Base {
    /// Whole numbers of 32 bits.
    Int,
    /// T and F; in a stream 1 and 0.
    Bool,
}

/// The type of a value.
#[derive(Clone, Copy, Debug, PartialEq, Eq)]
pub struct Type {
    /// What stands in the innermost braces.
    pub base: Base,
    /// 0 for an int or a bool, else the number of braces round it.
    pub depth: u8,
}

impl Type {
    /// So many braces round ints.
    pub const fn ints(depth: u8) -> Type {
        Type { base: Base::Int, depth }
    }

    /// So many braces round bools.
    pub const fn bools(depth: u8) -> Type {
        Type { base: Base::Bool, depth }
    }
}

impl Base {
    /// The number that the C functions take and answer for it.
    pub(crate) fn number(self) -> u8 {
        match self {
            Base::Int => 0,
            Base::Bool => 1,
        }
    }

    /// The base of such a number.
    pub(crate) fn of(number: u64) -> Base {
        if number == 0 {
            Base::Int
        } else {
            Base::Bool
        }
    }
}
