//! A type: ints or bools, and how many braces stand round them.

/// What a type is made of.
#[derive(Clone, Copy, Debug, PartialEq, Eq)]
pub enum Base {
    Int,
    Bool,
}

#[derive(Clone, Copy, Debug, PartialEq, Eq)]
pub struct Type {
    pub base: Base,
    /// 0 for an int or a bool, else the number of braces round it.
    pub depth: u8,
}

impl Type {
    pub const INT: Type = Type::ints(0);
    pub const BOOL: Type = Type::bools(0);

    pub const fn ints(depth: u8) -> Type {
        Type { base: Base::Int, depth }
    }

    pub const fn bools(depth: u8) -> Type {
        Type { base: Base::Bool, depth }
    }

    pub fn is_scalar(self) -> bool {
        self.depth == 0
    }

    /// The type of a list's items.
    pub fn item(self) -> Type {
        Type { depth: self.depth - 1, ..self }
    }

    /// The type of a list of these.
    pub fn list(self) -> Type {
        Type { depth: self.depth + 1, ..self }
    }
}
