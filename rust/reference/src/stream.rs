//! A stream of one of four kinds, and its elements as the stream buffer holds them.

#[derive(Clone, Debug, PartialEq, Eq)]
pub enum Stream {
    Numbers(Vec<i32>),
    Bools(Vec<bool>),
    Flags(Vec<bool>),
    /// Only a length: it takes no room.
    Units(usize),
}

impl Stream {
    pub fn length(&self) -> usize {
        match self {
            Stream::Numbers(numbers) => numbers.len(),
            Stream::Bools(bools) | Stream::Flags(bools) => bools.len(),
            Stream::Units(count) => *count,
        }
    }

    /// Its elements as the stream buffer holds them, T as 1 and F as 0.
    pub fn elements(&self) -> Vec<i32> {
        match self {
            Stream::Numbers(numbers) => numbers.clone(),
            Stream::Bools(bools) | Stream::Flags(bools) => {
                bools.iter().map(|truth| i32::from(*truth)).collect()
            }
            Stream::Units(_) => vec![],
        }
    }

    /// An empty stream of the same kind.
    pub fn empty_like(&self) -> Stream {
        match self {
            Stream::Numbers(_) => Stream::Numbers(vec![]),
            Stream::Bools(_) => Stream::Bools(vec![]),
            Stream::Flags(_) => Stream::Flags(vec![]),
            Stream::Units(_) => Stream::Units(0),
        }
    }
}
