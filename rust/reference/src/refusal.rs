//! A refusal: its number from document 01's table and its place.

use std::fmt;

#[derive(Clone, Copy, Debug, PartialEq, Eq)]
pub struct Refusal {
    pub number: u32,
    pub place: u64,
}

impl Refusal {
    pub fn new(number: u32, place: usize) -> Refusal {
        Refusal { number, place: place as u64 }
    }
}

impl fmt::Display for Refusal {
    fn fmt(&self, formatter: &mut fmt::Formatter) -> fmt::Result {
        write!(formatter, "refused {} at {}", self.number, self.place)
    }
}
