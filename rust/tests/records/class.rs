//! The classes of records, and their limits.

use crate::cases::{HYDROGEN, METHANE, WATER};

/// The class of a record, which decides what limits it has.
#[derive(Debug, Clone, Copy, PartialEq, Eq)]
pub enum Class {
    /// Outside the hydrogen class.
    Other,
    /// The hydrogen class.
    Hydrogen,
}

impl Class {
    pub const BOTH: [Self; 2] = [Self::Other, Self::Hydrogen];

    /// That of a record with the given entries.
    pub fn of(mut entries: impl Iterator<Item = (u8, u32)>) -> Self {
        let least = Self::Hydrogen.least();
        match entries.any(|(line, fraction)| line == HYDROGEN && fraction >= least) {
            true => Self::Hydrogen,
            false => Self::Other,
        }
    }

    /// That of an accepted record.
    pub fn of_record(record: &[u8]) -> Self {
        Self::of(super::entries(record))
    }

    /// What stands after the name of something that occurs in the class.
    pub fn name(self) -> &'static str {
        match self {
            Self::Other => " outside the hydrogen class",
            Self::Hydrogen => " in the hydrogen class",
        }
    }

    /// The line that has a least fraction and no greatest one.
    pub fn main_line(self) -> u8 {
        match self {
            Self::Other => METHANE,
            Self::Hydrogen => HYDROGEN,
        }
    }

    /// The least fraction of that line, in ppm.
    pub fn least(self) -> u32 {
        match self {
            Self::Other => 500_000,
            Self::Hydrogen => 900_000,
        }
    }

    /// The lines that have a greatest fraction.
    pub fn other_lines(self) -> impl Iterator<Item = u8> {
        (1..=55).filter(move |line| *line != self.main_line())
    }

    /// The greatest fraction of a line other than the main one, in ppm.
    pub fn limit(self, line: u8) -> u32 {
        match (self, line) {
            (_, WATER) => 200,
            (Self::Other, 2 | 54) => 150_000,
            (Self::Other, 52) => 300_000,
            _ => 50_000,
        }
    }
}
