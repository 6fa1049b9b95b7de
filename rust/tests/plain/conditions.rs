//! The six permitted pairs of combustion and metering temperature.

use super::table::{CALORIFIC, FACTOR};

/// What a permitted pair of temperatures fixes.
#[derive(Debug, Clone, Copy)]
pub struct Conditions {
    /// Column of the superior calorific value; the inferior one is the next.
    pub superior: usize,
    /// Column of the summation factor.
    pub factor: usize,
    /// D: 831451 × T.
    pub d: u64,
    /// A: compression factor of air, unit 0.00001.
    pub air: u64,
}

impl Conditions {
    /// The conditions of a pair in °C, or none where it is not permitted.
    pub fn of(combustion: u8, metering: u8) -> Option<Self> {
        let superior = match (combustion, metering) {
            (25, 0) | (25, 20) => CALORIFIC,
            (20, 20) => CALORIFIC + 2,
            (15, 15) | (15, 0) => CALORIFIC + 4,
            (0, 0) => CALORIFIC + 6,
            _ => return None,
        };
        let (factor, t, air) = match metering {
            0 => (FACTOR, 27_315, 99_941),
            15 => (FACTOR + 1, 28_815, 99_958),
            _ => (FACTOR + 2, 29_315, 99_963),
        };
        Some(Self {
            superior,
            factor,
            d: 831_451 * t,
            air,
        })
    }
}
