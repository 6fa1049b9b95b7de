//! The meter of sixteen streams.

use super::day_file;
use super::properties::{properties_of, six};
use loonstool::{Counts, Totals};

const STREAMS: usize = 16;
pub const GREATEST_VOLUME: u64 = 10_000_000;
pub const GREATEST_TOTAL: u64 = 999_999_999_999;

/// mJ in a MJ.
pub const MEGAJOULE: u64 = 1_000_000_000;

/// 10^-11 kg in a kg.
pub const KILOGRAM: u64 = 100_000_000_000;

/// The pair and the properties of a stream's last accepted analysis, Z to W,
/// none of which passes 10^9.
#[derive(Debug, Clone, Copy)]
pub struct InForce {
    pub pair: (u8, u8),
    pub six: [u32; 6],
}

/// A register, whose rest is counted in parts of which WHOLE make a whole.
#[derive(Debug, Clone, Copy)]
pub struct Register<const WHOLE: u64> {
    pub whole: u64,
    /// Below WHOLE.
    pub rest: u64,
}

/// Whole MJ, and mJ.
pub type Energy = Register<MEGAJOULE>;

/// Whole kg, and 10^-11 kg.
pub type Mass = Register<KILOGRAM>;

impl<const WHOLE: u64> Register<WHOLE> {
    const EMPTY: Self = Self { whole: 0, rest: 0 };

    /// Adds a volume in dm³ at a calorific value in J/m³, which makes mJ, or at a
    /// density in 10^-8 kg/m³, which makes 10^-11 kg.
    fn add(&mut self, volume: u64, property: u32) {
        let sum = self.rest + volume * u64::from(property);
        self.whole += sum / WHOLE;
        self.rest = sum % WHOLE;
    }
}

impl Energy {
    /// The mean calorific value over a volume: energy by volume, to the nearest.
    fn mean(&self, volume: u64) -> Result<u64, u8> {
        if volume == 0 {
            return Err(18);
        }
        let volume = u128::from(volume);
        let energy = u128::from(self.whole) * u128::from(MEGAJOULE) + u128::from(self.rest);
        Ok(((energy + volume / 2) / volume) as u64)
    }
}

#[derive(Debug, Clone, Copy)]
pub struct Stream {
    pub in_force: Option<InForce>,
    /// dm³.
    pub volume: u64,
    pub superior: Energy,
    pub inferior: Energy,
    pub mass: Mass,
}

#[derive(Debug, Clone)]
pub struct Meter {
    pub streams: [Stream; STREAMS],
}

impl Meter {
    /// A meter without analyses, volumes, energies and masses 0.
    pub fn fresh() -> Self {
        let stream = Stream {
            in_force: None,
            volume: 0,
            superior: Energy::EMPTY,
            inferior: Energy::EMPTY,
            mass: Mass::EMPTY,
        };
        Self {
            streams: [stream; STREAMS],
        }
    }

    /// Puts a record's properties in force on a stream.
    pub fn analysis(&mut self, stream: usize, record: &[u8]) -> Result<(), u8> {
        let stream = self.streams.get_mut(stream).ok_or(13)?;
        let six = six(&properties_of(record)?).map(|property| property as u32);
        // An accepted record has its pair at bytes 5 and 6.
        let pair = (record[5], record[6]);
        if stream.in_force.is_some_and(|earlier| earlier.pair != pair) {
            return Err(14);
        }
        stream.in_force = Some(InForce { pair, six });
        Ok(())
    }

    /// Adds a volume in dm³, its energies and its mass.
    pub fn metering(&mut self, stream: usize, volume: u64) -> Result<(), u8> {
        let stream = self.streams.get_mut(stream).ok_or(13)?;
        if volume > GREATEST_VOLUME {
            return Err(15);
        }
        let in_force = stream.in_force.as_ref().ok_or(16)?;
        let total = stream.volume + volume;
        if total > GREATEST_TOTAL {
            return Err(17);
        }
        let [_, hs, hi, rho, ..] = in_force.six;
        stream.volume = total;
        stream.superior.add(volume, hs);
        stream.inferior.add(volume, hi);
        stream.mass.add(volume, rho);
        Ok(())
    }

    /// The same as a call of its own, as from another library.
    #[inline(never)]
    pub fn metering_by_call(&mut self, stream: usize, volume: u64) -> Result<(), u8> {
        self.metering(stream, volume)
    }

    /// Meters a day file, from a list of volumes in dm³, one for each block.
    pub fn day(&mut self, stream: usize, file: &[u8], volumes: &[u64]) -> Result<Counts, u8> {
        day_file::metered(stream, file, volumes, |block, volume| {
            [self.analysis(stream, block), self.metering(stream, volume)]
        })
    }

    /// Volume in dm³, both energies in whole MJ and their rests in mJ, mass in
    /// whole kg and its rest in 10^-11 kg.
    pub fn totals(&self, stream: usize) -> Result<Totals, u8> {
        let stream = self.streams.get(stream).ok_or(13)?;
        Ok(Totals {
            volume: stream.volume,
            superior_mj: stream.superior.whole,
            superior_rest: stream.superior.rest,
            inferior_mj: stream.inferior.whole,
            inferior_rest: stream.inferior.rest,
            mass_kg: stream.mass.whole,
            mass_rest: stream.mass.rest,
        })
    }

    /// The mean superior calorific value in J/m³.
    pub fn mean(&self, stream: usize) -> Result<u64, u8> {
        let stream = self.streams.get(stream).ok_or(13)?;
        stream.superior.mean(stream.volume)
    }

    /// The mean inferior calorific value in J/m³.
    pub fn mean_inferior(&self, stream: usize) -> Result<u64, u8> {
        let stream = self.streams.get(stream).ok_or(13)?;
        stream.inferior.mean(stream.volume)
    }
}
