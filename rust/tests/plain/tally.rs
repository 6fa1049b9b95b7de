//! The tally: what the calls of a list add up to, booked and exact.

use super::day_file;
use super::fraction::Fraction;
use super::properties::{properties_of, unrounded_hs_hi_and_rho};
use loonstool::{Counts, Totals};

/// A calorific value in J/m³ or a density in 10^-8 kg/m³, rounded and unrounded.
#[derive(Clone)]
struct Property {
    rounded: u64,
    unrounded: Fraction,
}

/// What a stream's volumes add up to at one of the two calorific values, in mJ, or at the density, in 10^-11 kg.
#[derive(Clone)]
struct Account {
    /// E, and the mass.
    booked: u128,
    /// X, and the exact mass.
    exact: Fraction,
}

impl Account {
    fn empty() -> Self {
        Self {
            booked: 0,
            exact: Fraction::new(&[0], &[1]),
        }
    }

    fn add(&mut self, volume: u64, property: &Property) {
        self.booked += u128::from(volume) * u128::from(property.rounded);
        self.exact.add_times(volume, &property.unrounded);
    }

    /// What is booked as wholes of so many parts, and rest.
    fn whole_and_rest(&self, parts: u128) -> (u64, u64) {
        let (whole, rest) = (self.booked / parts, self.booked % parts);
        (whole as u64, rest as u64)
    }

    /// near(E / V).
    fn mean(&self, volume: u64) -> Result<u64, u8> {
        let volume = u128::from(volume);
        let mean = (2 * self.booked + volume).checked_div(2 * volume);
        mean.map(|mean| mean as u64).ok_or(18)
    }

    /// Whether what is booked is within 2 mJ, or 2 × 10^-11 kg, per dm³ of what is exact.
    fn is_near(&self, volume: u64) -> bool {
        self.exact.is_within(2 * u128::from(volume), self.booked)
    }

    /// Whether the mean, where there is one, is within 3 J/m³ of X / V.
    fn mean_is_near(&self, volume: u64) -> bool {
        let mean = u128::from(self.mean(volume).unwrap_or(0));
        let volume = u128::from(volume);
        self.exact.is_within(3 * volume, mean * volume)
    }
}

/// What a stream's last accepted analysis fixes.
#[derive(Clone)]
struct InForce {
    pair: (u8, u8),
    hs: Property,
    hi: Property,
    rho: Property,
}

impl InForce {
    fn of(record: &[u8]) -> Result<Self, u8> {
        let properties = properties_of(record)?;
        let [hs, hi, rho] = unrounded_hs_hi_and_rho(record)?;
        let property = |rounded, unrounded| Property { rounded, unrounded };
        Ok(Self {
            pair: (record[5], record[6]),
            hs: property(properties.hs, hs),
            hi: property(properties.hi, hi),
            rho: property(properties.rho, rho),
        })
    }
}

#[derive(Clone)]
struct Stream {
    in_force: Option<InForce>,
    /// V, dm³.
    volume: u64,
    superior: Account,
    inferior: Account,
    mass: Account,
}

impl Stream {
    /// Whether all that is booked is near what is exact, and both means near X / V.
    fn is_near(&self) -> bool {
        let energies = [&self.superior, &self.inferior];
        self.mass.is_near(self.volume)
            && energies
                .iter()
                .all(|energy| energy.is_near(self.volume) && energy.mean_is_near(self.volume))
    }
}

pub struct Tally {
    streams: Vec<Stream>,
}

impl Tally {
    pub fn fresh() -> Self {
        let stream = Stream {
            in_force: None,
            volume: 0,
            superior: Account::empty(),
            inferior: Account::empty(),
            mass: Account::empty(),
        };
        Self {
            streams: vec![stream; 16],
        }
    }

    pub fn analysis(&mut self, stream: usize, record: &[u8]) -> Result<(), u8> {
        let stream = self.streams.get_mut(stream).ok_or(13)?;
        let gas = InForce::of(record)?;
        let earlier = stream.in_force.as_ref();
        if earlier.is_some_and(|earlier| earlier.pair != gas.pair) {
            return Err(14);
        }
        stream.in_force = Some(gas);
        Ok(())
    }

    pub fn metering(&mut self, stream: usize, volume: u64) -> Result<(), u8> {
        let stream = self.streams.get_mut(stream).ok_or(13)?;
        if volume > 10_000_000 {
            return Err(15);
        }
        let gas = stream.in_force.as_ref().ok_or(16)?;
        if stream.volume + volume > 999_999_999_999 {
            return Err(17);
        }
        stream.volume += volume;
        stream.superior.add(volume, &gas.hs);
        stream.inferior.add(volume, &gas.hi);
        stream.mass.add(volume, &gas.rho);
        Ok(())
    }

    /// A day file counts as its single calls, or as none where it is itself refused.
    pub fn day(&mut self, stream: usize, file: &[u8], volumes: &[u64]) -> Result<Counts, u8> {
        day_file::metered(stream, file, volumes, |block, volume| {
            [self.analysis(stream, block), self.metering(stream, volume)]
        })
    }

    /// V, each E as whole MJ and rest in mJ, and the mass as whole kg and rest in 10^-11 kg.
    pub fn totals(&self, stream: usize) -> Result<Totals, u8> {
        let stream = self.streams.get(stream).ok_or(13)?;
        let (superior_mj, superior_rest) = stream.superior.whole_and_rest(1_000_000_000);
        let (inferior_mj, inferior_rest) = stream.inferior.whole_and_rest(1_000_000_000);
        let (mass_kg, mass_rest) = stream.mass.whole_and_rest(100_000_000_000);
        Ok(Totals {
            volume: stream.volume,
            superior_mj,
            superior_rest,
            inferior_mj,
            inferior_rest,
            mass_kg,
            mass_rest,
        })
    }

    /// near(E / V), with the E of Hs.
    pub fn mean(&self, stream: usize) -> Result<u64, u8> {
        let stream = self.streams.get(stream).ok_or(13)?;
        stream.superior.mean(stream.volume)
    }

    /// near(E / V), with the E of Hi.
    pub fn mean_inferior(&self, stream: usize) -> Result<u64, u8> {
        let stream = self.streams.get(stream).ok_or(13)?;
        stream.inferior.mean(stream.volume)
    }

    /// Whether all that is booked on a stream is near what is exact, and both means near X / V. A stream above 15 has none of them.
    pub fn is_near(&self, stream: usize) -> bool {
        self.streams.get(stream).is_none_or(Stream::is_near)
    }
}
