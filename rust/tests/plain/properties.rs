//! From fractions to the six properties and the calorific values per kilogram.
//!
//! For an accepted record every product fits in 64 bits. The fractions sum to
//! at most 1,000,100 and every table entry is below 6,850,000, every molar mass
//! below 1,430,000, so Hm is below 7 × 10^12 and M below 1.44 × 10^12. The
//! greatest products are Hm × 1,013,250, below 7.1 × 10^18, and
//! M × 10,132,500, below 1.46 × 10^19; 2^64 is above 1.84 × 10^19. Summation
//! factors are below 7,600, methane's below 500, and hydrogen's alone is below 0,
//! above -52. At least half is methane, or at least 0.9 hydrogen, so S9 is below
//! 4.1 × 10^8 and above -5.3 × 10^6, Z above 8 × 10^8, d below 7 × 10^8 and
//! d × 10^10 below 7 × 10^18.
//!
//! No property reaches 10^9 but Z, which may be it: D is above 2.2 × 10^10, so Hs
//! and Hi are below 4.1 × 10^8 and rho below 8.4 × 10^8. Outside the hydrogen
//! class M is above 8 × 10^10, so the root is above 5 × 10^8 and W below
//! 8.2 × 10^8. In the class hydrogen's calorific values are below 287,000 and the
//! other fractions sum to at most 100,100, so Hm is below 10^12 and Hs below
//! 5.8 × 10^7; M is above 1.8 × 10^10, so d is above 6.2 × 10^6, the root above
//! 2.4 × 10^8 and W below 2.5 × 10^8.

use super::conditions::Conditions;
use super::fraction::Fraction;
use super::record::check;
use super::table::{MASS, TABLE};
use loonstool::{PerKilogram, Properties};
use std::ops::{Add, Div};

const GIGA: u64 = 1_000_000_000;
const MEGA: u64 = 1_000_000;

/// The properties of a record, or the number that refuses it.
pub fn properties_of(record: &[u8]) -> Result<Properties, u8> {
    let (sums, conditions) = sums_of(record)?;
    Ok(sums.properties(&conditions))
}

/// The calorific values of a record per kilogram, or the number that refuses it.
pub fn per_kilogram(record: &[u8]) -> Result<PerKilogram, u8> {
    let (sums, _) = sums_of(record)?;
    let value = |hm| near(hm * MEGA, sums.mass);
    Ok(PerKilogram {
        superior: value(sums.superior),
        inferior: value(sums.inferior),
    })
}

/// Whether values are within half a unit of those of a record, unrounded.
pub fn within_half(values: &PerKilogram, record: &[u8]) -> Result<bool, u8> {
    let (sums, _) = sums_of(record)?;
    let mass = u128::from(sums.mass);
    let within = |value: u64, hm: u64| {
        let [value, hm] = [value, hm].map(u128::from);
        (2 * value * mass).abs_diff(2 * hm * u128::from(MEGA)) <= mass
    };
    Ok(within(values.superior, sums.superior) && within(values.inferior, sums.inferior))
}

/// Z, Hs, Hi, rho, d and W.
pub fn six(p: &Properties) -> [u64; 6] {
    [p.z, p.hs, p.hi, p.rho, p.d, p.w]
}

/// The unrounded Hs and Hi of a record in J/m³ and its unrounded rho in 10^-8
/// kg/m³, with Z = 1 − (S / 10^10)².
pub fn unrounded_hs_hi_and_rho(record: &[u8]) -> Result<[Fraction; 3], u8> {
    const ONE: u128 = 100_000_000_000_000_000_000;
    let (sums, conditions) = sums_of(record)?;
    let z = ONE - u128::from(sums.factor.unsigned_abs()).pow(2);
    let real =
        |sum: u64, scale| Fraction::new(&[sum.into(), scale, ONE], &[conditions.d.into(), z]);
    Ok([
        real(sums.superior, 1_013_250),
        real(sums.inferior, 1_013_250),
        real(sums.mass, 10_132_500),
    ])
}

/// The sums of a record and what its pair fixes.
fn sums_of(record: &[u8]) -> Result<(Sums, Conditions), u8> {
    let checked = check(record)?;
    let sums = Sums::over(checked.entries(), &checked.conditions);
    Ok((sums, checked.conditions))
}

/// The sums over all lines, without rounding.
struct Sums {
    superior: u64,
    inferior: u64,
    mass: u64,
    factor: i64,
}

impl Sums {
    fn over(entries: impl Iterator<Item = (u8, u32)>, conditions: &Conditions) -> Self {
        let mut superior = 0;
        let mut inferior = 0;
        let mut mass = 0;
        let mut factor = 0;
        for (line, fraction) in entries {
            let columns = &TABLE[usize::from(line) - 1];
            let x = i64::from(fraction);
            superior += x * i64::from(columns[conditions.superior]);
            inferior += x * i64::from(columns[conditions.superior + 1]);
            mass += x * i64::from(columns[MASS]);
            factor += x * i64::from(columns[conditions.factor]);
        }
        // Only summation factors are negative.
        Self {
            superior: superior as u64,
            inferior: inferior as u64,
            mass: mass as u64,
            factor,
        }
    }

    fn properties(&self, conditions: &Conditions) -> Properties {
        let z = compression(self.factor);
        let real = |ideal: u64| near(ideal * GIGA, z);
        let hs = real(near(self.superior * 1_013_250, conditions.d));
        let hi = real(near(self.inferior * 1_013_250, conditions.d));
        let rho = real(near(self.mass * 10_132_500, conditions.d));
        let d = real(near(self.mass * conditions.air, 289_626_000));
        let w = index(hs, d);
        Properties {
            z,
            hs,
            hi,
            rho,
            d,
            w,
        }
    }
}

/// Z from the sum of the summation factors.
fn compression(factor: i64) -> u64 {
    // Halves upward, also where the sum is negative.
    let s9 = (factor + 5).div_euclid(10);
    let squared = s9.unsigned_abs().pow(2);
    near(GIGA * GIGA - squared, GIGA)
}

/// Step 6: the Wobbe index of Hs and d.
pub fn index(hs: u64, d: u64) -> u64 {
    let root = (d * 10_000_000_000).isqrt();
    near(hs * GIGA, root)
}

/// The density of air by the numbers of steps 4 and 5, unit 10^-9 kg/m³.
pub fn air_density(conditions: &Conditions) -> u64 {
    let n = 10_132_500 * 289_626_000 * u128::from(GIGA);
    near(n, (conditions.d * conditions.air).into()) as u64
}

/// d times the density of air, unit 10^-8 kg/m³.
pub fn by_air(d: u64, conditions: &Conditions) -> u64 {
    near(d * air_density(conditions), GIGA)
}

/// The whole number nearest to n / q, halves upward.
fn near<N>(n: N, q: N) -> N
where
    N: Copy + From<u8> + Add<Output = N> + Div<Output = N>,
{
    (n + q / 2.into()) / q
}
