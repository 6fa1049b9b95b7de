//! The words that the library keeps a meter in, in the library's order, and
//! which words hold a meter.

use super::conditions::Conditions;
use super::meter::{InForce, Meter, Register, Stream, GREATEST_TOTAL, KILOGRAM, MEGAJOULE};
use super::properties::{by_air, index, six};
use loonstool::{Properties, Words, STREAM_WORDS};

/// The most that rho differs from d times the density of air: 2 for rho, 2 for
/// d, which is 2.6 of rho's unit, and what d times that density is rounded by.
const AIR_DISTANCE: u128 = 5;

/// The words of a meter.
pub fn words_of(meter: &Meter) -> Words {
    meter.streams.each_ref().map(row_of)
}

/// The words of a stream: 0 where it has no analysis, and so neither volume
/// nor energy nor mass.
pub fn row_of(stream: &Stream) -> [u64; STREAM_WORDS] {
    let Some(InForce { pair, six }) = stream.in_force else {
        return [0; STREAM_WORDS];
    };
    let [combustion, metering] = [pair.0, pair.1].map(u64::from);
    let [z, hs, hi, rho, d, w] = six.map(u64::from);
    let (volume, s, i, m) = (stream.volume, stream.superior, stream.inferior, stream.mass);
    [
        1, combustion, metering, z, hs, hi, rho, d, w, volume, s.whole, s.rest, i.whole, i.rest,
        m.whole, m.rest,
    ]
}

/// Whether what the library's check tests holds of words: it does of those of
/// every meter, as made or as its calls left it. Floors and ceilings are the
/// library's: the paper gives none.
pub fn hold_a_meter(words: &Words) -> bool {
    let mut rows = words.iter().map(|row| row.map(u128::from));
    rows.all(holds_a_stream)
}

fn holds_a_stream(row: [u128; STREAM_WORDS]) -> bool {
    let [analysed, combustion, metering, z, hs, hi, rho, d, w, volume, registers @ ..] = row;
    let of_gas = |conditions| are_of_gas([z, hs, hi, rho, d, w], &conditions);
    match analysed {
        // Nothing is metered without an analysis.
        0 => row == [0; STREAM_WORDS],
        1 => {
            permitted(combustion, metering).is_some_and(of_gas)
                && volume <= GREATEST_TOTAL.into()
                && are_of_volume(registers, volume)
        }
        _ => false,
    }
}

/// Whether properties can be those of a gas.
fn are_of_gas(properties: [u128; 6], conditions: &Conditions) -> bool {
    let [_, hs, hi, rho, d, w] = properties;
    let floors = six(&Properties::FLOORS).map(u128::from);
    let ceilings = six(&Properties::CEILINGS).map(u128::from);
    let between = |i: usize| (floors[i]..=ceilings[i]).contains(&properties[i]);
    (0..6).all(between)
        && hi <= hs
        && rho.abs_diff(by_air(d as u64, conditions).into()) <= AIR_DISTANCE
        && w == index(hs as u64, d as u64).into()
}

/// Whether registers, each as whole and rest, can be those of a volume: every
/// dm³ was metered at an Hs, an Hi and a rho between floor and ceiling, Hi not
/// above Hs.
fn are_of_volume(registers: [u128; 6], volume: u128) -> bool {
    let [s_whole, s_rest, i_whole, i_rest, m_whole, m_rest] = registers;
    let (low, high) = (Properties::FLOORS, Properties::CEILINGS);
    let amount = |whole, rest, parts, limits| amount(whole, rest, parts, volume, limits);
    let superior = amount(s_whole, s_rest, MEGAJOULE, [low.hs, high.hs]);
    let inferior = amount(i_whole, i_rest, MEGAJOULE, [low.hi, high.hi]);
    let mass = amount(m_whole, m_rest, KILOGRAM, [low.rho, high.rho]);
    superior.is_some() && inferior.is_some() && mass.is_some() && inferior <= superior
}

/// What a register of wholes of so many parts holds, where its rest is below a
/// whole, and each dm³ of the volume can have added between the given limits.
fn amount(whole: u128, rest: u128, parts: u64, volume: u128, limits: [u64; 2]) -> Option<u128> {
    let parts = u128::from(parts);
    let amount = whole * parts + rest;
    let [low, high] = limits.map(|limit| volume * u128::from(limit));
    (rest < parts && (low..=high).contains(&amount)).then_some(amount)
}

fn permitted(combustion: u128, metering: u128) -> Option<Conditions> {
    Conditions::of(combustion.try_into().ok()?, metering.try_into().ok()?)
}

/// The meter of words that hold one.
pub fn meter_of(words: &Words) -> Meter {
    let streams = words.map(stream_of);
    Meter { streams }
}

fn stream_of(row: [u64; STREAM_WORDS]) -> Stream {
    let [analysed, combustion, metering, z, hs, hi, rho, d, w, volume, registers @ ..] = row;
    let [s_whole, s_rest, i_whole, i_rest, m_whole, m_rest] = registers;
    let in_force = InForce {
        pair: (combustion as u8, metering as u8),
        six: [z, hs, hi, rho, d, w].map(|property| property as u32),
    };
    Stream {
        in_force: (analysed == 1).then_some(in_force),
        volume,
        superior: register(s_whole, s_rest),
        inferior: register(i_whole, i_rest),
        mass: register(m_whole, m_rest),
    }
}

fn register<const WHOLE: u64>(whole: u64, rest: u64) -> Register<WHOLE> {
    Register { whole, rest }
}
