//! Words of every kind of damage: the proved check accepts those that hold a meter by the plain version and no others, and a meter restored
//! from what it accepts answers as the plain one. And calls with bad arguments, which are refused and change nothing.
//!
//! `cargo test --offline --release --test restored -- --nocapture` prints how many words were tried.

mod calls;
mod cases;
mod plain;
mod records;

use calls::{analysis, call, day, Answer, Call, TakesCalls};
use cases::{every_line, hydrogen_and, record, K1, K2, PAIRS};
use loonstool::{Meter, NotAMeter, Properties, Words, STREAMS, STREAM_WORDS};
use plain::conditions::Conditions;
use plain::day_file::file_of;
use plain::meter::{
    Energy, InForce, Register, GREATEST_TOTAL, GREATEST_VOLUME, KILOGRAM, MEGAJOULE,
};
use plain::properties::{air_density, by_air, index};
use plain::words::{hold_a_meter, meter_of, words_of};
use records::Random;

const SEED: u64 = 6976;

/// Meters as their calls left them: fresh; with analyses, one of each pair, hydrogen alone, and every line; metered; full.
fn meters() -> [Meter; 4] {
    let fresh = Meter::new();
    let mut analysed = fresh.clone();
    let k1 = PAIRS.map(|(combustion, metering)| record(combustion, metering, &K1));
    let others = [
        (14, record(25, 20, &hydrogen_and(&[]))),
        (15, record(0, 0, &every_line())),
    ];
    for (stream, record) in k1.into_iter().enumerate().chain(others) {
        take(&mut analysed, &analysis(stream, "", &record));
    }
    let mut metered = analysed.clone();
    for (stream, volume) in [
        (0, 0),
        (1, 1),
        (2, 27),
        (3, 1_000),
        (4, 9_999_999),
        (14, 1_001),
        (15, GREATEST_VOLUME),
    ] {
        take(&mut metered, &call(b'm', stream, volume));
    }
    let mut full = metered.clone();
    for stream in [0, 15] {
        while let Ok(room @ 1..) = full
            .totals(stream)
            .map(|totals| GREATEST_TOTAL - totals.volume)
        {
            take(&mut full, &call(b'm', stream, room.min(GREATEST_VOLUME)));
        }
    }
    [fresh, analysed, metered, full]
}

fn take(meter: &mut Meter, call: &Call) {
    assert_eq!(meter.answer(call), Answer::Changed(Ok(())));
}

#[test]
fn as_calls_left_them() {
    let meters = meters();
    let fresh = words_of(&plain::Meter::fresh());
    assert_eq!(meters[0].words(), &fresh);
    for meter in meters {
        assert_eq!(Meter::from_words(*meter.words()), Ok(meter));
    }
}

/// How many words were accepted and refused.
#[derive(Default)]
struct Counts {
    accepted: u64,
    refused: u64,
}

impl Counts {
    /// Restores words, of which those of a stream are damaged.
    fn restore(&mut self, words: &Words, stream: usize) {
        let restored = Meter::from_words(*words);
        assert_eq!(restored.is_ok(), hold_a_meter(words), "{words:?}");
        match restored {
            Ok(meter) => {
                assert_eq!(meter.words(), words);
                compare_calls(meter, stream);
                self.accepted += 1;
            }
            Err(NotAMeter) => self.refused += 1,
        }
    }

    fn print(&self, what: &str, least: u64) {
        let Self { accepted, refused } = self;
        println!("{what}: {accepted} accepted, {refused} refused");
        assert!(accepted.min(refused) >= &least, "fewer than {least}");
    }
}

/// Makes calls on a stream of a restored meter and on the plain meter of the same words.
fn compare_calls(mut meter: Meter, stream: usize) {
    let words = *meter.words();
    let mut plain = meter_of(&words);
    let volumes = [0, 1, GREATEST_VOLUME].map(|volume| call(b'm', stream, volume));
    let records = [K2.to_vec(), record(0, 0, &K1)];
    let day = day(stream, file_of(&records), vec![1, GREATEST_VOLUME]);
    let analyses = records.map(|record| analysis(stream, "", &record));
    let calls = volumes.iter().chain(&analyses).chain(&volumes);
    for call in calls.chain([&day]) {
        for call in [call, &self::call(b'r', stream, 0)] {
            assert_eq!(meter.answer(call), plain.answer(call), "{words:?}");
        }
    }
    assert_eq!(meter.words(), &words_of(&plain), "{words:?}");
}

/// Numbers on and past what limits a word, the temperatures among them.
fn limits() -> Vec<u64> {
    let ceilings = plain::six(&Properties::CEILINGS);
    let floors = plain::six(&Properties::FLOORS);
    let greatest = [
        1,
        15,
        20,
        25,
        GREATEST_VOLUME,
        MEGAJOULE - 1,
        KILOGRAM - 1,
        GREATEST_TOTAL,
    ];
    let past = |limit: &u64| [*limit, limit + 1];
    let on_and_past = greatest.iter().chain(&ceilings).flat_map(past);
    let on_and_below = floors.into_iter().flat_map(|floor| [floor, floor - 1]);
    on_and_past
        .chain(on_and_below)
        .chain([0, u64::MAX])
        .collect()
}

/// What a word of a stream may be damaged to: a limit, what another word of the stream is, one more or less, or a flipped bit.
fn damages(row: &[u64; STREAM_WORDS], place: usize) -> Vec<u64> {
    let mut damages = limits();
    let beside = |word: &u64| [*word, word.wrapping_add(1), word.wrapping_sub(1)];
    damages.extend(row.iter().flat_map(beside));
    damages.extend((0..64).map(|bit| row[place] ^ (1 << bit)));
    damages
}

#[test]
fn one_word_damaged() {
    let mut counts = Counts::default();
    for meter in meters() {
        for (stream, place) in places() {
            for damage in damages(&meter.words()[stream], place) {
                let mut words = *meter.words();
                words[stream][place] = damage;
                counts.restore(&words, stream);
            }
        }
    }
    counts.print("one word damaged", 1_000);
}

/// The stream and the place of every word.
fn places() -> impl Iterator<Item = (usize, usize)> {
    (0..STREAMS).flat_map(|stream| (0..STREAM_WORDS).map(move |place| (stream, place)))
}

#[test]
fn two_words_exchanged() {
    let mut counts = Counts::default();
    for meter in meters() {
        for (stream, place) in places() {
            for other in 0..place {
                let mut words = *meter.words();
                words[stream].swap(place, other);
                counts.restore(&words, stream);
            }
        }
    }
    counts.print("two words exchanged", 100);
}

#[test]
fn some_words_damaged() {
    let mut counts = Counts::default();
    let (mut random, meters, limits) = (Random::new(SEED), meters(), limits());
    for _ in 0..500_000 {
        let mut words = *random.one_of(&meters).words();
        let stream = random.index(STREAMS);
        for _ in 0..2 + random.index(3) {
            words[stream][random.index(STREAM_WORDS)] = *random.one_of(&limits);
        }
        counts.restore(&words, stream);
    }
    counts.print("some words of a stream damaged", 1_000);
}

/// The metered meter, as the plain version has it.
fn metered() -> plain::Meter {
    let [.., metered, _] = meters();
    meter_of(metered.words())
}

/// A stream of it that is metered.
const DAMAGED: usize = 3;

#[test]
fn every_pair() {
    let mut counts = Counts::default();
    // Each has another metering temperature, and so another density of air: a pair goes with one of them.
    for stream in [0, 1, 4] {
        let mut meter = metered();
        for [combustion, metering] in (0..=u16::MAX).map(u16::to_le_bytes) {
            in_force(&mut meter, stream).pair = (combustion, metering);
            counts.restore(&words_of(&meter), stream);
        }
    }
    counts.print("every pair of two bytes", 6);
    assert_eq!(counts.accepted, 6);
}

fn in_force(meter: &mut plain::Meter, stream: usize) -> &mut InForce {
    let in_force = meter.streams[stream].in_force.as_mut();
    in_force.expect("it has an analysis")
}

#[test]
fn density_at_its_distance() {
    let mut counts = Counts::default();
    for (stream, (combustion, metering)) in PAIRS.into_iter().enumerate() {
        let conditions = Conditions::of(combustion, metering).expect("it is permitted");
        // As formulas (B.6) to (B.8) of the standard have it, in mg/m³.
        let standard = match metering {
            0 => 1_292_923,
            15 => 1_225_410,
            _ => 1_204_449,
        };
        assert_eq!((air_density(&conditions) + 500) / 1_000, standard);
        let mut meter = metered();
        let [.., d, _] = in_force(&mut meter, stream).six;
        let by_air = by_air(d.into(), &conditions) as u32;
        for rho in by_air - 6..=by_air + 6 {
            in_force(&mut meter, stream).six[3] = rho;
            counts.restore(&words_of(&meter), stream);
        }
    }
    counts.print("density at its distance", 12);
    assert_eq!((counts.accepted, counts.refused), (6 * 11, 6 * 2));
}

/// Z, Hs, Hi and d put into words of the metered stream, with rho and, but for a difference, W as they then are.
fn with_properties(meter: &mut plain::Meter, [z, hs, hi, d]: [u64; 4], more: i64) -> Words {
    let gas = in_force(meter, DAMAGED);
    let conditions = Conditions::of(gas.pair.0, gas.pair.1).expect("it is permitted");
    let w = index(hs, d).wrapping_add_signed(more);
    gas.six = [z, hs, hi, by_air(d, &conditions), d, w].map(|property| property as u32);
    words_of(meter)
}

#[test]
fn properties_at_their_limits() {
    let (mut counts, mut meter) = (Counts::default(), metered());
    let (low, high) = (Properties::FLOORS, Properties::CEILINGS);
    let around = |low: u64, high: u64| [low - 1, low, low + 1, high - 1, high, high + 1];
    let mut restore = |four, more| {
        let words = with_properties(&mut meter, four, more);
        counts.restore(&words, DAMAGED);
    };
    for hs in around(low.hs, high.hs) {
        for d in around(low.d, high.d) {
            for z in around(low.z, high.z) {
                restore([z, hs, low.hi, d], 0);
            }
            for hi in [low.hi - 1, low.hi, hs - 1, hs, hs + 1, high.hi, high.hi + 1] {
                restore([low.z, hs, hi, d], 0);
            }
            for more in [-1, 1] {
                restore([low.z, hs, low.hi, d], more);
            }
        }
    }
    counts.print("properties at their limits", 50);
}

#[test]
fn index_at_its_ceiling() {
    let (mut counts, mut meter) = (Counts::default(), metered());
    let (low, high) = (Properties::FLOORS, Properties::CEILINGS);
    // The index falls with d, and is above its ceiling for the greatest Hs and the least d.
    let least = (low.d..high.d).find(|d| index(high.hs, *d) <= high.w);
    let least = least.expect("the index falls below its ceiling");
    let mut tried = Vec::new();
    for hs in high.hs - 20..=high.hs {
        for d in least - 12..least + 12 {
            tried.push(index(hs, d));
            let words = with_properties(&mut meter, [low.z, hs, low.hi, d], 0);
            counts.restore(&words, DAMAGED);
        }
    }
    counts.print("index at its ceiling", 50);
    assert!([high.w, high.w + 1].iter().all(|w| tried.contains(w)));
}

/// The register that holds an amount.
fn register<const WHOLE: u64>(amount: u128) -> Register<WHOLE> {
    let parts = u128::from(WHOLE);
    Register {
        whole: (amount / parts) as u64,
        rest: (amount % parts) as u64,
    }
}

/// What a volume makes at a property.
fn made(volume: u64, property: u64) -> u128 {
    u128::from(volume) * u128::from(property)
}

/// A register of a volume: the least and the most that it can be at a property between the limits, and a whole between them, one part more
/// and less, and each of these once more with a rest that is too great, where there is a whole.
fn registers<const WHOLE: u64>(volume: u64, limits: [u64; 2]) -> Vec<Register<WHOLE>> {
    let parts = u128::from(WHOLE);
    let [low, high] = limits.map(|property| made(volume, property));
    let with_too_much = |right: Register<WHOLE>| {
        let (whole, rest) = (right.whole.saturating_sub(1), right.rest + WHOLE);
        [right, Register { whole, rest }]
    };
    [low, (low + high) / 2 / parts * parts, high]
        .into_iter()
        .flat_map(|bound| [bound.saturating_sub(1), bound, bound + 1])
        .flat_map(|amount| with_too_much(register(amount)))
        .collect()
}

/// Volumes for the registers: the first ones, some, and the greatest.
fn volumes() -> impl Iterator<Item = u64> {
    let mut random = Random::new(SEED);
    let some = (0..500).map(move |_| random.below(GREATEST_TOTAL + 1));
    (0..500).chain(some).chain([GREATEST_TOTAL])
}

#[test]
fn energies_at_their_bounds() {
    let (mut counts, mut meter) = (Counts::default(), metered());
    let (low, high) = (Properties::FLOORS, Properties::CEILINGS);
    for volume in volumes() {
        let energies: Vec<Energy> = registers(volume, [low.hs, high.hs]);
        for (superior, inferior) in energies
            .iter()
            .flat_map(|superior| energies.iter().map(move |inferior| (*superior, *inferior)))
        {
            let stream = &mut meter.streams[DAMAGED];
            (stream.volume, stream.superior, stream.inferior) = (volume, superior, inferior);
            stream.mass = register(made(volume, low.rho));
            counts.restore(&words_of(&meter), DAMAGED);
        }
    }
    counts.print("energies at their bounds, each with each", 1_000);
}

#[test]
fn mass_at_its_bounds() {
    let (mut counts, mut meter) = (Counts::default(), metered());
    let (low, high) = (Properties::FLOORS, Properties::CEILINGS);
    for volume in volumes() {
        let energy = register(made(volume, low.hs));
        for mass in registers(volume, [low.rho, high.rho]) {
            let stream = &mut meter.streams[DAMAGED];
            (stream.volume, stream.superior, stream.inferior) = (volume, energy, energy);
            stream.mass = mass;
            counts.restore(&words_of(&meter), DAMAGED);
        }
    }
    counts.print("mass at its bounds", 1_000);
}

#[test]
fn bad_arguments() {
    // The last is a stream whose row, counted in bytes without its high bits, is that of stream 3.
    let streams = [
        STREAMS,
        17,
        256,
        1 << 32,
        usize::MAX - 15,
        usize::MAX,
        (1 << 59) + 3,
    ];
    let volumes = [
        GREATEST_VOLUME + 1,
        1 << 32,
        u64::MAX - GREATEST_TOTAL,
        u64::MAX,
    ];
    let bytes = [&[][..], &[0], &K2[..7], &K2[..12], &[255; 8], &[0; 1_000]];
    let file = file_of(&[K2, K2]);
    let files = [&[][..], &file[..4], &file[..file.len() - 1], &file];
    let (mut numbers, mut refused) = ([false; 24], 0);
    for mut meter in meters() {
        let words = *meter.words();
        let mut plain = meter_of(&words);
        for stream in (0..STREAMS).chain(streams) {
            let metering = volumes.map(|volume| call(b'm', stream, volume));
            let analyses = bytes.map(|bytes| analysis(stream, "", bytes));
            let days = files.map(|file| day(stream, file.to_vec(), vec![1]));
            for call in metering.iter().chain(&analyses).chain(&days) {
                let answer = meter.answer(call);
                assert_eq!(answer, plain.answer(call));
                let Some(number) = answer.refusal() else {
                    panic!("{call:?} is accepted");
                };
                assert_eq!(meter.words(), &words);
                numbers[usize::from(number)] = true;
                refused += 1;
            }
            let reading = call(b'r', stream, 0);
            assert_eq!(meter.answer(&reading), plain.answer(&reading));
        }
    }
    println!("bad arguments: {refused} calls refused");
    let each = [1, 2, 6, 13, 15, 19, 21, 23];
    assert!(each.iter().all(|number| numbers[*number]));
}
