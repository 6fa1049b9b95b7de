//! Document 01's cases K1 to K9, further gases, the hydrogen class, the inferior
//! energy and the mass of K9, K9 in a day file, values per kilogram, and each
//! refusal number of a record, the writer and a day file, on the library and the
//! plain version; K10 on the plain version.

mod calls;
mod cases;
mod plain;

use calls::{analysis, call, day, Answer, Call, Reading, TakesCalls};
use cases::{
    hydrogen_and, methane_and, record, HALF_BELOW_ZERO, HALF_GAS, HYDROGEN, K1, K1_PROPERTIES, K2,
    PAIRS, WATER,
};
use loonstool::{Analysis, Counts, Next, PerKilogram, Properties, Refusal};
use plain::conditions::Conditions;
use plain::day_file;
use plain::table::{MASS, TABLE};
use std::collections::HashMap;
use std::fmt::Debug;

/// What both sides answer.
fn both<T: PartialEq + Debug>(plain: Result<T, u8>, library: Result<T, Refusal>) -> Result<T, u8> {
    assert_eq!(library.map_err(Refusal::number), plain);
    plain
}

fn properties_of(record: &[u8]) -> Result<Properties, u8> {
    both(
        plain::properties_of(record),
        loonstool::properties_of(record),
    )
}

fn per_kilogram(record: &[u8]) -> Result<PerKilogram, u8> {
    both(plain::per_kilogram(record), loonstool::per_kilogram(record))
}

fn read(record: &[u8]) -> Result<Analysis, u8> {
    both(plain::read(record), loonstool::read(record))
}

fn write(
    combustion: u8,
    metering: u8,
    lines: &[u8],
    fractions: &[u32],
    out: &mut [u8],
) -> Result<usize, u8> {
    let mut of_library = out.to_vec();
    let library = loonstool::write(combustion, metering, lines, fractions, &mut of_library);
    let plain = plain::write(combustion, metering, lines, fractions, out);
    assert_eq!(of_library, out);
    both(plain, library)
}

#[test]
fn k1_annex_d() {
    let properties = properties_of(&record(15, 15, &K1)).unwrap();
    assert_eq!(plain::six(&properties), K1_PROPERTIES);
}

#[test]
fn k2_methane() {
    let six = properties_of(&K2).unwrap();
    assert_eq!((six.z, six.hs), (998_001_910, 37_781_616));
    let analysis = read(&K2).unwrap();
    assert_eq!((analysis.combustion, analysis.metering), (15, 15));
    assert_eq!(analysis.count, 1);
    assert_eq!((analysis.lines[0], analysis.fractions[0]), (1, 1_000_000));
    assert!(analysis.lines[1..].iter().all(|line| *line == 0));
    assert!(analysis.fractions[1..].iter().all(|x| *x == 0));
    written_again(&K2, &analysis);
}

/// The number of a refusal, 0 for accepted.
fn number_of<T>(answer: &Result<T, u8>) -> u8 {
    *answer.as_ref().err().unwrap_or(&0)
}

#[test]
fn records_and_each_number() {
    let mut seen = [false; 13];
    for (title, record, number) in cases::records() {
        let reading = read(&record);
        assert_eq!(number_of(&reading), number, "{title}");
        assert_eq!(number_of(&properties_of(&record)), number, "{title}");
        assert_eq!(number_of(&per_kilogram(&record)), number, "{title}");
        if let Ok(analysis) = reading {
            written_again(&record, &analysis);
        }
        seen[usize::from(number)] = true;
    }
    assert_eq!(seen, [true; 13]);
}

/// The analysis call gives each record the same number, or accepts it, on the
/// first and the last stream.
#[test]
fn records_on_a_meter() {
    for (title, record, number) in cases::records() {
        let expected = Answer::Changed(match number {
            0 => Ok(()),
            _ => Err(number),
        });
        for mut meter in fresh_meters() {
            for stream in [0, 15] {
                let answer = meter.answer(&analysis(stream, "", &record));
                assert_eq!(answer, expected, "{title}");
            }
        }
    }
}

/// An accepted record that was read has the same bytes where it is written
/// again, and is not written into a buffer that is a byte short.
fn written_again(record: &[u8], read: &Analysis) {
    let (lines, fractions) = (&read.lines[..read.count], &read.fractions[..read.count]);
    let write = |out: &mut [u8]| write(read.combustion, read.metering, lines, fractions, out);
    let mut out = vec![170; record.len() + 2];
    assert_eq!(write(&mut out), Ok(record.len()));
    assert_eq!(out, [record, &[170, 170]].concat());
    let mut short = vec![170; record.len() - 1];
    assert_eq!(write(&mut short), Err(20));
    assert!(short.iter().all(|byte| *byte == 170));
}

#[test]
fn gases_written_and_read_again() {
    let further = cases::further().into_iter().map(|(_, gas)| gas);
    let gases = cases::of_paper().into_iter().chain(cases::on_limits());
    for gas in gases.chain(cases::in_class()).chain(further) {
        let (lines, fractions): (Vec<u8>, Vec<u32>) = gas.entries.iter().copied().unzip();
        let mut out = [170; 300];
        let answer = write(gas.pair.0, gas.pair.1, &lines, &fractions, &mut out);
        assert_eq!(number_of(&answer), gas.number, "{}", gas.title);
        let (front, others) = out.split_at(answer.unwrap_or(0));
        assert!(others.iter().all(|byte| *byte == 170), "{}", gas.title);
        if gas.number == 0 {
            assert_eq!(front, gas.record());
            let read = read(front).unwrap();
            assert_eq!((read.combustion, read.metering), gas.pair);
            assert_eq!(read.lines[..read.count], lines);
            assert_eq!(read.fractions[..read.count], fractions);
        }
    }
}

/// Hydrogen alone answers at each pair, with S below 0.
#[test]
fn hydrogen_alone() {
    let entries = hydrogen_and(&[]);
    for (combustion, metering) in PAIRS {
        let conditions = Conditions::of(combustion, metering).unwrap();
        let record = record(combustion, metering, &entries);
        let s9 = sum(conditions.factor, &entries) / 10;
        assert!(s9 < 0);
        assert_eq!(properties_of(&record).unwrap().z, z_of(s9));
        let [h, m] = [conditions.superior, MASS].map(|column| TABLE[40][column] as u64);
        let values = per_kilogram(&record).unwrap();
        assert_eq!(values.superior, nearest(1_000_000 * h, m));
    }
}

/// S/10 ends in .5 below 0 and goes upward, towards 0; the other way Z is another.
#[test]
fn half_below_zero() {
    let factor = Conditions::of(15, 15).unwrap().factor;
    assert_eq!(sum(factor, &HALF_BELOW_ZERO), -47_845_065);
    let six = properties_of(&record(15, 15, &HALF_BELOW_ZERO)).unwrap();
    assert_eq!(six.z, z_of(-4_784_506));
    assert_ne!(six.z, z_of(-4_784_507));
}

/// Z by the rounded S/10.
fn z_of(s9: i64) -> u64 {
    let giga = 1_000_000_000;
    nearest(giga * giga - s9.unsigned_abs().pow(2), giga)
}

/// The whole number nearest to n / q, halves upward.
fn nearest(n: u64, q: u64) -> u64 {
    (2 * n + q) / (2 * q)
}

/// The sum of fraction times column.
fn sum(column: usize, entries: &[(u8, u32)]) -> i64 {
    let number = |line: u8| TABLE[usize::from(line) - 1][column];
    let term = |(line, x): &(u8, u32)| i64::from(number(*line)) * i64::from(*x);
    entries.iter().map(term).sum()
}

/// The number by which a record at 15/15 is refused, 0 where it is accepted.
fn number_at_15(entries: &[(u8, u32)]) -> u8 {
    number_of(&properties_of(&record(15, 15, entries)))
}

/// In the hydrogen class each line on its limit and one past it.
#[test]
fn lines_in_hydrogen_class() {
    for line in (1..=55).filter(|line| *line != HYDROGEN) {
        let (limit, own) = match line {
            WATER => (200, 12),
            _ => (50_000, 11),
        };
        let numbers = [limit, limit + 1].map(|x| number_at_15(&hydrogen_and(&[(line, x)])));
        assert_eq!(numbers, [0, own], "line {line}");
    }
}

/// A record is of the hydrogen class just where it has hydrogen at 900,000 or more;
/// with less its limits are those of document 01.
#[test]
fn at_hydrogen_class() {
    for (number, methane, hydrogen) in [
        (0, 950_000, 50_000),
        (11, 949_999, 50_001),
        (11, 500_000, 500_000),
        (10, 499_999, 500_001),
        (10, 50_000, 899_999),
        (11, 500_000, 899_999),
        (11, 500_000, 900_000),
        (11, 100_000, 900_000),
        (9, 50_000, 900_000),
        (0, 50_000, 950_000),
    ] {
        let entries = [(1, methane), (HYDROGEN, hydrogen)];
        assert_eq!(number_at_15(&entries), number, "{entries:?}");
    }
    assert_eq!(number_at_15(&[(HYDROGEN, 900_000), (2, 50_001)]), 7);
    assert_eq!(number_at_15(&[(HYDROGEN, 1_000_000), (WATER, 0)]), 8);
}

/// The plain meter, the tally and the library's meter.
fn fresh_meters() -> [Box<dyn TakesCalls>; 3] {
    [
        Box::new(plain::Meter::fresh()),
        Box::new(plain::Tally::fresh()),
        Box::new(loonstool::Meter::default()),
    ]
}

/// What each of `fresh_meters` reads after the calls of K9 alone, and with calls on other streams before each of them.
fn k9() -> Vec<Reading> {
    let k1 = record(15, 15, &K1);
    let others = [
        analysis(1, "", &k1),
        call(b'm', 1, 7),
        analysis(16, "", &K2),
        call(b'r', 16, 0),
    ];
    [&[][..], &others]
        .into_iter()
        .flat_map(|others| fresh_meters().map(|meter| k9_among(others, meter)))
        .collect()
}

fn k9_among(others: &[Call], mut meter: Box<dyn TakesCalls>) -> Reading {
    let mut answer = |call: &Call| {
        for other in others {
            let given = meter.answer(other);
            assert_eq!(given == Answer::Changed(Ok(())), other.stream == 1);
        }
        meter.answer(call)
    };
    let metering = call(b'm', 0, 1_000);
    assert_eq!(answer(&metering), Answer::Changed(Err(16)));
    for accepted in [analysis(0, "", &K2), metering] {
        assert_eq!(answer(&accepted), Answer::Changed(Ok(())));
    }
    reading_in(answer(&call(b'r', 0, 0)))
}

fn reading_in(answer: Answer) -> Reading {
    match answer {
        Answer::Read(reading) => reading,
        other => panic!("a reading answers {other:?}"),
    }
}

#[test]
fn k9_fresh_stream() {
    for reading in k9() {
        let totals = reading.totals.unwrap();
        assert_eq!(totals.volume, 1_000);
        assert_eq!(
            (totals.superior_mj, totals.superior_rest),
            (37, 781_616_000)
        );
        assert_eq!(reading.mean, Ok(37_781_616));
    }
}

/// Computed by the plain version; the paper prints no inferior energy.
#[test]
fn k9_inferior_energy() {
    for reading in k9() {
        let totals = reading.totals.unwrap();
        assert_eq!((totals.inferior_mj, totals.inferior_rest), (34, 15_574_000));
        assert_eq!(reading.mean_inferior, Ok(34_015_574));
    }
}

/// 1,000 dm³ at rho, less than a kg.
#[test]
fn k9_mass() {
    let rho = properties_of(&K2).unwrap().rho;
    for reading in k9() {
        let totals = reading.totals.unwrap();
        assert_eq!((totals.mass_kg, totals.mass_rest), (0, 1_000 * rho));
    }
}

/// K2 between records that are refused, an empty one and K1 at 0/0; a volume before
/// the first analysis, and at the end one that is too great, refused too. What is
/// accepted makes K9.
#[test]
fn k9_in_a_day_file() {
    let file = day_file::file_of(&[&[][..], &K2, &record(0, 0, &K1), &[]]);
    let metering = day(0, file, vec![1_000, 400, 600, 10_000_001]);
    let accepted = Counts {
        analyses: 1,
        volumes: 2,
    };
    for (mut meter, k9) in fresh_meters().into_iter().zip(k9()) {
        assert_eq!(meter.answer(&metering), Answer::Metered(Ok(accepted)));
        assert_eq!(reading_in(meter.answer(&call(b'r', 0, 0))), k9);
    }
}

/// Each number of a day file's metering, where the next ones hold too; the meter
/// stays as it was.
#[test]
fn day_file_refused() {
    let cut = |mark: &str| [mark.as_bytes(), &[1, 0, 13, 0], &K2[..12]].concat();
    let refused = [
        (13, 16, cut("GCR")),
        (21, 15, cut("GCR")),
        (21, 15, b"GDF\x01".to_vec()),
        (21, 15, b"GDF\x01\x01".to_vec()),
        (23, 15, cut("GDF")),
        (23, 15, b"GDF\x01\x00\x00".to_vec()),
        (19, 15, day_file::file_of(&[K2])),
        (19, 15, day_file::file_of(&[K2; 3])),
        (19, 15, b"GDF\x01\x00".to_vec()),
    ];
    for mut meter in fresh_meters() {
        for (number, stream, file) in &refused {
            let metering = day(*stream, file.clone(), vec![1, 1]);
            assert_eq!(meter.answer(&metering), Answer::Metered(Err(*number)));
            let without_analysis = meter.answer(&call(b'm', 15, 0));
            assert_eq!(without_analysis, Answer::Changed(Err(16)));
        }
    }
}

/// An empty block and K2, walked over, with the offsets before the first block and
/// past the end, and with the last byte missing.
#[test]
fn day_file_walk() {
    let file = [b"GDF\x01\x00\x00\x00\x0D\x00", &K2[..]].concat();
    let next = |file: &[u8], offset| {
        both(
            day_file::next_offset(file, offset),
            loonstool::next_offset(file, offset),
        )
    };
    assert_eq!(next(&file, 5), Ok(Next::Offset(7)));
    assert_eq!(next(&file, 7), Ok(Next::Offset(22)));
    assert_eq!(next(&file, 22), Ok(Next::End));
    for offset in [0, 4, 23, usize::MAX] {
        assert_eq!(next(&file, offset), Err(22));
    }
    assert_eq!(next(&file[..21], 7), Err(23));
    assert_eq!(next(&file[..8], 7), Err(23));
    assert_eq!(next(&file[..4], 5), Err(21));
    for block_at in [loonstool::block_at, day_file::block_at] {
        assert_eq!(block_at(&file, 5), Some(&[][..]));
        assert_eq!(block_at(&file, 7), Some(&K2[..]));
        assert_eq!(block_at(&file, 22), None);
        assert_eq!(block_at(&file[..21], 7), None);
    }
}

/// Methane at each combustion temperature: h by m, to the nearest. For 15 °C
/// document 02 prints the superior one.
#[test]
fn methane_per_kilogram() {
    for (combustion, metering) in [(25, 0), (20, 20), (15, 15), (0, 0)] {
        let column = Conditions::of(combustion, metering).unwrap().superior;
        let [superior, inferior] = [column, column + 1].map(|column| {
            let [h, m] = [column, MASS].map(|column| TABLE[0][column] as u64);
            nearest(1_000_000 * h, m)
        });
        let values = per_kilogram(&record(combustion, metering, &methane_and(&[])));
        assert_eq!(values, Ok(PerKilogram { superior, inferior }));
    }
    assert_eq!(per_kilogram(&K2).unwrap().superior, 5_557_315);
}

/// Hm × 1,000,000 / M ends in .5, and goes upward.
#[test]
fn half_per_kilogram() {
    let hm = sum(Conditions::of(15, 15).unwrap().superior, &HALF_GAS);
    let values = per_kilogram(&record(15, 15, &HALF_GAS)).unwrap();
    assert_eq!(
        2 * 1_000_000 * hm,
        (2 * values.superior as i64 - 1) * sum(MASS, &HALF_GAS)
    );
}

/// Of the two temperatures only the combustion one matters.
#[test]
fn per_kilogram_by_combustion() {
    let mut found = HashMap::new();
    for (name, gas) in cases::by_mass() {
        let values = per_kilogram(&gas.record()).unwrap();
        let earlier = found.entry((name, gas.pair.0)).or_insert(values);
        assert_eq!(*earlier, values, "{}", gas.title);
    }
    let superior = [25, 20, 15, 0].map(|combustion| found[&("annex_d", combustion)].superior);
    assert!(superior.is_sorted_by(|one, next| one < next));
}

#[test]
fn k10_line_23() {
    let (superior, inferior) = (TABLE[22][4], TABLE[22][5]);
    assert_eq!((superior, inferior), (2_700_200, 2_524_100));
    assert_eq!(2 * (superior - inferior), 352_200);
    assert_eq!(8 * TABLE[41][4], 352_128);
}

#[test]
fn table_corners() {
    assert_eq!(TABLE[0][..4], [160_430, 490, 447, 436]);
    assert_eq!(TABLE[0][10..], [892_970, 802_820]);
    assert_eq!(TABLE[7][0], 721_500);
    assert_eq!(TABLE[40][..4], [20_159, -40, -48, -51]);
    assert_eq!(TABLE[41][4..6], [44_016, 0]);
    assert_eq!(TABLE[54][..5], [640_650, 1_549, 1_449, 1_414, 0]);
    assert!(TABLE[48..].iter().all(|line| line[4..] == [0; 8]));
}

#[test]
fn writer_refusals() {
    let mut out = [7; 18];
    assert_eq!(write(1, 1, &[1], &[], &mut out), Err(19));
    assert_eq!(write(25, 15, &[], &[], &mut out), Err(4));
    assert_eq!(write(15, 15, &[], &[], &mut out), Err(5));
    assert_eq!(write(15, 15, &[], &[1], &mut out), Err(19));
    assert_eq!(write(15, 15, &[0], &[0], &mut out), Err(7));
    assert_eq!(write(15, 15, &[1], &[0], &mut out), Err(8));
    assert_eq!(write(15, 15, &[2], &[1_000_000], &mut out), Err(10));
    let lines = [1, 3];
    assert_eq!(write(15, 15, &lines, &[940_000, 60_000], &mut out), Err(11));
    let lines = [1, 42];
    let wet = [999_799, 201];
    assert_eq!(write(15, 15, &lines, &wet, &mut out[..3]), Err(12));
    assert_eq!(write(15, 15, &[1], &[999_899], &mut []), Err(9));
    let dry = [999_800, 200];
    assert_eq!(write(15, 15, &lines, &dry, &mut []), Err(20));
    assert_eq!(write(15, 15, &lines, &dry, &mut out[..17]), Err(20));
    assert_eq!(out, [7; 18]);
    assert_eq!(write(15, 15, &lines, &dry, &mut out), Ok(18));
}

#[test]
fn lists_that_are_no_gas() {
    let lists: [(u8, &[u8], &[u32]); 3] = [
        (7, &[1, 2, 2], &[0, 999_999, 1]),
        (19, &[1, 2], &[1_000_000]),
        (5, &[1; 56], &[1; 56]),
    ];
    let mut out = [170; 300];
    for (number, lines, fractions) in lists {
        assert_eq!(write(15, 15, lines, fractions, &mut out), Err(number));
    }
    assert_eq!(out, [170; 300]);
}
