//! include/loonstool.h has the names, numbers, conditions, parameters and ceilings of this crate; the conditions, units and ceilings are
//! those of the definitions in specs/.
use loonstool::{PerKilogram, Properties, Refusal, FIRST_BLOCK, LINES, STREAMS, STREAM_WORDS};

const HEADER: &str = include_str!("../../include/loonstool.h");
const WRAPPERS: [&str; 3] = [
    include_str!("../src/lib.rs"),
    METER_WRAPPER,
    DAY_FILE_WRAPPER,
];
const METER_WRAPPER: &str = include_str!("../src/meter.rs");
const DAY_FILE_WRAPPER: &str = include_str!("../src/day_file.rs");
const RECORDS: &str = include_str!("../../crates/records/specs/Conditions.antt");
const METER: &str = include_str!("../../crates/meter/specs/Conditions.antt");
const DAY_FILE: [&str; 2] = [
    include_str!("../../crates/day_file/specs/Format.antt"),
    include_str!("../../crates/day_file/specs/Walk.antt"),
];
const QUANTITIES: &str = include_str!("../../crates/properties/specs/Quantities.antt");
const BOUNDS: &str = include_str!("../../crates/properties/specs/Bounds.antt");

/// Name, number and comment of a line of the enum.
fn refusal(line: &str) -> Option<(&str, u8, &str)> {
    let (name, rest) = line.trim().strip_prefix("LOONSTOOL_")?.split_once(" = ")?;
    let (number, rest) = rest.split_once(|c: char| !c.is_ascii_digit())?;
    let comment = rest.split_once("/* ")?.1.strip_suffix(" */")?;
    Some((name, number.parse().ok()?, comment))
}

#[test]
fn refusals() {
    let in_header: Vec<_> = HEADER.lines().filter_map(refusal).collect();
    let here: Vec<_> = Refusal::ALL
        .iter()
        .map(|(name, refusal)| (*name, refusal.number(), refusal.condition()))
        .collect();
    assert_eq!(in_header, here);
    assert_eq!(here.len(), 23);
    assert!(HEADER.contains("LOONSTOOL_ACCEPTED = 0,"));
    let says = Refusal::SUM_OUTSIDE.to_string();
    assert_eq!(says, "refused 9: sum outside its range");
}

/// Number and condition of a comment at a definition of specs/.
fn condition(line: &str) -> Option<(u8, &str)> {
    let (number, text) = line.strip_prefix("-- ")?.split_once(": ")?;
    Some((number.parse().ok()?, text))
}

#[test]
fn conditions() {
    let files = [RECORDS, METER].into_iter().chain(DAY_FILE);
    let mut defined: Vec<_> = files.flat_map(str::lines).filter_map(condition).collect();
    defined.sort_unstable();
    assert_eq!(defined.len(), Refusal::ALL.len());
    for ((number, text), (_, refusal)) in defined.into_iter().zip(Refusal::ALL) {
        assert_eq!(number, refusal.number());
        assert!(text.starts_with(refusal.condition()), "{number}: {text}");
    }
}

/// The names of the parameters of a function, from its text after the first parenthesis.
fn parameters<'a>(text: &'a str, name: fn(&'a str) -> &'a str) -> Vec<&'a str> {
    let (list, _) = text.split_once(')').expect("a list of parameters ends");
    list.split(',')
        .map(|parameter| name(parameter.trim()))
        .filter(|name| !name.is_empty())
        .collect()
}

/// The name of a parameter in C: its last word, without a star before it and the size of an array after it.
fn name_in_c(parameter: &str) -> &str {
    let name = parameter.split('[').next().unwrap_or_default();
    name.rsplit([' ', '*']).next().unwrap_or_default()
}

/// The name of a parameter in Rust.
fn name_in_rust(parameter: &str) -> &str {
    parameter.split(':').next().unwrap_or_default()
}

/// An exported function as a file of src/ declares it.
struct Declared {
    function: &'static str,
    parameters: Vec<&'static str>,
    /// The type of its answer in C.
    answer: &'static str,
}

impl Declared {
    /// From its text after `fn`.
    fn from(text: &'static str) -> Option<Self> {
        let (function, rest) = text.split_once('(')?;
        let (_, answer) = rest.split_once(')')?;
        let answer = match answer.trim() {
            ";" => "void",
            "-> bool;" => "bool",
            "-> u8;" => "uint8_t",
            other => panic!("{function} answers {other}"),
        };
        Some(Self {
            function,
            parameters: parameters(rest, name_in_rust),
            answer,
        })
    }

    fn in_file(text: &'static str) -> impl Iterator<Item = Self> {
        let (_, block) = text
            .split_once("extern \"sysv64\" {\n")
            .expect("the block of declarations");
        let (block, _) = block.split_once("\n}\n").expect("its end");
        block.split("    fn ").filter_map(Self::from)
    }
}

#[test]
fn declarations() {
    let declared: Vec<_> = WRAPPERS.into_iter().flat_map(Declared::in_file).collect();
    // The header gives the stack of every function.
    let exported = HEADER.matches("\n#define LOONSTOOL_STACK_").count();
    assert_eq!(declared.len(), exported);
    for Declared {
        function,
        parameters: names,
        answer,
    } in declared
    {
        let start = format!("\n{answer} {function}(");
        let (_, rest) = HEADER.split_once(&start).expect(function);
        assert_eq!(parameters(rest, name_in_c), names, "{function}");
    }
}

/// Name, unit and ceiling of a field of struct loonstool_properties or struct loonstool_per_kilogram.
fn quantity(line: &str) -> Option<(&str, &str, u64)> {
    let (name, rest) = line.trim().strip_prefix("uint64_t ")?.split_once(';')?;
    let (unit, rest) = rest.split_once(", unit ")?.1.split_once(", at most ")?;
    let ceiling = rest.strip_suffix(" */")?.replace(',', "");
    Some((name, unit, ceiling.parse().ok()?))
}

/// The text of a definition of a file of specs/.
fn defined(file: &'static str, name: &str) -> &'static str {
    let start = format!("\n{name} = ");
    let (_, rest) = file.split_once(&start).expect(name);
    rest.lines().next().unwrap_or_default()
}

/// The elements of a list of specs/Quantities.antt, in the order Z, Hs, Hi, rho, d, W, superior and inferior value per kilogram; the list
/// has one for both of these.
fn elements(name: &str) -> Vec<&'static str> {
    let list = defined(QUANTITIES, name).strip_suffix(" ∷ []").expect(name);
    let per_kilogram = list.rsplit(" ∷ ").take(1);
    list.split(" ∷ ").chain(per_kilogram).collect()
}

/// How many of a unit of the header make 1 of the standard's (1, 1 MJ/m3, 1 kg/m3, 1 MJ/kg), in the words of specs/Quantities.antt.
fn scale(unit: &str) -> String {
    let power = match unit {
        "J/m3" => "6",
        "10 J/kg" => "5",
        _ => &unit.strip_prefix("10^-").expect(unit)[..1],
    };
    format!("10 ^ {power}")
}

#[test]
fn units_and_ceilings() {
    let in_header: Vec<_> = HEADER.lines().filter_map(quantity).collect();
    let (ceilings, per_kilogram) = (Properties::CEILINGS, PerKilogram::CEILINGS);
    let here = [
        ("z", ceilings.z),
        ("hs", ceilings.hs),
        ("hi", ceilings.hi),
        ("rho", ceilings.rho),
        ("d", ceilings.d),
        ("w", ceilings.w),
        ("superior", per_kilogram.superior),
        ("inferior", per_kilogram.inferior),
    ];
    let named = in_header.iter().map(|(name, _, ceiling)| (*name, *ceiling));
    assert_eq!(named.collect::<Vec<_>>(), here);
    let scales = in_header.iter().map(|(_, unit, _)| scale(unit));
    assert_eq!(scales.collect::<Vec<_>>(), elements("scales"));
    let bounds = elements("bounds");
    let bounds = bounds.into_iter().map(|name| defined(QUANTITIES, name));
    let ceilings = here.map(|(_, ceiling)| ceiling.to_string());
    assert_eq!(bounds.collect::<Vec<_>>(), ceilings);
}

#[test]
fn sizes() {
    for (name, size) in [
        ("LINES", LINES),
        ("STREAMS", STREAMS),
        ("STREAM_WORDS", STREAM_WORDS),
        ("FIRST_BLOCK", FIRST_BLOCK),
        ("DAY_END", 0),
    ] {
        assert!(HEADER.contains(&format!("\n#define LOONSTOOL_{name} {size}\n")));
    }
    assert!(DAY_FILE_WRAPPER.contains("\nconst DAY_END: usize = 0;\n"));
}

/// The names of the fields of a struct, whose text begins as given and ends with a brace at the start of a line.
fn fields(text: &'static str, start: &str, keyword: &str) -> Vec<&'static str> {
    let (_, rest) = text.split_once(start).expect(start);
    let (body, _) = rest.split_once("\n}").expect("its end");
    let lines = body
        .lines()
        .filter_map(|line| line.trim().strip_prefix(keyword));
    lines
        .filter_map(|line| line.split([';', ':']).next())
        .collect()
}

#[test]
fn totals_and_counts() {
    for (in_c, here, number) in [
        ("struct loonstool_totals {", "pub struct Totals {", 7),
        ("struct loonstool_counts {", "pub struct Counts {", 2),
    ] {
        let in_c = fields(HEADER, in_c, "uint64_t ");
        let here = fields(METER_WRAPPER, here, "pub ");
        assert_eq!(in_c, here);
        assert_eq!(here.len(), number);
    }
}

/// A block of a day file, field by field.
#[test]
fn day_block() {
    let in_c = "\nstruct loonstool_block {\n    const uint8_t *bytes;\n    size_t length;\n};\n";
    let here = "\nstruct Block {\n    bytes: *const u8,\n    length: usize,\n}\n";
    assert!(HEADER.contains(in_c));
    assert!(DAY_FILE_WRAPPER.contains(here));
}

#[test]
fn floors() {
    let Properties {
        z,
        hs,
        hi,
        rho,
        d,
        w,
    } = Properties::FLOORS;
    for (name, floor) in [
        ("compression_low", z),
        ("calorific_low", hs),
        ("calorific_low", hi),
        ("density_low", rho),
        ("relative_low", d),
        ("wobbe_low", w),
    ] {
        assert_eq!(defined(BOUNDS, name), floor.to_string(), "{name}");
    }
}
