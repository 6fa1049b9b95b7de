//! The component table, read at compile time from the tables of source
//! document 002.

/// Lines of the table.
pub const LINES: usize = 55;

/// Column of the molar mass, unit 0.0001 kg/kmol.
pub const MASS: usize = 0;

/// First of three columns with the summation factor at 0, 15 and 20 °C, unit
/// 0.0001.
pub const FACTOR: usize = 1;

/// First of eight columns with the calorific value, superior then inferior, at
/// 25, 20, 15 and 0 °C, unit 0.001 kJ/mol.
pub const CALORIFIC: usize = 4;

/// Line n of the paper stands at n - 1.
pub static TABLE: [[i32; 12]; LINES] = assemble();

const TABLE_1: &str = include_str!("../../../tools/reading/table1.csv");
const TABLE_2: &str = include_str!("../../../tools/reading/table2.csv");
const TABLE_3: &str = include_str!("../../../tools/reading/table3.csv");

const fn assemble() -> [[i32; 12]; LINES] {
    let masses = columns::<1>(TABLE_1, 2, 4);
    let factors = columns::<6>(TABLE_2, 1, 4);
    let calorific = columns::<8>(TABLE_3, 1, 3);
    let mut table = [[0; 12]; LINES];
    let mut line = 0;
    while line < LINES {
        table[line][MASS] = masses[line][0];
        let mut i = 0;
        while i < 3 {
            // Each temperature has a column z before its column s.
            table[line][FACTOR + i] = factors[line][2 * i + 1];
            i += 1;
        }
        let mut i = 0;
        while i < 8 {
            table[line][CALORIFIC + i] = calorific[line][i];
            i += 1;
        }
        line += 1;
    }
    table
}

/// The N columns from field `first` on, with `places` decimals. The first field
/// of a row is its line number; a line without a row is 0. The first row holds
/// the column names.
const fn columns<const N: usize>(text: &str, first: usize, places: u32) -> [[i32; N]; LINES] {
    let text = text.as_bytes();
    let mut table = [[0; N]; LINES];
    let mut at = row_end(text, 0) + 1;
    while at < text.len() {
        let end = row_end(text, at);
        let line = number(text, at, field_end(text, at), 0) as usize;
        let mut field = 0;
        while at < end {
            let stop = field_end(text, at);
            if field >= first {
                table[line - 1][field - first] = number(text, at, stop, places);
            }
            field += 1;
            at = stop + 1;
        }
        assert!(field == first + N, "a row has another number of fields");
        at = end + 1;
    }
    table
}

/// Where the row that starts at `at` ends.
const fn row_end(text: &[u8], mut at: usize) -> usize {
    while at < text.len() && text[at] != b'\n' {
        at += 1;
    }
    at
}

/// Where the field that starts at `at` ends; a comma in quotes ends no field.
const fn field_end(text: &[u8], mut at: usize) -> usize {
    let mut quoted = false;
    while at < text.len() && text[at] != b'\n' && (quoted || text[at] != b',') {
        quoted ^= text[at] == b'"';
        at += 1;
    }
    at
}

/// The decimal number in `text[at..end]`, in units of its last of `places`
/// decimals.
const fn number(text: &[u8], mut at: usize, end: usize, places: u32) -> i32 {
    let negative = text[at] == b'-';
    if negative {
        at += 1;
    }
    let mut value = 0;
    let mut decimals = 0;
    let mut past_point = false;
    while at < end {
        if text[at] == b'.' {
            assert!(!past_point, "two decimal points");
            past_point = true;
        } else {
            assert!(text[at].is_ascii_digit(), "not a number");
            value = value * 10 + (text[at] - b'0') as i32;
            decimals += past_point as u32;
        }
        at += 1;
    }
    assert!(decimals <= places, "more decimals than the unit has");
    value *= 10_i32.pow(places - decimals);
    if negative {
        -value
    } else {
        value
    }
}
