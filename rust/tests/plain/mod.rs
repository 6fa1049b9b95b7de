//! Gas properties, values per kilogram, stream energy and stream mass, also of a
//! day's analyses in one file, in plain Rust, written from documents 01 and 02
//! alone, but for `words`, which has the library's own order and limits. Refusals
//! are these documents' numbers; properties, values, totals, counts, what is read
//! and what follows an offset have the library's types.

// Each test and benchmark that includes this module uses a part of it.
#![allow(dead_code, unused_imports)]

pub mod conditions;
pub mod day_file;
pub mod fraction;
pub mod meter;
pub mod properties;
pub mod record;
pub mod table;
pub mod tally;
pub mod words;

pub use meter::Meter;
pub use properties::{per_kilogram, properties_of, six};
pub use record::{read, write};
pub use tally::Tally;
