//! The numbers that come back from a refused call.
use core::fmt;

/// A refusal: one number, the first condition of the call's order that holds.
#[derive(Debug, Clone, Copy, PartialEq, Eq)]
pub struct Refusal {
    number: u8,
}

/// A named refusal for each number, and what each says.
macro_rules! refusals {
    ($($number:literal $name:ident $says:literal;)*) => {
        impl Refusal {
            $(
                #[doc = concat!(stringify!($number), ": ", $says, ".")]
                pub const $name: Refusal = Refusal { number: $number };
            )*

            /// Every refusal with its name, in the order of the numbers. The calls of a [`Meter`](crate::Meter) alone give 13 to 18, those
            /// on a day file alone 21 to 23.
            pub const ALL: &'static [(&'static str, Refusal)] = &[$((stringify!($name), Refusal::$name)),*];

            /// The name of its constant.
            #[must_use]
            pub const fn name(self) -> &'static str {
                match self.number {
                    $($number => stringify!($name),)*
                    _ => "unknown",
                }
            }

            /// The condition that holds.
            #[must_use]
            pub const fn condition(self) -> &'static str {
                match self.number {
                    $($number => $says,)*
                    _ => "unknown",
                }
            }
        }
    };
}

refusals! {
    1 RECORD_SHORT "record shorter than 8 bytes";
    2 MARK_DIFFERS "mark differs";
    3 VERSION_DIFFERS "version is not 1";
    4 PAIR_NOT_PERMITTED "pair not permitted";
    5 COUNT_OUTSIDE "n is 0 or above 55";
    6 LENGTH_DIFFERS "length is not 8 + 5n";
    7 LINE_OUTSIDE "a line number outside 1 to 55, or not above the one before";
    8 FRACTION_ZERO "a fraction is 0";
    9 SUM_OUTSIDE "sum outside its range";
    10 METHANE_LOW "methane too low";
    11 FRACTION_ABOVE "a line other than water above its limit";
    12 WATER_HIGH "water above 200";
    13 STREAM_ABOVE "stream above 15";
    14 PAIR_DIFFERS "pair is not the stream's";
    15 VOLUME_ABOVE "volume above 10,000,000";
    16 NO_ANALYSIS "stream has no analysis";
    17 TOTAL_PASSES "volume total would pass 999,999,999,999";
    18 TOTAL_ZERO "mean wanted at volume total 0";
    19 LISTS_DIFFER "the two lists differ in length";
    20 BUFFER_SHORT "buffer shorter than 8 + 5n";
    21 NO_DAY_FILE "file shorter than 5 bytes, or wrong mark or version";
    22 OFFSET_OUTSIDE "offset below 5 or past the end";
    23 BLOCK_CUT "block cut short by the file's end";
}

impl Refusal {
    /// The number.
    #[must_use]
    pub const fn number(self) -> u8 {
        self.number
    }

    /// What an exported function returned: 0 says that the call was accepted.
    pub(crate) const fn unless_accepted(number: u8) -> Result<(), Refusal> {
        match number {
            0 => Ok(()),
            _ => Err(Refusal { number }),
        }
    }
}

impl fmt::Display for Refusal {
    fn fmt(&self, f: &mut fmt::Formatter<'_>) -> fmt::Result {
        write!(f, "refused {}: {}", self.number, self.condition())
    }
}

impl core::error::Error for Refusal {}
