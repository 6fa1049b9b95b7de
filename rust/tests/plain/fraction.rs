//! Exact fractions of whole numbers of any size.

/// A whole number: 32 bits a digit, least significant first, the last not 0.
type Digits = Vec<u32>;

/// The digits of a number that has a sum, at most (2^32 - 1)², at each place.
fn carried(sums: impl Iterator<Item = u64>) -> Digits {
    let mut carry = 0;
    let mut digits: Digits = sums
        .chain([0])
        .map(|sum| {
            carry = (carry >> 32) + sum;
            carry as u32
        })
        .collect();
    let length = digits.iter().rposition(|digit| *digit > 0);
    digits.truncate(length.map_or(0, |last| last + 1));
    digits
}

fn whole(number: u128) -> Digits {
    carried((0..4).map(|place| u64::from((number >> (32 * place)) as u32)))
}

fn plus(a: &Digits, b: &Digits) -> Digits {
    let digit = |of: &Digits, i| u64::from(*of.get(i).unwrap_or(&0));
    carried((0..a.len().max(b.len())).map(|i| digit(a, i) + digit(b, i)))
}

fn times(a: &Digits, b: &Digits) -> Digits {
    let mut product = Digits::new();
    for (place, digit) in a.iter().enumerate() {
        let zeros = std::iter::repeat_n(0, place);
        let row = b.iter().map(|other| u64::from(*digit) * u64::from(*other));
        product = plus(&product, &carried(zeros.chain(row)));
    }
    product
}

fn at_most(a: &Digits, b: &Digits) -> bool {
    (a.len(), a.iter().rev().collect::<Vec<_>>()) <= (b.len(), b.iter().rev().collect())
}

#[derive(Clone)]
pub struct Fraction {
    above: Digits,
    below: Digits,
}

impl Fraction {
    /// The product of some numbers by that of others.
    pub fn new(above: &[u128], below: &[u128]) -> Self {
        let product = |of: &[u128]| of.iter().fold(whole(1), |a, b| times(&a, &whole(*b)));
        Self {
            above: product(above),
            below: product(below),
        }
    }

    /// Adds a multiple of another fraction, by cross multiplication where the parts below differ.
    pub fn add_times(&mut self, multiple: u64, other: &Self) {
        let more = times(&other.above, &whole(multiple.into()));
        if self.below == other.below {
            self.above = plus(&self.above, &more);
        } else {
            self.above = plus(
                &times(&self.above, &other.below),
                &times(&more, &self.below),
            );
            self.below = times(&self.below, &other.below);
        }
    }

    /// Whether it differs from a whole number by at most `most`.
    pub fn is_within(&self, most: u128, number: u128) -> bool {
        let scaled = |number| times(&self.below, &whole(number));
        at_most(&scaled(number), &plus(&self.above, &scaled(most)))
            && at_most(&self.above, &scaled(number + most))
    }
}
