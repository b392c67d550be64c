//! The classes of input, and how one of each is drawn.

use crate::random::Random;

/// What an input is made of.
#[derive(Clone, Copy, PartialEq)]
pub enum Class {
    /// Whole numbers from -9 to 9.
    Whole,
    /// Matrices of whole numbers whose signed sum is a power of two or its negative.
    Power,
    /// Matrices of whole numbers whose signed sum is zero.
    Singular,
    /// Numbers of everyday size with all their digits drawn, so that each operation rounds.
    Fraction,
    /// Any bit pattern.
    Bits,
    /// At least one NaN, of any sign and payload, among whole numbers.
    Nan,
    /// At least one infinity among whole numbers.
    Infinite,
    /// At least one subnormal number among whole and huge ones.
    Subnormal,
    /// Zeros of both signs, and a few ones.
    Zeros,
    /// Huge and tiny numbers.
    Extreme,
}

/// Every class, in the order of the list.
pub const CLASSES: [Class; 10] = [
    Class::Whole,
    Class::Power,
    Class::Singular,
    Class::Fraction,
    Class::Bits,
    Class::Nan,
    Class::Infinite,
    Class::Subnormal,
    Class::Zeros,
    Class::Extreme,
];

/// How many lines an operation, an order and a class of input have at least.
pub const LINES: usize = 5;

/// How many matrices of the order an input has, and how many numbers behind them.
#[derive(Clone, Copy)]
pub struct Shape {
    pub matrices: usize,
    pub numbers: usize,
}

/// As many numbers.
pub const fn numbers(numbers: usize) -> Shape {
    Shape { matrices: 0, numbers }
}

/// One matrix, and numbers behind it.
pub const fn matrix(numbers: usize) -> Shape {
    Shape { matrices: 1, numbers }
}

/// Two matrices.
pub const MATRICES: Shape = Shape { matrices: 2, numbers: 0 };

impl Class {
    /// The class's word in the list.
    pub fn name(self) -> &'static str {
        match self {
            Class::Whole => "whole",
            Class::Power => "power",
            Class::Singular => "singular",
            Class::Fraction => "fraction",
            Class::Bits => "bits",
            Class::Nan => "nan",
            Class::Infinite => "infinite",
            Class::Subnormal => "subnormal",
            Class::Zeros => "zeros",
            Class::Extreme => "extreme",
        }
    }

    /// How many lines an operation and an order have of this class: more where rounding tells two rules apart.
    pub fn lines(self) -> usize {
        match self {
            Class::Fraction => 12,
            _ => LINES,
        }
    }

    /// Whether inputs of this shape can be of this class.
    pub fn applies(self, shape: Shape) -> bool {
        shape.matrices > 0 || !matches!(self, Class::Power | Class::Singular)
    }

    /// An input of this class: the matrices column by column, then the numbers.
    pub fn draw(self, random: &mut Random, order: usize, shape: Shape) -> Vec<f64> {
        let mut drawn = Vec::new();
        for _ in 0..shape.matrices {
            drawn.extend(self.matrix(random, order));
        }
        for _ in 0..shape.numbers {
            drawn.push(self.number(random));
        }
        if let Some(special) = self.special(random) {
            let place = random.below(drawn.len() as u64) as usize;
            drawn[place] = special;
        }
        drawn
    }

    fn matrix(self, random: &mut Random, order: usize) -> Vec<f64> {
        match self {
            Class::Power => flat(power(random, order)),
            Class::Singular => flat(singular(random, order)),
            _ => (0..order * order).map(|_| self.number(random)).collect(),
        }
    }

    fn number(self, random: &mut Random) -> f64 {
        let whole = random.between(-9, 9) as f64;
        let seldom = random.below(4) == 0;
        match self {
            Class::Whole | Class::Power | Class::Singular => whole,
            Class::Fraction => digits(random, -6, 6),
            Class::Bits => f64::from_bits(random.bits()),
            Class::Nan | Class::Infinite if seldom => self.special(random).unwrap_or(whole),
            Class::Nan | Class::Infinite => whole,
            Class::Subnormal => match random.below(4) {
                0 => whole,
                1 => digits(random, 1000, 1023),
                _ => subnormal(random),
            },
            Class::Zeros => random.one_of(&[0.0, -0.0, 0.0, -0.0, 0.0, -0.0, 1.0, -1.0]),
            Class::Extreme => match random.below(4) {
                0 | 1 => digits(random, 500, 1023),
                2 => digits(random, -1022, -500),
                _ => random.one_of(&[f64::MAX, f64::MIN, f64::MIN_POSITIVE, 1.0]),
            },
        }
    }

    /// The number that an input of this class has at least once.
    fn special(self, random: &mut Random) -> Option<f64> {
        match self {
            Class::Nan => Some(nan(random)),
            Class::Infinite => Some(random.one_of(&[f64::INFINITY, f64::NEG_INFINITY])),
            Class::Subnormal => Some(subnormal(random)),
            _ => None,
        }
    }
}

/// All digits drawn, with the exponent of two from `low` to `high` and any sign.
fn digits(random: &mut Random, low: i64, high: i64) -> f64 {
    let exponent = (random.between(low, high) + 1023) as u64;
    f64::from_bits((random.bits() & 0x800f_ffff_ffff_ffff) | (exponent << 52))
}

/// A subnormal number, now and then the smallest or the largest.
fn subnormal(random: &mut Random) -> f64 {
    let sign = random.bits() & (1 << 63);
    let below_hidden = match random.below(4) {
        0 => 1,
        1 => 0x000f_ffff_ffff_ffff,
        _ => random.below(0x000f_ffff_ffff_ffff) + 1,
    };
    f64::from_bits(sign | below_hidden)
}

/// A NaN of any sign and payload.
fn nan(random: &mut Random) -> f64 {
    let payload = random.below(0x000f_ffff_ffff_ffff) + 1;
    f64::from_bits((random.bits() & (1 << 63)) | 0x7ff0_0000_0000_0000 | payload)
}

/// Columns of whole numbers whose signed sum is a power of two or its negative:
/// powers of two down the diagonal, then columns added to others and rows added to others.
fn power(random: &mut Random, order: usize) -> Vec<Vec<i64>> {
    let mut columns = vec![vec![0; order]; order];
    for (place, column) in columns.iter_mut().enumerate() {
        column[place] = random.one_of(&[1, -1, 2, -2, 4]);
    }
    for _ in 0..2 * order {
        let to = random.below(order as u64) as usize;
        let from = (to + 1 + random.below(order as u64 - 1) as usize) % order;
        let times = random.between(-2, 2);
        if random.below(2) == 0 {
            let added = columns[from].clone();
            for (entry, other) in columns[to].iter_mut().zip(added) {
                *entry += times * other;
            }
        } else {
            for column in &mut columns {
                column[to] += times * column[from];
            }
        }
    }
    columns
}

/// Columns of whole numbers of which one is a combination of the others.
fn singular(random: &mut Random, order: usize) -> Vec<Vec<i64>> {
    let mut columns: Vec<Vec<i64>> = (0..order).map(|_| (0..order).map(|_| random.between(-9, 9)).collect()).collect();
    let dependent = random.below(order as u64) as usize;
    let mut combined = vec![0; order];
    for (place, column) in columns.iter().enumerate() {
        let times = if place == dependent { 0 } else { random.between(-3, 3) };
        for (entry, other) in combined.iter_mut().zip(column) {
            *entry += times * other;
        }
    }
    columns[dependent] = combined;
    columns
}

fn flat(columns: Vec<Vec<i64>>) -> Vec<f64> {
    columns.concat().into_iter().map(|entry| entry as f64).collect()
}
