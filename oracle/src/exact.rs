//! The arithmetic of a reading on whole numbers alone, so that a comparison does not rest on this machine's
//! floating point: an f64 is a whole number times a power of two, products and sums of those are exact, and
//! rounding to nearest, ties to even, is written out here. Floats come and go as their 64 bits.

use crate::certificate::INFINITE;
use std::cmp::Ordering;

/// `value` times 2^`exponent`.
#[derive(Clone, Copy, Debug, PartialEq)]
pub struct Exact {
    value: i128,
    exponent: i32,
}

const SIGN: u64 = 1 << 63;
/// The bits of an f64's whole number, the implied one counted, and the lowest power of two it can stand at.
const PRECISION: i32 = 53;
const LOWEST: i32 = -1074;

/// How a whole number lies between the two neighbours that it may be rounded to.
#[derive(Clone, Copy, Debug, PartialEq)]
pub enum Rounding {
    Exact,
    Down,
    Up,
    TieDown,
    TieUp,
}

impl Exact {
    /// A whole number of up to 64 bits times a power of two.
    pub fn new(value: u64, exponent: i32) -> Exact {
        Exact { value: value.into(), exponent }
    }

    /// The value of a float that is neither infinite nor no number.
    pub fn of(bits: u64) -> Exact {
        let (fraction, field) = (bits & ((1 << 52) - 1), (bits >> 52 & 0x7ff) as i32);
        let (value, exponent) = match field {
            0 => (fraction, LOWEST),
            _ => (fraction | 1 << 52, field - 1075),
        };
        let value = i128::from(value);
        Exact { value: if bits & SIGN == 0 { value } else { -value }, exponent }
    }

    pub fn times(self, counts: u32) -> Exact {
        Exact { value: self.value * i128::from(counts), ..self }
    }

    /// The exact sum; none where it has more bits than are at hand.
    pub fn plus(self, other: Exact) -> Option<Exact> {
        let (high, low) = if self.exponent > other.exponent { (self, other) } else { (other, self) };
        let distance = (high.exponent - low.exponent) as u32;
        let fits = low.value.unsigned_abs() < 1 << 125 && distance <= high.room();
        fits.then(|| Exact { value: (high.value << distance) + low.value, ..low })
    }

    /// The sum of two f64s, exact or so near to it that it is rounded to the same f64: of the float that
    /// is too small by far only the sign counts, since the other has 53 bits and more than 70 free ones
    /// behind them.
    fn plus_float(self, other: Exact) -> Exact {
        self.plus(other).unwrap_or_else(|| {
            let (high, low) = if self.exponent > other.exponent { (self, other) } else { (other, self) };
            let room = high.room();
            let value = (high.value << room) + low.value.signum();
            Exact { value, exponent: high.exponent - room as i32 }
        })
    }

    /// The places by which the value can be moved up and still be added to.
    fn room(self) -> u32 {
        self.value.unsigned_abs().leading_zeros().saturating_sub(2).min(126)
    }

    fn bits(self) -> i32 {
        128 - self.value.unsigned_abs().leading_zeros() as i32
    }

    /// Rounded to so many bits, at no lower a power of two than `lowest`; and which way it went.
    fn round(self, precision: i32, lowest: i32) -> (Exact, Rounding) {
        let exponent = (self.exponent + self.bits() - precision).max(lowest);
        let dropped = exponent - self.exponent;
        if dropped <= 0 {
            return (self, Rounding::Exact);
        }
        // A value has at most 127 bits, and none stands far below the lowest power, so fewer are dropped.
        let size = self.value.unsigned_abs();
        let (kept, rest, half) = (size >> dropped, size & ((1 << dropped) - 1), 1 << (dropped - 1));
        let way = match rest.cmp(&half) {
            _ if rest == 0 => Rounding::Exact,
            Ordering::Less => Rounding::Down,
            Ordering::Greater => Rounding::Up,
            Ordering::Equal if kept % 2 == 0 => Rounding::TieDown,
            Ordering::Equal => Rounding::TieUp,
        };
        let kept = kept as i128 + i128::from(matches!(way, Rounding::Up | Rounding::TieUp));
        (Exact { value: kept * self.value.signum(), exponent }, way)
    }

    /// Rounded to 64 bits, at any power of two: what the wider format of a processor holds.
    fn widely(self) -> Exact {
        self.round(64, i32::MIN / 2).0
    }

    /// The way to the f64 that is nearest.
    fn rounding(self) -> Rounding {
        self.round(PRECISION, LOWEST).1
    }

    /// The f64 that is nearest; ties to even; infinite from half a step behind the highest one on. Zero is
    /// +0: it comes of a product that is not below 0, and of a sum of which one part is +0 or above.
    pub fn to_f64(self) -> u64 {
        let rounded = self.round(PRECISION, LOWEST).0;
        let sign = if rounded.value < 0 { SIGN } else { 0 };
        let (mut size, mut exponent) = (rounded.value.unsigned_abs(), rounded.exponent);
        if size == 0 {
            return 0;
        }
        // The leading bit goes to its place, or as near as the lowest power of two allows.
        while exponent > LOWEST && size < 1 << 52 {
            (size, exponent) = (size << 1, exponent - 1);
        }
        while size >= 1 << 53 {
            (size, exponent) = (size >> 1, exponent + 1);
        }
        if size < 1 << 52 {
            return sign | size as u64;
        }
        match exponent + 1075 {
            0x7ff.. => sign | INFINITE,
            field => sign | (field as u64) << 52 | (size as u64 & ((1 << 52) - 1)),
        }
    }
}

/// What gain, counts and offset give; gain and offset are finite.
#[derive(Clone, Copy, Debug)]
pub struct Reading {
    /// "Gain times counts", and the way it was rounded.
    pub product: u64,
    pub product_way: Rounding,
    /// "Then plus offset", likewise. Infinite where the product is.
    pub sum: u64,
    pub sum_way: Rounding,
}

impl Reading {
    pub fn of(gain: u64, counts: u32, offset: u64) -> Reading {
        let exact = Exact::of(gain).times(counts);
        let (product, product_way) = (exact.to_f64(), exact.rounding());
        if product == INFINITE {
            return Reading { product, product_way, sum: INFINITE, sum_way: Rounding::Exact };
        }
        let exact = Exact::of(product).plus_float(Exact::of(offset));
        Reading { product, product_way, sum: exact.to_f64(), sum_way: exact.rounding() }
    }
}

// What the same numbers give by other arithmetic; none where the exact sum has more bits than are at hand.

/// One product and sum, rounded once together.
pub fn fused(gain: u64, counts: u32, offset: u64) -> Option<u64> {
    Some(Exact::of(gain).times(counts).plus(Exact::of(offset))?.to_f64())
}

/// Product and sum of 64 bits, rounded to an f64 at the end.
pub fn wide(gain: u64, counts: u32, offset: u64) -> Option<u64> {
    Some(Exact::of(gain).times(counts).widely().plus(Exact::of(offset))?.widely().to_f64())
}

/// A product rounded to 64 bits, and then to an f64.
pub fn product_in_two_steps(gain: u64, counts: u32) -> u64 {
    Exact::of(gain).times(counts).widely().to_f64()
}

/// A sum rounded to 64 bits, and then to an f64.
pub fn sum_in_two_steps(product: u64, offset: u64) -> Option<u64> {
    Some(Exact::of(product).plus(Exact::of(offset))?.widely().to_f64())
}

#[cfg(test)]
mod tests {
    use super::*;
    use crate::certificate_numbers::any_numbers;
    use crate::rng::Rng;

    /// This machine's own arithmetic says the same, of numbers made for it and of any.
    #[test]
    fn as_the_machine_has_it() {
        let mut rng = Rng::new(5);
        for _ in 0..300_000 {
            let (gain, counts, offset) = any_numbers(&mut rng);
            let product = f64::from_bits(gain) * f64::from(counts);
            let sum = product + f64::from_bits(offset);
            let reading = Reading::of(gain, counts, offset);
            let given = (reading.product, reading.sum);
            assert_eq!(given, (product.to_bits(), sum.to_bits()), "{gain:#x}, {counts}, {offset:#x}");
        }
    }

    fn whole(number: u64) -> u64 {
        (number as f64).to_bits()
    }

    /// Here every second number is a float, and every second float is even: 3 * (2^52 + 1) lies half way
    /// between 3 * 2^52 + 2 and + 4, the latter even, and 3 * (2^52 + 3) between + 8, which is, and + 10.
    #[test]
    fn products_half_way() {
        let up = Reading::of(whole((1 << 52) + 1), 3, 0);
        assert_eq!((up.product, up.product_way), (whole((3 << 52) + 4), Rounding::TieUp));
        let down = Reading::of(whole((1 << 52) + 3), 3, 0);
        assert_eq!((down.product, down.product_way), (whole((3 << 52) + 8), Rounding::TieDown));
    }

    /// From 2^53 on only even numbers are floats, and every second one of them is even as a whole number.
    #[test]
    fn sums_half_way() {
        let down = Reading::of(whole(1 << 53), 1, whole(1));
        assert_eq!((down.sum, down.sum_way), (whole(1 << 53), Rounding::TieDown));
        let up = Reading::of(whole((1 << 53) + 2), 1, whole(1));
        assert_eq!((up.sum, up.sum_way), (whole((1 << 53) + 4), Rounding::TieUp));
    }

    /// The highest float is 2^1024 - 2^971; half a step more is infinite.
    #[test]
    fn half_a_step_behind_the_highest() {
        let half_step = 2f64.powi(970);
        let infinite = Reading::of(f64::MAX.to_bits(), 1, half_step.to_bits());
        assert_eq!((infinite.sum, infinite.sum_way), (INFINITE, Rounding::TieUp));
        let highest = Reading::of(f64::MAX.to_bits(), 1, half_step.next_down().to_bits());
        assert_eq!((highest.sum, highest.sum_way), (f64::MAX.to_bits(), Rounding::Down));
    }

    /// 1 + 2^-53 + 2^-105 is more than half a step above 1, but not once it is rounded to 64 bits. The
    /// product 3 * 2^52 + 3 is no float, but it fits 64 bits, and with 1 or 3 more it is one.
    #[test]
    fn other_arithmetic() {
        let offset = (2f64.powi(-53) + 2f64.powi(-105)).to_bits();
        assert_eq!(Reading::of(whole(1), 1, offset).sum, 1f64.next_up().to_bits());
        assert_eq!(sum_in_two_steps(whole(1), offset), Some(whole(1)));
        let gain = whole((1 << 52) + 1);
        assert_eq!(Reading::of(gain, 3, whole(1)).sum_way, Rounding::TieDown);
        assert_eq!(Reading::of(gain, 3, whole(1)).sum, whole((3 << 52) + 4));
        assert_eq!(fused(gain, 3, whole(1)), Some(whole((3 << 52) + 4)));
        assert_eq!(fused(gain, 3, whole(3)), Some(whole((3 << 52) + 6)));
        assert_eq!(Reading::of(gain, 3, whole(3)).sum, whole((3 << 52) + 8));
        assert_eq!(wide(gain, 3, whole(3)), Some(whole((3 << 52) + 6)));
    }
}
