//! Gain, counts and offset from a seed: plain ones, and ones whose product or sum lies half way between
//! two floats or close to it, cancels, overflows, or is subnormal. Every gain is above 0, gain and offset
//! are finite, and counts are at most 2^24.

use crate::certificate::{rank, ranked, HIGHEST, LEAST_NORMAL, MINUS_ZERO};
use crate::exact::{Exact, Reading};
use crate::model_certificate::MOST_COUNTS;
use crate::rng::Rng;

/// Gain, counts and offset.
pub type Numbers = (u64, u32, u64);

/// Half a step behind the highest float, 2^970, has this rank.
const HALF_STEP_BEHIND: i64 = (970 + 1023) << 52;

pub fn any_numbers(rng: &mut Rng) -> Numbers {
    match rng.below(20) {
        0..=4 => plain(rng),
        5 => stated_case(rng),
        6 => anywhere(rng),
        7..=10 => product_half_way(rng),
        11..=13 => sum_half_way(rng),
        14 | 15 => cancelled(rng),
        16 => highest_product(rng),
        17 => highest_sum(rng),
        _ => subnormal(rng),
    }
}

pub fn some_counts(rng: &mut Rng) -> u32 {
    match rng.below(8) {
        0 => rng.pick(&[0, 1, 2, 3, MOST_COUNTS - 1, MOST_COUNTS]),
        1 => rng.small(24) as u32,
        _ => rng.range(0, MOST_COUNTS.into()) as u32,
    }
}

/// A whole number of up to 53 bits times a power of two.
pub fn float(value: u64, exponent: i32) -> u64 {
    Exact::new(value, exponent).to_f64()
}

/// The float so many steps away, as far as there are any.
pub fn stepped(bits: u64, steps: i64) -> u64 {
    let highest = HIGHEST as i64;
    ranked(rank(bits).saturating_add(steps).clamp(-highest, highest))
}

fn few_steps(rng: &mut Rng) -> i64 {
    rng.pick(&[-3, -2, -1, -1, 0, 0, 0, 1, 1, 2, 3])
}

fn with_sign(rng: &mut Rng, bits: u64) -> u64 {
    bits ^ rng.below(2) << 63
}

/// A power of two that keeps readings within what a gauge may show, mostly; now and then nearly any.
fn some_exponent(rng: &mut Rng) -> i32 {
    match rng.below(8) {
        0 => rng.range(0, 1900) as i32 - 1000,
        _ => rng.range(0, 80) as i32 - 90,
    }
}

/// A whole number of just 53 bits.
fn full(rng: &mut Rng) -> u64 {
    1 << 52 | rng.below(1 << 52)
}

/// A gain with few bits or with all, and an offset from far below the product to far above.
fn plain(rng: &mut Rng) -> Numbers {
    let value = if rng.once_in(3) { rng.range(1, 4096) } else { full(rng) };
    let (gain, counts) = (float(value, some_exponent(rng)), some_counts(rng));
    (gain, counts, offset_for(rng, gain, counts))
}

/// Zero, or a number whose power of two is around that of the product.
fn offset_for(rng: &mut Rng, gain: u64, counts: u32) -> u64 {
    let exponent = (Reading::of(gain, counts, 0).product >> 52) as i32 - 1075;
    let offset = match rng.below(8) {
        0 => 0,
        1 => float(rng.range(1, 1000), 0),
        _ => float(full(rng), exponent.min(800) + rng.range(0, 130) as i32 - 65),
    };
    with_sign(rng, offset)
}

/// Gain 0.25, offset -100, and counts at 4000 or beside it.
fn stated_case(rng: &mut Rng) -> Numbers {
    (0.25f64.to_bits(), rng.range(3998, 4002) as u32, (-100f64).to_bits())
}

/// Any bits that are finite.
fn anywhere(rng: &mut Rng) -> Numbers {
    let (gain, offset) = (rng.range(1, HIGHEST), rng.below(HIGHEST));
    (gain, some_counts(rng), with_sign(rng, offset))
}

/// The number that gives 1 with an odd one, as far as their lowest 64 bits go.
fn inverse(odd: u64) -> u64 {
    // Three bits are right, since odd * odd is 1 modulo 8; each round doubles them.
    (0..5).fold(odd, |inverse, _| inverse.wrapping_mul(2u64.wrapping_sub(odd.wrapping_mul(inverse))))
}

/// A product of 53 bits and k more whose k lowest ones are just half of what they can be, or so near to it
/// that they are half in 64 bits. The offset is nothing, or makes the sum's end half way too, or cancels.
fn product_half_way(rng: &mut Rng) -> Numbers {
    let (value, counts) = loop {
        let bits = rng.range(2, 24);
        let counts = (1 << (bits - 1) | rng.below(1 << (bits - 1)) | 1) as u32;
        let k = bits - rng.below(2);
        let near = match k {
            13.. if rng.once_in(2) => rng.range(1, (1 << (k - 12)) - 1),
            _ => 0,
        };
        let half = 1u64 << (k - 1);
        let rest = if rng.once_in(2) { half + near } else { half - near };
        let low_bits = rest.wrapping_mul(inverse(counts.into())) % (1 << k);
        let value = full(rng) >> k << k | low_bits;
        if u128::from(value) * u128::from(counts) >> (52 + k) == 1 {
            break (value, counts);
        }
    };
    let gain = float(value, some_exponent(rng));
    let offset = match rng.below(4) {
        0 => rng.pick(&[0, MINUS_ZERO]),
        1 => half_step_of(rng, Reading::of(gain, counts, 0).product),
        2 => cancelling(rng, gain, counts),
        _ => offset_for(rng, gain, counts),
    };
    (gain, counts, offset)
}

/// An odd number of half steps of a float, or a number so near to it that it is the same in 64 bits.
fn half_step_of(rng: &mut Rng, bits: u64) -> u64 {
    let exponent = (bits >> 52 & 0x7ff) as i32 - 1075;
    let further = rng.range(12, 40);
    let near = if rng.once_in(2) { rng.range(0, (1 << (further - 11)) - 1) } else { 0 };
    let odd = rng.small(52 - further) | 1;
    let value = if rng.once_in(2) { (odd << further) + near } else { (odd << further) - near };
    let offset = float(value, exponent - 1 - further as i32);
    with_sign(rng, offset)
}

/// A float as product and half steps of it as offset, or the other way round.
fn sum_half_way(rng: &mut Rng) -> Numbers {
    let one = float(full(rng), some_exponent(rng).max(-900));
    let other = half_step_of(rng, one);
    let (product, offset) = if rng.once_in(2) { (one, other) } else { (other & !MINUS_ZERO, one) };
    let (gain, counts) = shared_out(rng, product);
    (gain, counts, with_sign(rng, offset))
}

/// A gain and counts that give just this product, where it is above 0 and not too small.
fn shared_out(rng: &mut Rng, product: u64) -> (u64, u32) {
    let power = rng.below(25);
    match product.checked_sub(power << 52) {
        Some(gain) if gain >= LEAST_NORMAL => (gain, 1 << power),
        _ => (product, 1),
    }
}

/// An offset that takes the product away, or all but a few steps of it.
fn cancelling(rng: &mut Rng, gain: u64, counts: u32) -> u64 {
    let product = Reading::of(gain, counts, 0).product;
    stepped(product, few_steps(rng)) ^ MINUS_ZERO
}

fn cancelled(rng: &mut Rng) -> Numbers {
    let (gain, counts, _) = plain(rng);
    (gain, counts, cancelling(rng, gain, counts))
}

/// Products at the highest float: half a step behind it by counts that divide 2^54 - 1, or a gain and
/// counts that meet there; or 2^1024 with an offset that takes enough of it away.
fn highest_product(rng: &mut Rng) -> Numbers {
    let by_division = some_counts(rng).max(1);
    let (gain, counts) = match rng.below(4) {
        0 | 1 => half_a_step_behind_the_highest(rng),
        2 => ((f64::MAX / f64::from(by_division)).to_bits(), by_division),
        _ => shared_out(rng, HIGHEST),
    };
    let gain = stepped(gain, few_steps(rng));
    let offset = match rng.below(4) {
        0 => 0,
        1 => stepped(HIGHEST, -few_steps(rng).abs()) | MINUS_ZERO,
        2 => with_sign(rng, ranked(HALF_STEP_BEHIND)),
        _ => offset_for(rng, gain, counts),
    };
    (gain, counts, offset)
}

/// (2^54 - 1) * 2^970, as a product.
fn half_a_step_behind_the_highest(rng: &mut Rng) -> (u64, u32) {
    let divisor = rng.pick(&[3, 7, 9, 19, 21, 27, 57, 63, 73, 81, 133, 171, 511, 87_211, 262_657, 1_838_599]);
    (float(((1 << 54) - 1) / divisor, 970), divisor as u32)
}

/// The highest products with what is half a step behind them, or a few floats from it.
fn highest_sum(rng: &mut Rng) -> Numbers {
    let product = stepped(HIGHEST, -few_steps(rng).abs());
    let (gain, counts) = shared_out(rng, product);
    let offset = match rng.below(4) {
        0 => ranked(HALF_STEP_BEHIND + (rng.below(4) << 52) as i64),
        1 => stepped(HIGHEST, -(rng.small(60) as i64)),
        _ => stepped(ranked(HALF_STEP_BEHIND), few_steps(rng)),
    };
    (gain, counts, offset)
}

/// Subnormal gains, products and sums; sums that cancel until they are.
fn subnormal(rng: &mut Rng) -> Numbers {
    let gain = match rng.below(3) {
        0 => rng.range(1, 3),
        1 => 1 + rng.small(52),
        _ => stepped(LEAST_NORMAL, few_steps(rng)),
    };
    let counts = if rng.once_in(2) { rng.below(8) as u32 } else { some_counts(rng) };
    let small = rng.small(54);
    let offset = match rng.below(4) {
        0 => with_sign(rng, 0),
        1 => with_sign(rng, small),
        _ => cancelling(rng, gain, counts),
    };
    (gain, counts, offset)
}

#[cfg(test)]
mod tests {
    use super::*;
    use crate::certificate::is_finite;

    #[test]
    fn within_their_limits() {
        let mut rng = Rng::new(1);
        for _ in 0..100_000 {
            let (gain, counts, offset) = any_numbers(&mut rng);
            assert!(is_finite(gain) && rank(gain) > 0 && counts <= MOST_COUNTS && is_finite(offset));
        }
    }
}
