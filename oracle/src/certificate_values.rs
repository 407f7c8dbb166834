//! Whole certificates from a seed: their limits around the reading, one thing spoiled, or every field out
//! of a bag; every cause of refusal 20 by itself; and what is asked for.

use crate::certificate::{rank, ranked, Certificate, BAND, CEILING, FLOOR};
use crate::certificate::{HIGHEST, INFINITE, LEAST, LEAST_NORMAL, MINUS_ZERO};
use crate::certificate_numbers::{any_numbers, float, some_counts, stepped};
use crate::exact::Reading;
use crate::rng::Rng;

/// Sizes of floats at which something changes, the sign bit left out: zero, the least, both sides of the
/// least normal one, 1, the highest, infinite, no number that signals, and no number that is quiet.
const SIZES: [u64; 12] = [
    0,
    LEAST,
    LEAST_NORMAL - 1,
    LEAST_NORMAL,
    1023 << 52,
    HIGHEST - 1,
    HIGHEST,
    INFINITE,
    INFINITE | 1,
    INFINITE | ((1 << 51) - 1),
    INFINITE | 1 << 51,
    INFINITE | ((1 << 52) - 1),
];
/// Kinds that are not known; most of them would be, cut to fewer bits.
const KINDS: [u32; 15] = [
    0,
    4,
    5,
    0x80,
    0xff,
    0x101,
    0x102,
    0x103,
    0x201,
    0x1_0001,
    0x100_0002,
    0x0100_0000,
    0x8000_0001,
    0x8000_0003,
    0xffff_ffff,
];
const COUNTS: [u32; 8] =
    [0x100_0001, 0x100_0002, 0x1ff_ffff, 0x200_0000, 0x4000_0fa0, 0x7fff_ffff, 0x8000_0000, 0xffff_ffff];

/// The certificate of the stated case, with a gate of this kind that it passes.
pub fn stated(kind: u32) -> Certificate {
    let (low, high) = (800f64.to_bits(), 1000f64.to_bits());
    Certificate {
        serial: 0x0123_4567_89ab_cdef,
        test: 0xfedc_ba98_0000_0001,
        kind,
        counts: 4000,
        gain: 0.25f64.to_bits(),
        offset: (-100f64).to_bits(),
        low: if kind == CEILING { 0 } else { low },
        high: if kind == FLOOR { 0 } else { high },
    }
}

/// A certificate of any sort.
pub fn any(rng: &mut Rng) -> Certificate {
    let mut one = fit(rng);
    match rng.below(8) {
        0..=4 => {}
        5 | 6 => spoil(rng, &mut one),
        _ => refill(rng, &mut one),
    }
    one
}

/// A certificate without fault, but for a reading that may be infinite.
pub fn fit(rng: &mut Rng) -> Certificate {
    let (gain, counts, offset) = any_numbers(rng);
    let reading = Reading::of(gain, counts, offset).sum;
    let kind = rng.range(1, 3) as u32;
    let (low, high) = limits(rng, kind, reading);
    let (serial, test) = (rng.word(), if rng.once_in(4) { rng.below(1000) } else { rng.word() });
    Certificate { serial, test, kind, counts, gain, offset, low, high }
}

/// Limits at the reading, a step or a few from it, or anywhere.
fn limits(rng: &mut Rng, kind: u32, reading: u64) -> (u64, u64) {
    let (one, other) = (limit(rng, reading), limit(rng, reading));
    match kind {
        CEILING => (0, one),
        FLOOR => (one, 0),
        _ if rng.once_in(8) => (one, one),
        _ if rank(one) > rank(other) => (other, one),
        _ => (one, other),
    }
}

fn limit(rng: &mut Rng, reading: u64) -> u64 {
    let limit = match rng.below(8) {
        0..=5 => stepped(reading, rng.pick(&[-2, -1, -1, 0, 0, 1, 1, 2])),
        6 => stepped(reading, rng.small(56) as i64 - (1 << 54)),
        _ => ranked(rng.range(0, 2 * HIGHEST).wrapping_sub(HIGHEST) as i64),
    };
    match limit {
        0 if rng.once_in(2) => MINUS_ZERO,
        _ => limit,
    }
}

/// One thing made wrong, mostly; a step between a band's limits may still be right.
fn spoil(rng: &mut Rng, one: &mut Certificate) {
    let bit = 1 << rng.below(64);
    match rng.below(8) {
        0 => one.kind = rng.pick(&KINDS),
        1 => one.counts = rng.pick(&COUNTS),
        2 => one.gain = rng.pick(&[0, MINUS_ZERO, MINUS_ZERO | LEAST, one.gain | MINUS_ZERO]),
        3 => (one.low, one.high) = (one.high, one.low),
        4 => one.low = stepped(one.high, rng.range(0, 3) as i64),
        5 if one.kind == CEILING => one.low = rng.pick(&[MINUS_ZERO, bit, one.high]),
        5 => one.high = rng.pick(&[MINUS_ZERO, bit, one.low]),
        _ => *field(one, rng.below(4)) = not_finite(rng),
    }
}

fn field(one: &mut Certificate, index: u64) -> &mut u64 {
    match index {
        0 => &mut one.gain,
        1 => &mut one.offset,
        2 => &mut one.low,
        _ => &mut one.high,
    }
}

fn not_finite(rng: &mut Rng) -> u64 {
    let fraction = if rng.once_in(4) { 0 } else { rng.word() & rng.word() >> rng.below(64) };
    INFINITE | rng.below(2) << 63 | fraction & ((1 << 52) - 1)
}

/// Every field is good or not, as it comes.
fn refill(rng: &mut Rng, one: &mut Certificate) {
    one.kind = if rng.once_in(6) { rng.pick(&KINDS) } else { rng.range(1, 3) as u32 };
    one.counts = if rng.once_in(6) { rng.pick(&COUNTS) } else { some_counts(rng) };
    for index in 0..4 {
        *field(one, index) = rng.pick(&SIZES) | rng.below(2) << 63;
    }
}

/// What is asked for of a certificate: its own serial and test mostly, else others by a bit or by a half,
/// exchanged, or any.
pub fn asked(rng: &mut Rng, serial: u64, test: u64) -> (u64, u64) {
    let half = rng.range(1, u32::MAX.into());
    match rng.below(64) {
        0 => (serial ^ 1 << rng.below(64), test),
        1 => (serial, test ^ 1 << rng.below(64)),
        2 => (serial ^ half << 32, test),
        3 => (serial, test ^ half << 32),
        4 => (test, serial),
        5 => (rng.word(), rng.word()),
        _ => (serial, test),
    }
}

/// Each cause of refusal 20 by itself, where it can be; every kind of gate has a turn.
pub fn one_cause_each() -> Vec<Certificate> {
    let mut all = Vec::new();
    for kind in [BAND, CEILING, FLOOR] {
        let good = stated(kind);
        all.extend(KINDS.map(|kind| Certificate { kind, ..good }));
        all.extend(COUNTS.map(|counts| Certificate { counts, ..good }));
        for sign in [0, MINUS_ZERO] {
            for size in SIZES {
                for index in 0..4 {
                    let mut one = good;
                    *field(&mut one, index) = sign | size;
                    all.push(one);
                }
            }
        }
        all.extend(unused_limits(&good));
        all.extend(infinite_readings(&good));
    }
    all.extend(bands());
    all
}

/// Of the limit that a gate has no use for, each of the 64 bits by itself.
fn unused_limits(good: &Certificate) -> Vec<Certificate> {
    let each_bit = (0..64).map(|bit| 1 << bit);
    match good.kind {
        CEILING => each_bit.map(|low| Certificate { low, ..*good }).collect(),
        FLOOR => each_bit.map(|high| Certificate { high, ..*good }).collect(),
        _ => Vec::new(),
    }
}

/// Half a step behind the highest number, 2^1024, and twice that, by product and by sum; the same with an
/// offset that takes it back; and numbers that just stay finite.
fn infinite_readings(good: &Certificate) -> Vec<Certificate> {
    let power = |exponent: u64| (exponent + 1023) << 52;
    let third = float(((1 << 54) - 1) / 3, 970);
    let minus_highest = HIGHEST | MINUS_ZERO;
    let rows = [
        (third, 3, 0),
        (third - 1, 3, 0),
        (third, 3, minus_highest),
        (power(1000), 1 << 24, 0),
        (power(1000), 1 << 24, minus_highest),
        (power(1000) - 1, 1 << 24, minus_highest),
        (power(1001), 1 << 24, minus_highest),
        (HIGHEST, 2, minus_highest),
        (HIGHEST, 1, power(970)),
        (HIGHEST, 1, power(970) - 1),
        (HIGHEST - 1, 1, power(970)),
        (HIGHEST, 1, HIGHEST),
        (power(999), 1 << 24, power(1023)),
        (power(1023), 1, HIGHEST),
    ];
    rows.map(|(gain, counts, offset)| Certificate { gain, counts, offset, ..*good }).to_vec()
}

/// Bands whose limits are exchanged or equal, of either sign and of both; zeros of either sign.
fn bands() -> Vec<Certificate> {
    let mut all = Vec::new();
    let limits = [1f64, 2.0, 1f64.next_up(), 900.0, 0.0, 5e-324, f64::MIN_POSITIVE, f64::MAX];
    for low in limits.iter().chain(&limits.map(|limit| -limit)) {
        for high in limits.iter().chain(&limits.map(|limit| -limit)) {
            all.push(Certificate { low: low.to_bits(), high: high.to_bits(), ..stated(BAND) });
        }
    }
    all
}

#[cfg(test)]
mod tests {
    use super::*;
    use crate::causes::{causes, Causes, Worked};

    #[test]
    fn every_cause_is_among_them_by_itself() {
        let mut seen = Causes::default();
        one_cause_each().into_iter().for_each(|one| seen.count(&causes(&Worked::new(one))));
        assert_eq!(seen.unseen(), Vec::<String>::new());
    }
}
