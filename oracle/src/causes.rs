//! What makes a certificate unfit, refusal 20 of document 02, request 5, cause by cause, on whole numbers
//! alone; how often each was the only one, and that each must have been.
//!
//! A cause that another always brings with it is not counted beside it: where gain or offset is infinite or
//! no number the reading is too, and a gain that is no number or minus infinity is not above zero either.

use crate::certificate::{is_finite, is_no_number, is_subnormal, rank, size, Certificate};
use crate::certificate::{BAND, CEILING, FLOOR, INFINITE, MINUS_ZERO};
use crate::exact::{self, Reading, Rounding};
use std::fmt::Write;

/// A certificate and what its calibration gives, where that can be worked out.
pub struct Worked {
    pub one: Certificate,
    pub reading: Option<Reading>,
}

impl Worked {
    pub fn new(one: Certificate) -> Worked {
        let can_be = is_finite(one.gain) && rank(one.gain) > 0 && is_finite(one.offset);
        Worked { one, reading: can_be.then(|| Reading::of(one.gain, one.counts, one.offset)) }
    }

    fn low_exceeds_high(&self) -> bool {
        let (low, high) = (self.one.low, self.one.high);
        let are_numbers = !is_no_number(low) && !is_no_number(high);
        self.one.kind == BAND && are_numbers && rank(low) > rank(high)
    }

    fn low_is_next_above_high(&self) -> bool {
        self.low_exceeds_high() && rank(self.one.low) == rank(self.one.high) + 1
    }

    fn low_is_far_above_high(&self) -> bool {
        self.low_exceeds_high() && !self.low_is_next_above_high()
    }

    /// Whether the product is infinite, and whether it came to be so from just half way.
    fn product_overflows(&self, by_a_tie: bool) -> bool {
        let overflows = |reading: &Reading| reading.product == INFINITE;
        self.reading.is_some_and(|it| overflows(&it) && is_tie(it.product_way) == by_a_tie)
    }

    /// The same of the sum of a product that is not infinite.
    fn sum_overflows(&self, by_a_tie: bool) -> bool {
        let overflows = |reading: &Reading| reading.product != INFINITE && !is_finite(reading.sum);
        self.reading.is_some_and(|it| overflows(&it) && is_tie(it.sum_way) == by_a_tie)
    }

    /// Whether product and sum, rounded together, would not be infinite.
    fn could_be_finite(&self) -> bool {
        exact::fused(self.one.gain, self.one.counts, self.one.offset).is_some_and(is_finite)
    }
}

fn is_tie(way: Rounding) -> bool {
    matches!(way, Rounding::TieDown | Rounding::TieUp)
}

fn is_known(kind: u32) -> bool {
    [BAND, CEILING, FLOOR].contains(&kind)
}

fn is_below_zero(bits: u64) -> bool {
    is_finite(bits) && rank(bits) < 0
}

const FIELDS: [&str; 4] = ["gain", "offset", "low", "high"];
const SHAPES: [&str; 6] = ["+inf", "-inf", "+quiet", "-quiet", "+signal", "-signal"];

/// The index in `SHAPES` of what is infinite or no number; bit 51 is set in what is quiet.
fn shape(bits: u64) -> Option<usize> {
    let sign = usize::from(bits & MINUS_ZERO != 0);
    match size(bits) {
        ..INFINITE => None,
        INFINITE => Some(sign),
        _ if bits & 1 << 51 != 0 => Some(2 + sign),
        _ => Some(4 + sign),
    }
}

type Holds = fn(&Worked) -> bool;

/// The causes but for single floats; no two of one matter hold at once.
const OTHERS: [(&str, Holds); 23] = [
    ("kind 0", |it| it.one.kind == 0),
    ("kind 4", |it| it.one.kind == 4),
    ("a kind known by its low byte alone", |it| it.one.kind > 4 && is_known(it.one.kind & 0xff)),
    ("another kind", |it| it.one.kind > 4 && !is_known(it.one.kind & 0xff)),
    ("counts 2^24 + 1", |it| it.one.counts == 0x100_0001),
    ("higher counts", |it| it.one.counts > 0x100_0001),
    ("gain +0", |it| it.one.gain == 0),
    ("gain -0", |it| it.one.gain == MINUS_ZERO),
    ("gain below 0, subnormal", |it| is_below_zero(it.one.gain) && is_subnormal(it.one.gain)),
    ("gain below 0, another", |it| is_below_zero(it.one.gain) && !is_subnormal(it.one.gain)),
    ("a ceiling's low -0", |it| it.one.kind == CEILING && it.one.low == MINUS_ZERO),
    ("a ceiling's low no zero", |it| it.one.kind == CEILING && size(it.one.low) != 0),
    ("a floor's high -0", |it| it.one.kind == FLOOR && it.one.high == MINUS_ZERO),
    ("a floor's high no zero", |it| it.one.kind == FLOOR && size(it.one.high) != 0),
    ("a band's low next above its high", |it| it.low_is_next_above_high()),
    ("a band's low above it, from 0 up", |it| it.low_is_far_above_high() && rank(it.one.high) >= 0),
    ("a band's low above it, from 0 down", |it| it.low_is_far_above_high() && rank(it.one.low) <= 0),
    ("a band's low above it, of two signs", |it| {
        it.low_is_far_above_high() && rank(it.one.low) > 0 && rank(it.one.high) < 0
    }),
    ("the product infinite by a tie", |it| it.product_overflows(true)),
    ("the product alone infinite", |it| it.product_overflows(false) && it.could_be_finite()),
    ("product and sum infinite", |it| it.product_overflows(false) && !it.could_be_finite()),
    ("the sum infinite by a tie", |it| it.sum_overflows(true)),
    ("the sum alone infinite", |it| it.sum_overflows(false)),
];

const FLOATS: usize = FIELDS.len() * SHAPES.len();
const CAUSES: usize = FLOATS + OTHERS.len();

/// The causes that hold of a certificate: those of the floats by field and shape, then the others.
pub fn causes(it: &Worked) -> Vec<usize> {
    let fields = it.one.floats().into_iter().enumerate();
    let floats = fields.filter_map(|(field, bits)| Some(field * SHAPES.len() + shape(bits)?));
    let others = OTHERS.iter().enumerate().filter(|(_, (_, holds))| holds(it));
    floats.chain(others.map(|(index, _)| FLOATS + index)).collect()
}

fn name(cause: usize) -> String {
    match cause {
        ..FLOATS => format!("{} {}", FIELDS[cause / SHAPES.len()], SHAPES[cause % SHAPES.len()]),
        _ => OTHERS[cause - FLOATS].0.to_string(),
    }
}

/// How often each cause was the only one of a refusal.
pub struct Causes([u64; CAUSES]);

impl Default for Causes {
    fn default() -> Causes {
        Causes([0; CAUSES])
    }
}

impl Causes {
    pub fn count(&mut self, causes: &[usize]) {
        if let [alone] = causes {
            self.0[*alone] += 1;
        }
    }

    pub fn table(&self) -> String {
        let mut table = format!("{:<15}", "20, for alone");
        SHAPES.iter().for_each(|shape| write!(table, "{shape:>9}").unwrap());
        for (field, seen) in FIELDS.iter().zip(self.0.chunks(SHAPES.len())) {
            write!(table, "\n{field:<15}").unwrap();
            seen.iter().for_each(|seen| write!(table, "{seen:>9}").unwrap());
        }
        for (seen, (name, _)) in self.0[FLOATS..].iter().zip(OTHERS) {
            write!(table, "\n{name:<39}{seen:>9}").unwrap();
        }
        table
    }

    /// What was never the only cause.
    pub fn unseen(&self) -> Vec<String> {
        let never = (0..CAUSES).filter(|cause| self.0[*cause] == 0);
        never.map(|cause| format!("no certificate was refused for {} alone", name(cause))).collect()
    }
}
