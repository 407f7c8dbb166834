//! What stood in the certificates that were judged, the unfit ones' causes aside, and that each of it must
//! have been seen: document 02, request 5.

use crate::causes::{Causes, Worked};
use crate::certificate::{is_finite, is_subnormal, rank, Certificate};
use crate::certificate::{BAND, CEILING, FLOOR, HIGHEST, LEAST, MINUS_ZERO};
use crate::demand_certificate::{passes, Examined};
use crate::exact::{self, Reading, Rounding};
use crate::model_certificate::LENGTH;
use std::fmt::Write;

/// A certificate that was not refused.
struct Accepted<'a> {
    one: &'a Certificate,
    reading: &'a Reading,
    passes: bool,
}

impl Accepted<'_> {
    /// The reading with a fused product, where it is another one.
    fn fused(&self) -> Option<u64> {
        exact::fused(self.one.gain, self.one.counts, self.one.offset).filter(|other| self.differs(*other))
    }

    fn wide(&self) -> Option<u64> {
        exact::wide(self.one.gain, self.one.counts, self.one.offset).filter(|other| self.differs(*other))
    }

    fn differs(&self, other: u64) -> bool {
        other != self.reading.sum
    }

    /// Whether a product, or a sum, that is rounded to 64 bits first is another one.
    fn product_differs_in_two_steps(&self) -> bool {
        exact::product_in_two_steps(self.one.gain, self.one.counts) != self.reading.product
    }

    fn sum_differs_in_two_steps(&self) -> bool {
        exact::sum_in_two_steps(self.reading.product, self.one.offset).is_some_and(|sum| self.differs(sum))
    }

    fn verdict_differs(&self, other: Option<u64>) -> bool {
        other.is_some_and(|reading| is_finite(reading) && passes(self.one, reading) != self.passes)
    }

    fn is(&self, kind: u32, passes: bool) -> bool {
        self.one.kind == kind && self.passes == passes
    }

    /// Whether the reading is so many floats above the limit; 0 where it hits it.
    fn from_low(&self, kind: u32, steps: i64) -> bool {
        self.one.kind == kind && rank(self.reading.sum) - steps == rank(self.one.low)
    }

    fn from_high(&self, kind: u32, steps: i64) -> bool {
        self.one.kind == kind && rank(self.reading.sum) - steps == rank(self.one.high)
    }

    /// Whether it is a band with these very limits.
    fn is_band(&self, low: u64, high: u64) -> bool {
        (self.one.kind, self.one.low, self.one.high) == (BAND, low, high)
    }

    /// Gain 0.25, offset -100 and these counts.
    fn is_stated_case(&self, counts: u32) -> bool {
        let calibration = (0.25f64.to_bits(), (-100f64).to_bits());
        (self.one.gain, self.one.offset) == calibration && self.one.counts == counts
    }
}

type Holds = fn(&Accepted) -> bool;

const ACCEPTED: [(&str, Holds); 50] = [
    ("a band passed", |it| it.is(BAND, true)),
    ("a band's low missed", |it| it.is(BAND, false) && rank(it.reading.sum) < rank(it.one.low)),
    ("a band's high missed", |it| it.is(BAND, false) && rank(it.reading.sum) > rank(it.one.high)),
    ("a band's low hit", |it| it.from_low(BAND, 0)),
    ("a band's low missed by one step", |it| it.from_low(BAND, -1)),
    ("a band's low kept by one step", |it| it.from_low(BAND, 1)),
    ("a band's high hit", |it| it.from_high(BAND, 0)),
    ("a band's high missed by one step", |it| it.from_high(BAND, 1)),
    ("a band's high kept by one step", |it| it.from_high(BAND, -1)),
    ("a band of one number hit", |it| it.from_low(BAND, 0) && it.one.low == it.one.high),
    ("a ceiling passed", |it| it.is(CEILING, true)),
    ("a ceiling failed", |it| it.is(CEILING, false)),
    ("a ceiling hit", |it| it.from_high(CEILING, 0)),
    ("a ceiling missed by one step", |it| it.from_high(CEILING, 1)),
    ("a ceiling kept by one step", |it| it.from_high(CEILING, -1)),
    ("a floor passed", |it| it.is(FLOOR, true)),
    ("a floor failed", |it| it.is(FLOOR, false)),
    ("a floor hit", |it| it.from_low(FLOOR, 0)),
    ("a floor missed by one step", |it| it.from_low(FLOOR, -1)),
    ("a floor kept by one step", |it| it.from_low(FLOOR, 1)),
    ("a band from +0 to -0", |it| it.is_band(0, MINUS_ZERO)),
    ("a band from -0 to +0", |it| it.is_band(MINUS_ZERO, 0)),
    ("a band's low -0 hit", |it| it.from_low(BAND, 0) && it.one.low == MINUS_ZERO),
    ("a band's high -0 hit", |it| it.from_high(BAND, 0) && it.one.high == MINUS_ZERO),
    ("a ceiling of -0 hit", |it| it.from_high(CEILING, 0) && it.one.high == MINUS_ZERO),
    ("a floor of -0 hit", |it| it.from_low(FLOOR, 0) && it.one.low == MINUS_ZERO),
    ("offset -0 and no counts", |it| it.one.offset == MINUS_ZERO && it.one.counts == 0),
    ("a reading of 0 from other numbers", |it| it.reading.sum == 0 && it.reading.product != 0),
    ("a reading below 0", |it| rank(it.reading.sum) < 0),
    ("reading 900, as it is stated", |it| it.is_stated_case(4000) && it.reading.sum == 900f64.to_bits()),
    ("one count less than that", |it| it.is_stated_case(3999) && it.reading.sum == 899.75f64.to_bits()),
    ("one count more than that", |it| it.is_stated_case(4001) && it.reading.sum == 900.25f64.to_bits()),
    ("no counts", |it| it.one.counts == 0),
    ("counts 2^24", |it| it.one.counts == 1 << 24),
    ("the least gain", |it| it.one.gain == LEAST),
    ("a subnormal product", |it| is_subnormal(it.reading.product)),
    ("a subnormal sum", |it| is_subnormal(it.reading.sum)),
    ("a subnormal sum of others", |it| is_subnormal(it.reading.sum) && !is_subnormal(it.reading.product)),
    ("the highest product, rounded", |it| {
        it.reading.product == HIGHEST && it.reading.product_way != Rounding::Exact
    }),
    ("the highest sum, rounded", |it| it.reading.sum == HIGHEST && it.reading.sum_way != Rounding::Exact),
    ("a product half way, rounded down", |it| it.reading.product_way == Rounding::TieDown),
    ("a product half way, rounded up", |it| it.reading.product_way == Rounding::TieUp),
    ("a sum half way, rounded down", |it| it.reading.sum_way == Rounding::TieDown),
    ("a sum half way, rounded up", |it| it.reading.sum_way == Rounding::TieUp),
    ("another reading by a fused product", |it| it.fused().is_some()),
    ("another verdict by a fused product", |it| it.verdict_differs(it.fused())),
    ("another reading by a wider product", |it| it.wide().is_some()),
    ("another verdict by a wider product", |it| it.verdict_differs(it.wide())),
    ("another product, rounded twice", |it| it.product_differs_in_two_steps()),
    ("another sum, rounded twice", |it| it.sum_differs_in_two_steps()),
];

/// A list, and its certificate where it has just one.
type HoldsOfList = fn(&Examined, Option<&Worked>) -> bool;

const REFUSED: [(&str, HoldsOfList); 15] = [
    ("18: no entry of the tag", |it, _| it.lengths.is_empty()),
    ("18: one of fewer bytes", |it, _| matches!(it.lengths[..], [..LENGTH])),
    ("18: one of more bytes", |it, _| matches!(it.lengths[..], [length] if length > LENGTH)),
    ("18: two of 56 bytes", |it, _| it.lengths == [LENGTH, LENGTH]),
    ("18: one of 56, then another", |it, _| matches!(it.lengths[..], [LENGTH, other] if other != LENGTH)),
    ("18: another, then one of 56", |it, _| matches!(it.lengths[..], [other, LENGTH] if other != LENGTH)),
    ("18: more than two", |it, _| it.lengths.len() > 2),
    ("19: the serial alone is another", |it, one| differ(it, one) == Some((true, false))),
    ("19: the test alone is another", |it, one| differ(it, one) == Some((false, true))),
    ("19: both are others", |it, one| differ(it, one) == Some((true, true))),
    ("19: they are exchanged", |it, one| {
        differ(it, one) == Some((true, true))
            && one.is_some_and(|is| (is.one.test, is.one.serial) == (it.serial, it.test))
    }),
    ("19: the serial's high half is another", |it, one| {
        one.is_some_and(|is| is_high_half(is.one.serial ^ it.serial))
    }),
    ("19: the test's high half is another", |it, one| {
        one.is_some_and(|is| is_high_half(is.one.test ^ it.test))
    }),
    ("19: an unfit one", |it, one| differ(it, one).is_some() && !it.causes.is_empty()),
    ("20: more than one cause", |it, one| one.is_some() && differ(it, one).is_none() && it.causes.len() > 1),
];

/// Whether serial and test are others than those asked for; none where neither is.
fn differ(it: &Examined, one: Option<&Worked>) -> Option<(bool, bool)> {
    let one = &one?.one;
    Some((one.serial != it.serial, one.test != it.test)).filter(|(serial, test)| *serial || *test)
}

/// Of a number's bits some of the upper 32 are set, and no others.
fn is_high_half(bits: u64) -> bool {
    bits != 0 && bits as u32 == 0
}

/// How often each of these was seen, and the causes of refusal 20.
pub struct Sights {
    accepted: [u64; ACCEPTED.len()],
    refused: [u64; REFUSED.len()],
    causes: Causes,
    judged: u64,
}

/// So many certificates are judged in every run.
const LEAST_JUDGED: u64 = 1_000_000;

impl Default for Sights {
    fn default() -> Sights {
        Sights {
            accepted: [0; ACCEPTED.len()],
            refused: [0; REFUSED.len()],
            causes: Causes::default(),
            judged: 0,
        }
    }
}

impl Sights {
    pub fn count(&mut self, examined: &Examined) {
        let one = examined.one.as_ref();
        let asked_for = one.filter(|it| examined.is_asked_for(&it.one));
        self.judged += u64::from(asked_for.is_some());
        match asked_for {
            Some(it) if examined.causes.is_empty() => self.count_accepted(it),
            _ => self.count_refused(examined, one),
        }
    }

    fn count_accepted(&mut self, it: &Worked) {
        let Some(reading) = &it.reading else { return };
        let accepted = Accepted { one: &it.one, reading, passes: passes(&it.one, reading.sum) };
        for (seen, (_, holds)) in self.accepted.iter_mut().zip(ACCEPTED) {
            *seen += u64::from(holds(&accepted));
        }
    }

    fn count_refused(&mut self, examined: &Examined, one: Option<&Worked>) {
        for (seen, (_, holds)) in self.refused.iter_mut().zip(REFUSED) {
            *seen += u64::from(holds(examined, one));
        }
        if one.is_some_and(|it| examined.is_asked_for(&it.one)) {
            self.causes.count(&examined.causes);
        }
    }

    fn all(&self) -> Vec<(&'static str, u64)> {
        let names = ACCEPTED.iter().map(|kind| kind.0).chain(REFUSED.iter().map(|kind| kind.0));
        names.zip(self.accepted.iter().chain(&self.refused).copied()).collect()
    }

    pub fn table(&self) -> String {
        let mut table = format!("{}\n{:<39}{:>9}", self.causes.table(), "certificates, with", "times");
        for (name, seen) in self.all() {
            write!(table, "\n{name:<39}{seen:>9}").unwrap();
        }
        table
    }

    /// What no certificate had.
    pub fn unseen(&self) -> Vec<String> {
        let never = self.all().into_iter().filter(|(_, seen)| *seen == 0);
        let mut unseen: Vec<String> = never.map(|(name, _)| format!("no certificate with {name}")).collect();
        unseen.extend(self.causes.unseen());
        if self.judged < LEAST_JUDGED {
            unseen.push(format!("only {} certificates were judged", self.judged));
        }
        unseen
    }

    /// Certificates that refusals 18 and 19 left to be judged.
    pub fn judged(&self) -> u64 {
        self.judged
    }
}
