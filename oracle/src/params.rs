//! Chooses what to ask of a list: tags that stand in it and tags that do not, occurrences at and
//! past the last, lengths at the edges of its voids and its room, targets at the edges of the
//! address space.

use crate::lists::{self, good_exponent, List, MOST_LENT};
use crate::model::{self, field, ADDRESS_END, CERTIFICATE_TAG, EVENT_LOG_TAG, HIGHEST_ALIGNMENT};
use crate::rng::Rng;

/// No data and no target longer than this is lent.
const LONGEST: i64 = MOST_LENT as i64;

/// What stands in a list's bytes, sound or not; the choices are made around these numbers.
pub struct Facts {
    base: u64,
    used: i64,
    room: i64,
    alignment: u32,
    live_tags: Vec<u32>,
    void_sizes: Vec<u32>,
}

impl Facts {
    pub fn of(list: &List) -> Facts {
        let area = &list.area;
        let rows = lists::rows(area);
        let (used, total) = match lists::has_fields(area) {
            false => (0, 0),
            true => (lists::used_size(area) as i64, lists::total_size(area) as i64),
        };
        Facts {
            base: list.base,
            used,
            room: total - used,
            alignment: area.get(field::ALIGNMENT).map_or(0, |exponent| *exponent as u32),
            live_tags: rows.iter().filter(|row| row.tag_id != 0).map(|row| row.tag_id).collect(),
            void_sizes: rows.iter().filter(|row| row.tag_id == 0).map(|row| row.data_size).collect(),
        }
    }

    /// What a conversion moves: the list begins 8 before its old base, and has 8 bytes more.
    pub fn for_conversion(self) -> Facts {
        Facts { base: self.base.wrapping_sub(8), used: self.used + 8, ..self }
    }

    /// 2^alignment, where that is allowed.
    fn boundary(&self) -> u64 {
        1 << self.alignment.min(HIGHEST_ALIGNMENT)
    }

    fn count(&self, tag: u32) -> u64 {
        self.live_tags.iter().filter(|live| **live == tag).count() as u64
    }
}

/// A tag and an occurrence to find or to void.
pub fn wanted(rng: &mut Rng, facts: &Facts) -> (u32, u64) {
    let tag = wanted_tag(rng, facts);
    (tag, occurrence(rng, facts.count(tag)))
}

fn wanted_tag(rng: &mut Rng, facts: &Facts) -> u32 {
    if facts.live_tags.is_empty() || rng.once_in(4) {
        return absent_tag(rng);
    }
    let present = match rng.below(4) {
        0 => facts.live_tags[facts.live_tags.len() - 1],
        _ => rng.pick(&facts.live_tags),
    };
    match rng.below(12) {
        0 => present | 0x100_0000,
        1 => present ^ 1 << rng.below(24),
        _ => present,
    }
}

fn absent_tag(rng: &mut Rng) -> u32 {
    match rng.below(4) {
        0 => rng.range(1, 8) as u32,
        1 => rng.pick(&[0, 0x100_0000, 0x100_0001, 0x8000_0001, 0xffff_ffff]),
        2 => rng.pick(&[0x7f_ffff, 0x80_0000, 0xff_efff, 0xff_f000, CERTIFICATE_TAG, 0xff_ffff]),
        _ => rng.word() as u32,
    }
}

fn occurrence(rng: &mut Rng, count: u64) -> u64 {
    match rng.below(12) {
        0 => count,
        1 => count + 1,
        2 => count.saturating_sub(1) + (1 << 32),
        3 => rng.pick(&[0xffff, 0xffff_ffff, 1 << 32, 1 << 63, u64::MAX]),
        4 | 5 => count.saturating_sub(1),
        _ => rng.below(count.max(1)),
    }
}

/// A tag for either add: one of the tag table mostly, and one that TAG refuses now and then.
pub fn new_tag(rng: &mut Rng) -> u32 {
    match rng.below(13) {
        0..=4 => rng.range(1, 7) as u32,
        5 | 6 => rng.pick(&[0x100, 0x101, 0x102, 0x103, 0x104]),
        7 => rng.pick(&[0x7f_ffff, 0xff_f000, 0xff_ffff]),
        8 => rng.pick(&[0, 0x80_0000, 0xff_efff, 0x100_0000, 0x100_0006, 0xffff_ffff]),
        9 => rng.word() as u32,
        10 => {
            rng.pick(&[CERTIFICATE_TAG, CERTIFICATE_TAG, CERTIFICATE_TAG, 0xff_f00f, 0xff_f011, 0x1ff_f010])
        }
        _ => rng.below(1 << 24) as u32,
    }
}

/// A data length for an add. `padding` is what an aligned add puts in front of the entry. Half of the
/// event logs have a length around the least, and half of the certificates one around their own, or none.
pub fn data_len(rng: &mut Rng, facts: &Facts, tag: u32, padding: i64) -> usize {
    if tag == EVENT_LOG_TAG && rng.once_in(2) {
        return rng.below(6) as usize;
    }
    if tag == CERTIFICATE_TAG && rng.once_in(2) {
        return rng.pick(&[0, 55, 56, 57]);
    }
    let allowed = model::lengths(tag);
    if allowed.start() == allowed.end() && !rng.once_in(4) {
        return *allowed.start();
    }
    let length = match rng.below(12) {
        0..=3 if !facts.void_sizes.is_empty() => {
            rng.pick(&facts.void_sizes) as i64 + rng.pick(&[-9, -8, -7, -1, 0, 1, 8])
        }
        0..=6 => facts.room - padding + rng.pick(&[-17, -16, -15, -9, -8, -7, -1, 0]),
        7 => rng.pick(&[7, 8, 9, 11, 12, 13, 15, 16, 17]),
        8 => 0,
        _ => rng.below(40) as i64,
    };
    match length {
        0..=LONGEST => length as usize,
        _ => rng.below(20) as usize,
    }
}

/// An exponent for add aligned: mostly good, else beside the limits or good once it is cut to 8
/// bits or taken modulo 32 or 64.
pub fn exponent(rng: &mut Rng) -> u32 {
    match rng.below(8) {
        0 => rng.pick(&[0, 1, 2, 22, 23, 31, 32, 35, 63, 64, 67, 255, 259, 1 << 31, u32::MAX]),
        1 => rng.pick(&[3, 12, 13, HIGHEST_ALIGNMENT]),
        2 | 3 => rng.range(3, HIGHEST_ALIGNMENT as u64) as u32,
        _ => good_exponent(rng),
    }
}

/// The bytes by which the entry of an aligned add lies behind used_size.
pub fn padding(facts: &Facts, exponent: u32) -> i64 {
    match exponent {
        0..=31 => {
            let data_address = facts.base.wrapping_add(facts.used as u64 + 8);
            (data_address.wrapping_neg() % (1 << exponent)) as i64
        }
        _ => 0,
    }
}

/// Length and base address of a relocation's target, or a conversion's with the facts for it.
pub fn target(rng: &mut Rng, facts: &Facts) -> (usize, u64) {
    match rng.below(64) {
        0 => full_target(rng, facts),
        1..=12 => high_target(rng, facts),
        13..=18 => (rng.below(100) as usize, rng.word()),
        _ => fitting_target(rng, facts),
    }
}

/// A target of the longest buffer, or a little less.
fn full_target(rng: &mut Rng, facts: &Facts) -> (usize, u64) {
    (MOST_LENT - rng.pick(&[0, 0, 1, 8]), low_base(rng, facts))
}

/// A target that ends at the end of the address space or beside it, or whose end wraps in 64 bits.
fn high_target(rng: &mut Rng, facts: &Facts) -> (usize, u64) {
    let shift = rng.below(facts.boundary());
    let len = fitting_len(rng, facts, shift);
    let end = ADDRESS_END as u64 - len as u64;
    let base = match rng.below(8) {
        0 => end - 1,
        1 | 2 => end,
        3 => end + 1,
        4 | 5 => highest_without_shift(facts, end),
        6 => u64::MAX - rng.below(9),
        _ => 0u64.wrapping_sub(len as u64),
    };
    (len, base)
}

/// The highest address at or below `end` to which the list could move without a shift.
fn highest_without_shift(facts: &Facts, end: u64) -> u64 {
    end - end.wrapping_sub(facts.base) % facts.boundary()
}

/// A target whose length is close to shift + used.
fn fitting_target(rng: &mut Rng, facts: &Facts) -> (usize, u64) {
    let base = low_base(rng, facts);
    let shift = facts.base.wrapping_sub(base) % facts.boundary();
    (fitting_len(rng, facts, shift), base)
}

fn fitting_len(rng: &mut Rng, facts: &Facts, shift: u64) -> usize {
    let around = match rng.below(8) {
        0 => facts.used + facts.room,
        1 => facts.used,
        2 => shift as i64,
        _ => facts.used + shift as i64,
    };
    let len = around + rng.pick(&[-9, -8, -1, 0, 1, 7, 8, 100]);
    match len {
        0..=LONGEST => len as usize,
        _ => rng.below(256) as usize,
    }
}

/// A target base well inside the address space, odd ones and the list's own among them, and one to which
/// the list moves with a small shift, however high its alignment.
fn low_base(rng: &mut Rng, facts: &Facts) -> u64 {
    match rng.below(7) {
        0 => rng.below(16),
        1 => facts.base % (1 << 47),
        2 => facts.base % (1 << 47) + rng.below(64),
        3 => facts.base % (1 << 46) + (rng.range(1, 1 << 20) << HIGHEST_ALIGNMENT) - rng.below(64),
        4 => rng.below(1 << 47) / 4096 * 4096,
        5 => rng.below(1 << 47) / 8 * 8,
        _ => rng.below(1 << 47),
    }
}
