//! Lists of edition 0.9. The entries, and what spoils a list, are those of a current one.

use crate::lists::{alignment, area_len, good_base, laid_out, later_version, noise, restore_checksum, List};
use crate::model::{field, put_u32, Edition};
use crate::rng::Rng;

/// A list of edition 0.9 as it is before anything is spoiled.
pub fn whole(rng: &mut Rng) -> List {
    match rng.below(16) {
        0 | 1 => new(rng),
        2..=9 => laid_out(rng, Edition::E09, 1),
        10..=14 => later_version(rng, Edition::E09),
        _ => noise(rng, Edition::E09),
    }
}

/// A list without entries, mostly in an area that holds little more than the header.
fn new(rng: &mut Rng) -> List {
    let len = match rng.below(4) {
        0 => area_len(rng).max(16),
        1 => 16,
        _ => rng.range(16, 24) as usize,
    };
    let mut area = by_hand(alignment(rng) as u8, &[], len);
    let behind = rng.bytes(len - 16);
    area[16..].copy_from_slice(&behind);
    List { base: good_base(rng, len), area, edition: Edition::E09 }
}

/// A list of version 1 with these entries and zeros behind them; it may grow to fill the `len` bytes.
pub fn by_hand(alignment: u8, entries: &[u8], len: usize) -> Vec<u8> {
    let mut area = vec![0; len];
    put_u32(&mut area, 0, Edition::E09.signature());
    area[field::VERSION] = 1;
    area[field::HDR_SIZE] = 16;
    area[field::ALIGNMENT] = alignment;
    put_u32(&mut area, field::USED_SIZE, 16 + entries.len() as u32);
    put_u32(&mut area, field::TOTAL_SIZE, len as u32 / 8 * 8);
    area[16..16 + entries.len()].copy_from_slice(entries);
    restore_checksum(Edition::E09, &mut area);
    area
}
