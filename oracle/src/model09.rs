//! The three jobs of document 02, request 1: check and find for lists of edition 0.9 (source 000),
//! and their conversion into a current list with checksums on.
//!
//! "Refusals 1 to 8 keep their numbers and order, with 16 for 24 and `size`, `max_size` for used and
//! total. Entries are read as in a current list": the model of document 01 makes these checks.

use crate::model::{self, field, put_u32, refuse_if, within_limits};
use crate::model::{Checked, Done, Edition, Found, List, Refusal};

/// Answers `size` and `max_size` as used and total.
pub fn check(area: &[u8], base: u64) -> Checked {
    model::check_by(Edition::E09, area, base)
}

pub fn find(area: &[u8], base: u64, tag: u32, n: u64) -> Found {
    model::find_by(Edition::E09, area, base, tag, n)
}

/// "A conversion into a current list with checksums on": "the answer is the shift".
pub fn convert(area: &[u8], base: u64, target: &mut [u8], target_base: u64) -> Done {
    model::done(try_convert(area, base, target, target_base))
}

fn try_convert(area: &[u8], base: u64, target: &mut [u8], target_base: u64) -> Result<u128, Refusal> {
    let header = List::open_to_edit(Edition::E09, area, base)?.header;
    // "TARGET and ROOM apply as in relocation, with used being size + 8."
    refuse_if(!within_limits(target.len(), target_base), model::TARGET)?;
    let shift = shift(base, target_base, header.alignment);
    let used = header.used_size + 8;
    refuse_if(shift + used > target.len() as u128, model::ROOM)?;
    // "Other target bytes are 0."
    target.fill(0);
    let result = &mut target[shift as usize..];
    // "The header is the one create writes, with the old alignment, used size + 8, and total as
    // relocation sets it": what is left of the target, rounded down; create does so by itself.
    model::put_new_header(result, true);
    result[field::ALIGNMENT] = header.alignment;
    put_u32(result, field::USED_SIZE, used as u32);
    // "Entry bytes are copied as they stand": those from 16 to size, 8 further on.
    result[24..used as usize].copy_from_slice(&area[16..header.used_size as usize]);
    model::put_checksum(result);
    Ok(shift)
}

/// From the target base to "the lowest address from the target base on that equals old base minus 8 modulo
/// 2^alignment". The old base may be 0, so the difference may be below 0.
fn shift(base: u64, target_base: u64, alignment: u8) -> u128 {
    let difference = base as i128 - 8 - target_base as i128;
    difference.rem_euclid(1 << alignment) as u128
}

#[cfg(test)]
mod tests {
    use super::*;

    /// The same address looked for one by one, with 8 added to the other side.
    #[test]
    fn the_shift_is_the_one_that_a_search_finds() {
        for (base, target_base) in
            [(0, 0), (0, 7), (8, 0), (8, 0x1001), (0x1000, 0x2008), (0x7_fff8, 0x3f_fff9)]
        {
            for alignment in 3..=model::HIGHEST_ALIGNMENT as u8 {
                let boundary = 1 << alignment;
                let is_like = |address: &u64| (address + 8) % boundary == base % boundary;
                let found = (target_base..).find(is_like).unwrap();
                assert_eq!(shift(base, target_base, alignment), found as u128 - target_base as u128);
            }
        }
    }
}
