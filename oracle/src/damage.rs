//! Whole lists spoiled: a byte, a field or an entry changed, a checksum by another rule, the area
//! cut or lengthened, or a base at which it is not usable.

use crate::lists::{
    has_fields, restore_checksum, rows, sum, total_size, used_size, xor, List, Row, MOST_LENT,
};
use crate::model::{field, put_u32, Edition, ADDRESS_END};
use crate::rng::Rng;

pub fn spoil(rng: &mut Rng, list: &mut List) {
    match rng.below(11) {
        0..=5 => damage(rng, list.edition, &mut list.area),
        6 => other_checksum(rng, &mut list.area),
        7 | 8 => resize(rng, &mut list.area),
        _ => list.base = bad_base(rng, list.area.len()),
    }
}

/// A base that makes the area unusable, or just does not.
fn bad_base(rng: &mut Rng, len: usize) -> u64 {
    let len = len as u64;
    let end = ADDRESS_END as u64;
    match rng.below(9) {
        0 => rng.below(end) | rng.range(1, 7),
        1 => rng.range(1, 7),
        2 => (end - len) / 8 * 8 + 8,
        3 => (end - len) | rng.range(0, 7),
        4 => end - rng.below(len + 16),
        5 => end.wrapping_add(8 * rng.below(1 << 20)),
        6 => u64::MAX - rng.below(16),
        7 => 0u64.wrapping_sub(len / 8 * 8),
        _ => rng.word() / 8 * 8,
    }
}

/// One byte or field changed, with the checksum mostly put right afterwards.
fn damage(rng: &mut Rng, edition: Edition, area: &mut [u8]) {
    if area.len() < edition.hdr_size() {
        return;
    }
    match rng.below(8) {
        0 => change_byte(rng, area),
        1..=3 => change_header(rng, edition, area),
        4 => change_end(rng, area),
        _ => change_entry(rng, area),
    }
    if !rng.once_in(4) {
        restore_checksum(edition, area);
    }
}

fn change_byte(rng: &mut Rng, area: &mut [u8]) {
    let limit = used_size(area).clamp(16, area.len() as u128);
    let offset = rng.below(limit as u64) as usize;
    area[offset] ^= rng.range(1, 255) as u8;
}

fn change_header(rng: &mut Rng, edition: Edition, area: &mut [u8]) {
    // Flags and the reserved word are the current edition's alone.
    let fields = if edition == Edition::Current { 9 } else { 7 };
    match rng.below(fields) {
        0 => change_signature(rng, area),
        1 => area[field::CHECKSUM] ^= rng.range(1, 255) as u8,
        2 => area[field::VERSION] = rng.pick(&[0, 0, 1, 2, 255]),
        3 => area[field::HDR_SIZE] = rng.pick(&[0, 8, 15, 16, 17, 23, 24, 25, 31, 32, 40, 255]),
        4 => area[field::ALIGNMENT] = rng.pick(&[0, 2, 3, 12, 13, 21, 22, 23, 35, 53, 67, 131, 255]),
        5 => change_used_size(rng, area),
        6 => change_total_size(rng, area),
        7 => put_u32(area, field::FLAGS, rng.word() as u32),
        _ => put_u32(area, field::RESERVED, rng.word() as u32),
    }
}

/// One byte of the signature changed, or the signature of the one edition or the other.
fn change_signature(rng: &mut Rng, area: &mut [u8]) {
    match rng.below(4) {
        0 => put_u32(area, 0, Edition::Current.signature()),
        1 => put_u32(area, 0, Edition::E09.signature()),
        _ => area[rng.below(4) as usize] ^= rng.range(1, 255) as u8,
    }
}

/// A checksum by some rule, now and then its own: one edition's or the other's, negated, made while the old one still stood in
/// its byte, over what is not used too, over the header alone, or none.
fn other_checksum(rng: &mut Rng, area: &mut [u8]) {
    if !has_fields(area) {
        return;
    }
    let old = std::mem::take(&mut area[field::CHECKSUM]);
    let used = &area[..used_size(area).min(area.len() as u128) as usize];
    area[field::CHECKSUM] = match rng.below(7) {
        0 => xor(used),
        1 => sum(used),
        2 => sum(used).wrapping_neg(),
        3 => sum(used).wrapping_add(old),
        4 => sum(area),
        5 => sum(&area[..16]),
        _ => 0,
    };
}

/// used_size no multiple of 8, under the header, over total_size, or huge.
fn change_used_size(rng: &mut Rng, area: &mut [u8]) {
    let (used, total) = (used_size(area) as u32, total_size(area) as u32);
    let step = rng.pick(&[1, 4, 7, 8]);
    let value = match rng.below(6) {
        0 => rng.pick(&[0, 8, 15, 16, 17, 23, 24, 25]),
        1 => used.wrapping_add(step),
        2 => used.wrapping_sub(step),
        3 => total,
        4 => total.wrapping_add(step),
        _ => rng.pick(&[0x100_0000, 0x8000_0000, 0xffff_fff8, 0xffff_ffff]),
    };
    put_u32(area, field::USED_SIZE, value);
}

/// total_size no multiple of 8, under used_size, over the length, or huge.
fn change_total_size(rng: &mut Rng, area: &mut [u8]) {
    let (used, total) = (used_size(area) as u32, total_size(area) as u32);
    let len = area.len() as u32;
    let step = rng.pick(&[1, 4, 7, 8]);
    let value = match rng.below(7) {
        0 => used,
        1 => used.wrapping_sub(8),
        2 => total.wrapping_add(step),
        3 => total.wrapping_sub(step),
        4 => len / 8 * 8,
        5 => len / 8 * 8 + 8,
        _ => rng.pick(&[0, 0x100_0000, 0x8000_0000, 0xffff_fff8, 0xffff_ffff]),
    };
    put_u32(area, field::TOTAL_SIZE, value);
}

/// used_size moved 8 or 16 before or behind the end of the last entry; total_size follows as far
/// as the area goes.
fn change_end(rng: &mut Rng, area: &mut [u8]) {
    let step = rng.pick(&[8, 16]);
    let used = used_size(area) as u32;
    let moved = if rng.once_in(2) { used.wrapping_add(step) } else { used.wrapping_sub(step) };
    put_u32(area, field::USED_SIZE, moved);
    if total_size(area) < moved as u128 && moved as usize <= area.len() {
        put_u32(area, field::TOTAL_SIZE, moved);
    }
}

fn change_entry(rng: &mut Rng, area: &mut [u8]) {
    let rows = rows(area);
    if rows.is_empty() {
        return;
    }
    let row = &rows[rng.below(rows.len() as u64) as usize];
    match rng.below(5) {
        0 => area[row.place..row.place + 3].fill(0),
        1 => area[row.place + 3] = rng.pick(&[0, 7, 8, 9, 16, 24, 255]),
        _ => {
            let value = bad_data_size(rng, area, row);
            put_u32(area, row.place + 4, value);
        }
    }
}

/// A data_size that is huge, or wraps in 32 bits to another place of the list, or ends the entry
/// at used_size, or a little before or behind it, or is a little off.
fn bad_data_size(rng: &mut Rng, area: &[u8], row: &Row) -> u32 {
    let start = row.place as u32 + row.hdr_size as u32;
    let used = used_size(area) as u32;
    let step = rng.pick(&[1, 7, 8]);
    match rng.below(8) {
        0 => rng.pick(&[0xffff_ffff, 0xffff_fff9, 0xffff_fff8, 0xffff_fff7, 0xffff_fff0]),
        1 => rng.pick(&[0x7fff_ffff, 0x8000_0000, 0x100_0000, 0x1_0000, 0xffff]),
        2 => (8 * rng.below(1 + area.len() as u64 / 8) as u32).wrapping_sub(start),
        3 => used.wrapping_sub(start),
        4 => used.wrapping_sub(start).wrapping_add(step),
        5 => used.wrapping_sub(start).wrapping_sub(step),
        6 => row.data_size.wrapping_add(step),
        _ => row.data_size.wrapping_sub(step),
    }
}

/// The area cut or lengthened to a length at which something changes.
fn resize(rng: &mut Rng, area: &mut Vec<u8>) {
    let len = match rng.below(40) {
        0 => rng.pick(&[MOST_LENT - 1, MOST_LENT]),
        1..=9 => rng.pick(&[0, 1, 7, 8, 9, 23, 24, 25, 31, 32, 33]),
        10..=19 => rng.range(15, 24) as usize,
        20..=29 if has_fields(area) => nearby(rng, total_size(area)),
        _ => rng.below(area.len() as u64 + 1) as usize,
    };
    let longer = rng.bytes(len.saturating_sub(area.len()));
    area.truncate(len);
    area.extend(longer);
}

/// A length at a total_size or close to it; the field may say anything.
fn nearby(rng: &mut Rng, total: u128) -> usize {
    let total = total.min(4096) as usize;
    (total + rng.pick(&[0, 7, 8, 9])).saturating_sub(8)
}
