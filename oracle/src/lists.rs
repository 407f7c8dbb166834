//! A seeded source of lists of every kind: whole ones made by rows of edits, whole ones laid out by
//! hand (later versions, longer headers, odd flags, padding that is not 0), and noise; then damaged
//! ones, cut ones and ones at bad addresses.

use crate::certificate_values;
use crate::damage::spoil;
use crate::lists09;
use crate::lists_certificate;
use crate::model::{self, align8, field, put_u32, Edition, ADDRESS_END, CERTIFICATE_TAG, HIGHEST_ALIGNMENT};
use crate::model_tidy;
use crate::rng::Rng;

/// "Test programs keep their own buffers within 64 KiB" (document 02, request 7): no buffer that is filled
/// and lent in the comparison is longer. At greater lengths it lends zeros that the system has set.
pub const MOST_LENT: usize = 65_536;

/// A list as it is lent: the bytes of the area and the stated base address; and the edition that it
/// was made by, which the bytes need not tell any more.
pub struct List {
    pub area: Vec<u8>,
    pub base: u64,
    pub edition: Edition,
}

/// An entry as it stands in the bytes, sound or not.
pub struct Row {
    pub place: usize,
    pub tag_id: u32,
    pub hdr_size: u8,
    pub data_size: u32,
}

/// A list of any kind; one in five is of edition 0.9.
pub fn any(rng: &mut Rng) -> List {
    any_as_made(rng).0
}

/// The same, and where its entries stood when it was made, before anything was spoiled.
pub fn any_as_made(rng: &mut Rng) -> (List, Vec<usize>) {
    let mut list = if rng.once_in(5) { lists09::whole(rng) } else { whole(rng) };
    let places = rows(&list.area).iter().map(|row| row.place).collect();
    if rng.once_in(2) {
        spoil(rng, &mut list);
        if rng.once_in(4) {
            spoil(rng, &mut list);
        }
    }
    (list, places)
}

fn whole(rng: &mut Rng) -> List {
    match rng.below(16) {
        0..=6 => edited(rng),
        7..=10 => laid_out(rng, Edition::Current, 1),
        11..=14 => later_version(rng, Edition::Current),
        _ => noise(rng, Edition::Current),
    }
}

/// Whether the area is long enough for the fields that both editions have.
pub fn has_fields(area: &[u8]) -> bool {
    area.len() >= 16
}

/// The entries as far as the bytes can be followed, without asking whether they are sound.
pub fn rows(area: &[u8]) -> Vec<Row> {
    let mut rows = Vec::new();
    if !has_fields(area) {
        return rows;
    }
    let end = used_size(area).min(area.len() as u128);
    let mut place = align8(area[field::HDR_SIZE] as u128);
    while place + 8 <= end {
        let row = row_at(area, place as usize);
        let stretch = align8(row.hdr_size as u128 + row.data_size as u128);
        rows.push(row);
        if stretch == 0 {
            break;
        }
        place += stretch;
    }
    rows
}

fn row_at(area: &[u8], place: usize) -> Row {
    Row {
        place,
        tag_id: word(area, place) & 0xff_ffff,
        hdr_size: area[place + 3],
        data_size: word(area, place + 4),
    }
}

/// The field used_size, or `size`, as it stands; the area has fields.
pub fn used_size(area: &[u8]) -> u128 {
    word(area, field::USED_SIZE) as u128
}

/// The field total_size, or `max_size`, as it stands; the area has fields.
pub fn total_size(area: &[u8]) -> u128 {
    word(area, field::TOTAL_SIZE) as u128
}

fn word(area: &[u8], offset: usize) -> u32 {
    u32::from_le_bytes([area[offset], area[offset + 1], area[offset + 2], area[offset + 3]])
}

/// Puts the checksum right by the other fields as they stand; the area holds the edition's header.
pub fn restore_checksum(edition: Edition, area: &mut [u8]) {
    area[field::CHECKSUM] = 0;
    let used = used_size(area).min(area.len() as u128) as usize;
    area[field::CHECKSUM] = match edition {
        Edition::E09 => sum(&area[..used]),
        Edition::Current if area[field::FLAGS] & 1 != 0 => xor(&area[..used]),
        Edition::Current => 0,
    };
}

pub fn xor(bytes: &[u8]) -> u8 {
    bytes.iter().fold(0, |sum, byte| sum ^ byte)
}

/// The sum modulo 256.
pub fn sum(bytes: &[u8]) -> u8 {
    bytes.iter().fold(0, |sum, byte| sum.wrapping_add(*byte))
}

// Sizes and addresses.

/// A length for the area: mostly small, now and then the longest.
pub fn area_len(rng: &mut Rng) -> usize {
    let len = match rng.below(200) {
        0 => MOST_LENT as u64 - rng.pick(&[0, 0, 1, 8, 16]),
        1..=10 => rng.range(256, 2048),
        11..=20 => rng.range(0, 40),
        _ => rng.range(25, 256),
    };
    len as usize
}

/// A base that makes an area of `len` bytes usable: low, high, anywhere, the highest one, or with a boundary
/// of every alignment in the area.
pub fn good_base(rng: &mut Rng, len: usize) -> u64 {
    let highest = (ADDRESS_END as u64 - len as u64) / 8 * 8;
    match rng.below(10) {
        0 => 0,
        1 => 8,
        2 => highest,
        3 => highest - 8 * rng.below(512),
        4 | 5 => 0x1000,
        6 | 7 => highest_boundary(rng) - 8 * rng.below(len as u64 / 8 + 1),
        _ => rng.below(highest / 8) * 8,
    }
}

/// An address that is a multiple of 2^alignment for every alignment, neither the first such nor the last.
fn highest_boundary(rng: &mut Rng) -> u64 {
    rng.range(1, (ADDRESS_END as u64 >> HIGHEST_ALIGNMENT) - 1) << HIGHEST_ALIGNMENT
}

// Whole lists.

/// A list made by create and a row of the model's own edits.
fn edited(rng: &mut Rng) -> List {
    let len = area_len(rng);
    let mut list = List { area: rng.bytes(len), base: good_base(rng, len), edition: Edition::Current };
    model::create(&mut list.area, list.base, !rng.once_in(4));
    for _ in 0..rng.below(12) {
        edit(rng, &mut list);
    }
    list
}

fn edit(rng: &mut Rng, list: &mut List) {
    if rng.once_in(12) {
        move_away(rng, list);
        return;
    }
    let (tag, data) = some_data(rng, list.area.len());
    match rng.below(23) {
        0..=5 => model::add(&mut list.area, list.base, tag, &data, false),
        6..=11 => model::add(&mut list.area, list.base, tag, &data, true),
        12..=15 => model::add_aligned(&mut list.area, list.base, tag, &data, good_exponent(rng)),
        16 => model_tidy::tidy(&mut list.area, list.base),
        _ => model::void(&mut list.area, list.base, tag, rng.below(3)),
    };
}

/// What an edit adds, and the tag: a certificate now and then.
fn some_data(rng: &mut Rng, area_len: usize) -> (u32, Vec<u8>) {
    if rng.once_in(8) {
        return (CERTIFICATE_TAG, certificate_values::any(rng).bytes());
    }
    let tag = rng.range(1, 4) as u32;
    let length = rng.small(if area_len > 4096 { 15 } else { 7 });
    (tag, rng.bytes(length as usize))
}

/// An exponent that is allowed, the small ones more often.
pub fn good_exponent(rng: &mut Rng) -> u32 {
    let highest = rng.pick(&[4, 5, 6, 8, 12, HIGHEST_ALIGNMENT]);
    rng.range(3, highest as u64) as u32
}

/// Relocates the list, where there is room for it.
fn move_away(rng: &mut Rng, list: &mut List) {
    let len = (list.area.len() + rng.below(128) as usize).min(MOST_LENT);
    let target_base = rng.below(1 << 20) + good_base(rng, MOST_LENT) / 2;
    let mut target = rng.bytes(len);
    let done = model::relocate(&list.area, list.base, &mut target, target_base);
    if done.number == 0 {
        list.area = target.split_off(done.value as usize);
        list.base = target_base + done.value as u64;
    }
}

/// A whole list of the given edition and version, laid out byte by byte.
pub fn laid_out(rng: &mut Rng, edition: Edition, version: u8) -> List {
    let mut area = laid_out_header(rng, edition, version);
    let limit = area_len(rng) / 8 * 8;
    lay_out_entries(rng, version, &mut area, limit);
    if area.len() < 4096 && rng.once_in(3) {
        lists_certificate::lay_out(rng, version, &mut area);
        lay_out_entries(rng, version, &mut area, limit);
    }
    if limit > 4096 || rng.once_in(4) {
        fill_up(rng, &mut area, limit);
    }
    let used = area.len();
    let total = used + spare(rng).min((MOST_LENT - used) / 8 * 8);
    let len = total + rng.pick(&[0, 0, 1, 7, 8, 40]).min(MOST_LENT - total);
    area.extend(rng.bytes(len - used));
    put_u32(&mut area, field::USED_SIZE, used as u32);
    put_u32(&mut area, field::TOTAL_SIZE, total as u32);
    restore_checksum(edition, &mut area);
    List { base: good_base(rng, len), area, edition }
}

pub fn later_version(rng: &mut Rng, edition: Edition) -> List {
    let version = match rng.below(4) {
        0 => 2,
        1 => 255,
        _ => rng.range(2, 255) as u8,
    };
    laid_out(rng, edition, version)
}

/// Free bytes between used_size and total_size, a multiple of 8.
fn spare(rng: &mut Rng) -> usize {
    let words = match rng.below(3) {
        0 => rng.below(3),
        1 => rng.below(16),
        _ => rng.below(64),
    };
    8 * words as usize
}

/// The header and what stands between it and the first entry; the sizes are put in afterwards.
fn laid_out_header(rng: &mut Rng, edition: Edition, version: u8) -> Vec<u8> {
    let least = edition.hdr_size() as u8;
    let hdr_size = if version == 1 { least } else { longer_header(rng, least) };
    let mut area = rng.bytes(align8(hdr_size as u128) as usize);
    put_u32(&mut area, 0, edition.signature());
    area[field::VERSION] = version;
    area[field::HDR_SIZE] = hdr_size;
    area[field::ALIGNMENT] = alignment(rng) as u8;
    if edition == Edition::Current {
        put_u32(&mut area, field::FLAGS, flags(rng));
        if rng.once_in(2) {
            put_u32(&mut area, field::RESERVED, 0);
        }
    }
    area
}

/// An alignment for a list: the small ones more often, but all of them often enough.
pub fn alignment(rng: &mut Rng) -> u32 {
    if rng.once_in(2) {
        good_exponent(rng)
    } else {
        rng.range(3, HIGHEST_ALIGNMENT as u64) as u32
    }
}

/// The flags word: has_checksum mostly, the other bits often all 0 and often not.
fn flags(rng: &mut Rng) -> u32 {
    let has_checksum = !rng.once_in(4) as u32;
    let others = match rng.below(4) {
        0 | 1 => 0,
        2 => 2 << rng.below(31),
        _ => rng.word() as u32 & !1,
    };
    others | has_checksum
}

/// A header size from `least` to 255.
pub(crate) fn longer_header(rng: &mut Rng, least: u8) -> u8 {
    match rng.below(6) {
        0 | 1 => least,
        2 => least + 8,
        3 | 4 => rng.range(least as u64, least as u64 + 24) as u8,
        _ => rng.range(least as u64, 255) as u8,
    }
}

/// Entries as long as they stay below the limit; a long list has many small ones or a few large. Of
/// eight entries two are voids, or five, so that they stand side by side.
fn lay_out_entries(rng: &mut Rng, version: u8, area: &mut Vec<u8>, limit: usize) {
    let bits = if limit > 4096 { rng.pick(&[3, 7, 14]) } else { 7 };
    let voids = rng.pick(&[2, 2, 5]);
    for _ in 0..rng.below(2 + limit as u64 / 16) {
        let hdr_size = if version == 1 { 8 } else { longer_header(rng, 8) };
        let data_size = rng.small(bits) as u32;
        let tag_id = if rng.below(8) < voids { 0 } else { live_tag(rng) };
        let entry = laid_out_entry(rng, tag_id, hdr_size, data_size);
        if area.len() + entry.len() <= limit {
            area.extend(entry);
        }
    }
}

/// Two entries that end just at the limit, the last one mostly without data; each is a void now and
/// then.
fn fill_up(rng: &mut Rng, area: &mut Vec<u8>, limit: usize) {
    let last = rng.pick(&[8, 8, 16]);
    if area.len() + 8 + last <= limit {
        let data_size = limit - last - area.len() - 8;
        for data_size in [data_size, last - 8] {
            let tag_id = if rng.once_in(4) { 0 } else { live_tag(rng) };
            area.extend(laid_out_entry(rng, tag_id, 8, data_size as u32));
        }
    }
}

/// An entry with its data and its padding, which is mostly not 0.
pub(crate) fn laid_out_entry(rng: &mut Rng, tag_id: u32, hdr_size: u8, data_size: u32) -> Vec<u8> {
    let data_size = if tag_id == 0 { data_size / 8 * 8 } else { data_size };
    let mut entry = rng.bytes(align8(hdr_size as u128 + data_size as u128) as usize);
    put_u32(&mut entry, 0, tag_id);
    entry[3] = hdr_size;
    put_u32(&mut entry, 4, data_size);
    entry
}

/// Tags often alike, so that they have several occurrences; the reserved ones may stand in a list.
fn live_tag(rng: &mut Rng) -> u32 {
    match rng.below(6) {
        0..=2 => rng.range(1, 4) as u32,
        3 => rng.pick(&[5, 6, 0x100, 0x101, 0x102, 0x103, 0x104]),
        4 => rng.pick(&[0x7f_ffff, 0x80_0000, 0xff_efff, 0xff_f000, 0xff_f00f, 0xff_f011, 0xff_ffff]),
        _ => rng.range(1, 0xff_ffff) as u32,
    }
}

/// A buffer of noise, in part behind a signature and a version.
pub fn noise(rng: &mut Rng, edition: Edition) -> List {
    let len = area_len(rng);
    let mut area = rng.bytes(len);
    if has_fields(&area) && rng.once_in(2) {
        put_u32(&mut area, 0, edition.signature());
        area[field::VERSION] = rng.below(3) as u8;
    }
    List { area, base: good_base(rng, len), edition }
}

#[cfg(test)]
mod tests {
    use super::*;

    #[test]
    fn the_same_seed_gives_the_same_list() {
        for seed in 0..1000 {
            let (one, other) = (any(&mut Rng::new(seed)), any(&mut Rng::new(seed)));
            assert_eq!((one.base, one.area), (other.base, other.area));
        }
    }

    #[test]
    fn no_list_is_longer_than_what_may_be_lent() {
        let lengths = (0..5000).map(|seed| any(&mut Rng::new(seed)).area.len());
        assert_eq!(lengths.max(), Some(MOST_LENT));
    }
}
