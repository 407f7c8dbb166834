//! Examples for document 02, request 1, worked out by hand from source 000 and document 01's bench
//! examples, run on the model.

use crate::model::{self, Checked, Done, Found};
use crate::model::{
    AREA, CHECKSUM, ENTRY, NONE, READONLY, ROOM, SHORT, SIGNATURE, SIZES, TAG, TARGET, VERSION,
};
use crate::model09::{check, convert, find};

const BASE: u64 = 0x1000;

// As source 000 creates them. In the first, the bytes but the fifth are ff + d0 + 6e + 01 + 10 + 03 +
// 10 + 10 = 271; the second has 30 more.
const NEW_16: &str = "ff d0 6e 00 71 01 10 03 10 00 00 00 10 00 00 00";
const NEW_64: &str = "ff d0 6e 00 a1 01 10 03 10 00 00 00 40 00 00 00";

// NEW_64 with 10 more in size; the entry has 01 + 08 + 03 + aa + bb + cc = 23d, the void 08 + 08.
const WITH_ENTRY: &str = "ff d0 6e 00 ee 01 10 03 20 00 00 00 40 00 00 00 \
                          01 00 00 08 03 00 00 00 aa bb cc 00 00 00 00 00";
const WITH_VOID: &str = "ff d0 6e 00 c1 01 10 03 20 00 00 00 40 00 00 00 \
                         00 00 00 08 08 00 00 00 00 00 00 00 00 00 00 00";

// Bench examples A, B and C of document 01.
const EXAMPLE_A: &str = "0b b1 0f 4a bc 01 18 03 18 00 00 00 40 00 00 00 01 00 00 00 00 00 00 00";
const EXAMPLE_B: &str = "0b b1 0f 4a 5b 01 18 03 28 00 00 00 40 00 00 00 01 00 00 00 00 00 00 00 \
                         01 00 00 08 03 00 00 00 aa bb cc 00 00 00 00 00";
const EXAMPLE_C: &str = "0b b1 0f 4a 8c 01 18 03 28 00 00 00 40 00 00 00 01 00 00 00 00 00 00 00 \
                         00 00 00 08 08 00 00 00 00 00 00 00 00 00 00 00";

fn with_zeros(text: &str, len: usize) -> Vec<u8> {
    let mut bytes: Vec<u8> =
        text.split_whitespace().map(|byte| u8::from_str_radix(byte, 16).unwrap()).collect();
    bytes.resize(len, 0);
    bytes
}

fn new_16() -> Vec<u8> {
    with_zeros(NEW_16, 16)
}

fn with_entry() -> Vec<u8> {
    with_zeros(WITH_ENTRY, 64)
}

/// The list with one byte changed, and the checksum byte by as much.
fn changed(mut area: Vec<u8>, offset: usize, value: u8) -> Vec<u8> {
    let difference = value.wrapping_sub(area[offset]);
    area[offset] = value;
    area[4] = area[4].wrapping_add(difference);
    area
}

/// The list with the checksum byte put right: the sum of the bytes of `size`, itself taken as 0.
fn summed(mut area: Vec<u8>) -> Vec<u8> {
    let size = u32::from_le_bytes(area[8..12].try_into().unwrap()) as usize;
    area[4] = 0;
    area[4] = area.iter().take(size).fold(0, |sum, byte| sum.wrapping_add(*byte));
    area
}

fn refused(number: u32) -> Done {
    Done { number, value: 0, at: 0 }
}

/// Converts to a target base of 0 and answers the target afterwards.
fn converted(area: &[u8], base: u64, len: usize, shift: u32) -> Vec<u8> {
    let mut target = vec![0xa5; len];
    assert_eq!(convert(area, base, &mut target, 0), Done { number: 0, value: shift, at: 0 });
    target
}

#[test]
fn new_lists() {
    let wanted = Checked { version: 1, used: 16, total: 16, alignment: 3, ..Checked::default() };
    assert_eq!(check(&new_16(), BASE), wanted);
    let wanted = Checked { total: 64, ..wanted };
    assert_eq!(check(&with_zeros(NEW_64, 64), BASE), wanted);
    assert_eq!(find(&new_16(), BASE, 1, 0).number, NONE);
}

#[test]
fn an_entry() {
    let wanted =
        Checked { number: 0, version: 1, used: 32, total: 64, alignment: 3, live: 1, voids: 0, at: 0 };
    assert_eq!(check(&with_entry(), BASE), wanted);
    assert_eq!(find(&with_entry(), BASE, 1, 0), Found { number: 0, offset: 24, size: 3, at: 0 });
    assert_eq!(find(&with_entry(), BASE, 1, 1).number, NONE);
    assert_eq!(find(&with_entry(), BASE, 0x100_0001, 0).number, TAG);
}

#[test]
fn a_void() {
    let area = with_zeros(WITH_VOID, 64);
    let wanted =
        Checked { number: 0, version: 1, used: 32, total: 64, alignment: 3, live: 0, voids: 1, at: 0 };
    assert_eq!(check(&area, BASE), wanted);
    for data_size in [1, 7] {
        assert_eq!(check(&changed(area.clone(), 20, data_size), BASE).number, ENTRY);
    }
}

#[test]
fn the_checksum_is_neither_negated_nor_switched_off() {
    for checksum in [0x71u8.wrapping_neg(), 0, 0xe2] {
        let mut area = new_16();
        area[4] = checksum;
        assert_eq!(check(&area, BASE).number, CHECKSUM);
    }
}

#[test]
fn bytes_behind_size_are_not_summed() {
    let mut area = with_entry();
    area[32..].fill(0xa5);
    assert_eq!(check(&area, BASE).number, 0);
}

#[test]
fn lengths_at_the_header() {
    assert_eq!(check(&new_16()[..15], BASE).number, SHORT);
    assert_eq!(check(&with_zeros(NEW_16, 65_536), BASE).number, 0);
    assert_eq!(check(&[], BASE).number, SHORT);
    // 16 bytes that end at 2^48, and 8 behind it. What is longer than 65,536 is judged as in example I.
    assert_eq!(check(&new_16(), (1 << 48) - 16).number, 0);
    assert_eq!(check(&new_16(), (1 << 48) - 8).number, AREA);
}

#[test]
fn fields_of_the_header() {
    let number = |offset, value| check(&changed(with_entry(), offset, value), BASE).number;
    assert_eq!(number(0, 0xfe), SIGNATURE);
    assert_eq!(number(5, 0), VERSION);
    assert_eq!(number(5, 2), 0);
    for hdr_size in [15, 17, 24] {
        assert_eq!(number(6, hdr_size), SIZES);
    }
    for (alignment, wanted) in [(2, SIZES), (3, 0), (12, 0), (13, 0), (21, 0), (22, SIZES)] {
        assert_eq!(number(7, alignment), wanted);
    }
    for (max_size, wanted) in [(24, SIZES), (32, 0), (60, SIZES), (72, SIZES)] {
        assert_eq!(number(12, max_size), wanted);
    }
}

#[test]
fn the_list_ends_at_size() {
    // Without the entry, within it, at its end, and 8 zeros behind it, which are no entry.
    for (size, wanted) in [(8, SIZES), (16, 0), (24, ENTRY), (28, SIZES), (32, 0), (40, ENTRY), (72, SIZES)] {
        let mut area = with_entry();
        area[8] = size;
        assert_eq!(check(&summed(area), BASE).number, wanted);
    }
}

#[test]
fn a_later_version_has_longer_headers() {
    // Entries from 24 on: an entry whose header of 9 and data of 2 take sixteen bytes.
    let text = "ff d0 6e 00 00 02 11 03 28 00 00 00 28 00 00 00 a5 a5 a5 a5 a5 a5 a5 a5 \
                01 00 00 09 02 00 00 00 a5 aa bb a5 a5 a5 a5 a5";
    let area = summed(with_zeros(text, 40));
    let wanted =
        Checked { number: 0, version: 2, used: 40, total: 40, alignment: 3, live: 1, voids: 0, at: 0 };
    assert_eq!(check(&area, BASE), wanted);
    assert_eq!(find(&area, BASE, 1, 0), Found { number: 0, offset: 33, size: 2, at: 0 });
    assert_eq!(convert(&area, BASE, &mut [0; 128], 0), refused(READONLY));
}

#[test]
fn each_edition_refuses_the_other() {
    assert_eq!(model::check(&with_entry(), BASE).number, SIGNATURE);
    assert_eq!(check(&with_zeros(EXAMPLE_B, 64), BASE).number, SIGNATURE);
    assert_eq!(model::check(&new_16(), BASE).number, SHORT);
}

#[test]
fn converted_at_base_0_with_alignment_3() {
    assert_eq!(converted(&with_zeros(NEW_64, 64), 0, 64, 0), with_zeros(EXAMPLE_A, 64));
    assert_eq!(converted(&with_entry(), 0, 64, 0), with_zeros(EXAMPLE_B, 64));
    assert_eq!(converted(&with_zeros(WITH_VOID, 64), 0, 64, 0), with_zeros(EXAMPLE_C, 64));
}

#[test]
fn converted_at_base_0_with_alignment_6_and_12() {
    // In both checksums the new alignment stands where 3 stood: 5b ^ 03 ^ 06 and 5b ^ 03 ^ 0c.
    for (alignment, shift, checksum) in [(6, 64 - 8, 0x5e), (12, 4096 - 8, 0x54)] {
        let area = changed(with_entry(), 7, alignment);
        let mut wanted = with_zeros(EXAMPLE_B, 64);
        (wanted[4], wanted[7]) = (checksum, alignment);
        let target = converted(&area, 0, shift + 64, shift as u32);
        assert_eq!(target[shift..], wanted);
        assert!(target[..shift].iter().all(|byte| *byte == 0));
        let just = converted(&area, 0, shift + 40, shift as u32);
        assert_eq!((just[shift + 8], just[shift + 12]), (40, 40));
        assert_eq!(convert(&area, 0, &mut vec![0; shift + 39], 0), refused(ROOM));
    }
}

#[test]
fn converted_from_other_bases() {
    let area = changed(with_entry(), 7, 6);
    for (base, target_base, shift) in [(8, 0, 0), (8, 1, 63), (0x1040, 0x2001, 55), (0x1048, 0x2040, 0)] {
        let mut target = vec![0xa5; 128];
        assert_eq!(convert(&area, base, &mut target, target_base), Done { number: 0, value: shift, at: 0 });
        let new_base = target_base + shift as u64;
        assert_eq!(model::find(&target[shift as usize..], new_base, 1, 0).offset, 32);
        assert_eq!((base + 24) % 64, (new_base + 32) % 64);
    }
}

#[test]
fn padding_and_void_data_are_copied() {
    let padding = changed(with_entry(), 31, 0x5a);
    assert_eq!(converted(&padding, 0, 64, 0)[39], 0x5a);
    let void_data = changed(with_zeros(WITH_VOID, 64), 24, 0x5a);
    assert_eq!(converted(&void_data, 0, 64, 0)[32], 0x5a);
}

#[test]
fn the_shortest_list_converted() {
    // Example A with 18 for 40 in total: bc ^ 40 ^ 18.
    let wanted = "0b b1 0f 4a e4 01 18 03 18 00 00 00 18 00 00 00 01 00 00 00 00 00 00 00";
    assert_eq!(converted(&new_16(), 0, 24, 0), with_zeros(wanted, 24));
    assert_eq!(convert(&new_16(), 0, &mut [0; 23], 0), refused(ROOM));
}

#[test]
fn order_of_refusals() {
    let mut area = with_entry();
    area[5] = 2;
    assert_eq!(check(&area, BASE).number, CHECKSUM);
    assert_eq!(convert(&area, BASE, &mut [0; 128], 0), refused(READONLY));
    assert_eq!(convert(&with_entry(), BASE, &mut [], 1 << 48), refused(ROOM));
    assert_eq!(convert(&with_entry(), BASE, &mut [], (1 << 48) + 1), refused(TARGET));
}

#[test]
fn a_list_of_64_kib_needs_more_to_be_converted() {
    // size and max_size 10000, one entry of ffe8 bytes.
    let text = "ff d0 6e 00 00 01 10 03 00 00 01 00 00 00 01 00 01 00 00 08 e8 ff 00 00";
    let area = summed(with_zeros(text, 65_536));
    assert_eq!(check(&area, 0).live, 1);
    assert_eq!(convert(&area, 0, &mut vec![0; 65_536], 0), refused(ROOM));
    assert_eq!(convert(&area, 0, &mut vec![0; 65_536], (1 << 48) - 65_535), refused(TARGET));
}

#[test]
fn converted_with_alignment_13_and_21() {
    // From 2^21 + 8 to 6 times 2^21, which is 24 behind the target base; size + 8 is 40. 22 is no alignment.
    for (alignment, number, shift) in [(13, 0, 24), (21, 0, 24), (22, SIZES, 0)] {
        let area = changed(with_entry(), 7, alignment);
        let mut target = vec![0xa5; 64];
        let target_base = (6 << 21) - 24;
        assert_eq!(
            convert(&area, (1 << 21) + 8, &mut target, target_base),
            Done { number, value: shift, at: 0 }
        );
        assert_eq!(target[24 + 7] == alignment, number == 0);
        let short = if number == 0 { ROOM } else { SIZES };
        assert_eq!(convert(&area, (1 << 21) + 8, &mut target[..63], target_base), refused(short));
    }
}
