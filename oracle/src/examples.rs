//! The bench examples A to N of document 01, I and J as amended by document 02, request 7, run on the model.

use crate::model::*;

const BASE: u64 = 0x1000;

fn hex(text: &str) -> Vec<u8> {
    text.split_whitespace().map(|byte| u8::from_str_radix(byte, 16).unwrap()).collect()
}

fn with_zeros(text: &str, len: usize) -> Vec<u8> {
    let mut bytes = hex(text);
    bytes.resize(len, 0);
    bytes
}

fn ok(value: u32) -> Done {
    Done { number: 0, value, at: 0 }
}

fn refused(number: u32) -> Done {
    Done { number, value: 0, at: 0 }
}

fn created(len: usize) -> Vec<u8> {
    let mut area = vec![0xa5; len];
    assert_eq!(create(&mut area, BASE, true).number, 0);
    area
}

fn example_b() -> Vec<u8> {
    let mut area = created(64);
    assert_eq!(add(&mut area, BASE, 1, &[0xaa, 0xbb, 0xcc], true), ok(32));
    area
}

fn example_c() -> Vec<u8> {
    let mut area = example_b();
    assert_eq!(void(&mut area, BASE, 1, 0), ok(24));
    area
}

/// A list whose one entry is a void of 16.
fn void_of_16() -> Vec<u8> {
    let mut area = created(48);
    add(&mut area, BASE, 1, &[7; 16], false);
    assert_eq!(void(&mut area, BASE, 1, 0), ok(24));
    area
}

/// The list with the checksum byte put right.
fn resealed(mut area: Vec<u8>) -> Vec<u8> {
    area[4] = 0;
    let used = u32::from_le_bytes(area[8..12].try_into().unwrap()) as usize;
    area[4] = area[..used].iter().fold(0, |sum, byte| sum ^ byte);
    area
}

#[test]
fn a_create() {
    let wanted = "0b b1 0f 4a bc 01 18 03 18 00 00 00 40 00 00 00 01 00 00 00 00 00 00 00";
    assert_eq!(created(64), with_zeros(wanted, 64));
}

#[test]
fn b_add() {
    let wanted = "0b b1 0f 4a 5b 01 18 03 28 00 00 00 40 00 00 00 01 00 00 00 00 00 00 00 \
                  01 00 00 08 03 00 00 00 aa bb cc 00 00 00 00 00";
    assert_eq!(example_b(), with_zeros(wanted, 64));
}

#[test]
fn c_void() {
    let area = example_c();
    assert_eq!(area[4], 0x8c);
    assert_eq!(area[24..40], with_zeros("00 00 00 08 08 00 00 00", 16));
}

#[test]
fn d_add_in_a_void() {
    let mut area = example_c();
    assert_eq!(add(&mut area, BASE, 2, &[], true), ok(32));
    assert_eq!(area[4], 0x8e);
    assert_eq!(area[8], 40);
    assert_eq!(area[24..40], hex("02 00 00 08 00 00 00 00 00 00 00 08 00 00 00 00"));
}

#[test]
fn e_lengths_at_a_void_of_16() {
    assert_eq!(add(&mut void_of_16(), BASE, 2, &[1; 17], true), refused(ROOM));
    for length in [16, 9] {
        let mut area = void_of_16();
        assert_eq!(add(&mut area, BASE, 2, &vec![1; length], true), ok(32));
        assert_eq!((check(&area, BASE).live, check(&area, BASE).voids), (1, 0));
    }
    let mut area = void_of_16();
    assert_eq!(add(&mut area, BASE, 2, &[1; 8], true), ok(32));
    assert_eq!(area[40..48], hex("00 00 00 08 00 00 00 00"));
    assert_eq!((check(&area, BASE).live, check(&area, BASE).voids), (1, 1));
}

#[test]
fn f_room_of_8_and_of_0() {
    let mut area = created(32);
    assert_eq!(add(&mut area, BASE, 1, &[1], false), refused(ROOM));
    assert_eq!(add(&mut area, BASE, 1, &[], false), ok(32));
    assert_eq!(add(&mut area, BASE, 1, &[], false), refused(ROOM));
}

#[test]
fn g_add_aligned() {
    let mut area = created(128);
    assert_eq!(add_aligned(&mut area, BASE, 4, &[1, 2, 3, 4], 4), ok(32));
    assert_eq!(check(&area, BASE).voids, 0);
    let mut area = created(128);
    assert_eq!(add_aligned(&mut area, BASE, 4, &[1, 2, 3, 4], 6), ok(0x40));
    assert_eq!(area[24..32], hex("00 00 00 08 18 00 00 00"));
    assert_eq!((check(&area, BASE).used, check(&area, BASE).alignment), (72, 6));
    let mut area = created(64);
    assert_eq!(add_aligned(&mut area, BASE, 4, &[1, 2, 3, 4], 6), refused(ROOM));
    assert_eq!(area, created(64));
}

#[test]
fn h_relocate() {
    let mut area = created(128);
    add_aligned(&mut area, BASE, 4, &[1, 2, 3, 4], 6);
    for (len, total) in [(200, 144), (128, 72)] {
        let mut target = vec![0xa5; len];
        assert_eq!(relocate(&area, BASE, &mut target, 0x2008), ok(56));
        assert_eq!(check(&target[56..], 0x2040).total, total);
    }
    assert_eq!(relocate(&area, BASE, &mut [0; 127], 0x2008), refused(ROOM));
}

#[test]
fn i_lengths_at_create() {
    assert_eq!(create(&mut [0; 24], BASE, true), refused(SHORT));
    assert_eq!(create(&mut [0; 25], BASE, true), ok(24));
    assert_eq!(create(&mut [0; 65_535], BASE, true), ok(65_528));
    assert_eq!(create(&mut [0; 65_536], BASE, true), ok(65_536));
}

/// Lengths of which no buffer is made here: "65,537 and exponent 13 are now good".
#[test]
fn i_lengths_over_64_kib() {
    for (len, total) in [(65_537, 65_536), (16_777_215, 16_777_208), (16_777_216, 16_777_216)] {
        assert!(usable(len, BASE) && within_limits(len, BASE));
        assert_eq!(round_down8(len as u128), total);
    }
    for len in [16_777_217, 16_777_224, 1 << 32, usize::MAX] {
        assert!(!usable(len, BASE) && !within_limits(len, BASE));
    }
}

/// The highest base of 16 MiB, and 8 bytes or one byte above it; the base of a target may be odd.
#[test]
fn i_lengths_at_the_end_of_the_addresses() {
    let highest = (1 << 48) - 16_777_216;
    assert!(usable(16_777_216, highest) && within_limits(16_777_216, highest));
    assert!(!usable(16_777_216, highest + 8) && !within_limits(16_777_216, highest + 1));
    assert!(!usable(16_777_215, highest + 1) && within_limits(16_777_215, highest + 1));
}

#[test]
fn j_alignment_field() {
    for (alignment, number) in [(2, SIZES), (3, 0), (12, 0), (13, 0), (21, 0), (22, SIZES), (255, SIZES)] {
        let mut area = created(64);
        area[7] = alignment;
        assert_eq!(check(&resealed(area), BASE).number, number);
    }
}

/// A byte of data at 2^21, which every alignment allows: 64 behind the base, it has a void of 24 before it;
/// 2 MiB behind the base, there is no room for it.
#[test]
fn j_exponents() {
    for (exponent, number) in [(2, ALIGN), (12, 0), (13, 0), (21, 0), (22, ALIGN), (23, ALIGN)] {
        let mut area = vec![0xa5; 128];
        let base = (1 << 21) - 64;
        create(&mut area, base, true);
        let value = if number == 0 { 64 } else { 0 };
        assert_eq!(add_aligned(&mut area, base, 4, &[9], exponent), Done { number, value, at: 0 });
        if number == 0 {
            assert_eq!(area[24..56], with_zeros("00 00 00 08 18 00 00 00", 32));
            assert_eq!((area[7], check(&area, base).used), (exponent as u8, 72));
        }
    }
    assert_eq!(add_aligned(&mut created(128), 0, 4, &[9], 21), refused(ROOM));
}

/// A list of which 24 bytes are used, to a target base that lies 56 before an address like its own.
#[test]
fn j_relocated() {
    for (alignment, number) in [(13, 0), (21, 0), (22, SIZES)] {
        let mut area = created(64);
        area[7] = alignment;
        let area = resealed(area);
        let value = if number == 0 { 56 } else { 0 };
        let target_base = (5 << 21) + BASE - 56;
        assert_eq!(relocate(&area, BASE, &mut [0xa5; 80], target_base), Done { number, value, at: 0 });
        let short = if number == 0 { ROOM } else { SIZES };
        assert_eq!(relocate(&area, BASE, &mut [0xa5; 79], target_base), refused(short));
    }
}

#[test]
fn k_huge_data_size() {
    let mut area = example_b();
    area[28..32].fill(0xff);
    assert_eq!(check(&resealed(area), BASE).number, ENTRY);
}

#[test]
fn m_no_entries() {
    let wanted = Checked { version: 1, used: 24, total: 64, alignment: 3, ..Checked::default() };
    assert_eq!(check(&created(64), BASE), wanted);
}

#[test]
fn n_order_of_refusals() {
    let mut area = created(64);
    area[5] = 2;
    assert_eq!(add(&mut area, BASE, 1, &[], false), refused(READONLY));
    assert_eq!(check(&area, BASE).number, CHECKSUM);
}
