//! Document 02, request 3, on the model, worked out by hand.

use crate::model::*;
use crate::model_tidy::tidy;

const BASE: u64 = 0x1000;

fn hex(text: &str) -> Vec<u8> {
    text.split_whitespace().map(|byte| u8::from_str_radix(byte, 16).unwrap()).collect()
}

/// These bytes, and then the last byte up to the length.
fn filled(text: &str, last: u8, len: usize) -> Vec<u8> {
    let mut bytes = hex(text);
    bytes.resize(len, last);
    bytes
}

fn ok(value: u32) -> Done {
    Done { number: 0, value, at: 0 }
}

/// The list before is accepted, and a tidy makes it the one after; tidying it again changes nothing.
fn becomes(before: &[u8], after: &[u8], used: u32) {
    let mut area = before.to_vec();
    assert_eq!(check(&area, BASE).number, 0);
    assert_eq!(tidy(&mut area, BASE), ok(used));
    assert_eq!(area, after);
    assert_eq!(tidy(&mut area, BASE), ok(used));
    assert_eq!(area, after);
}

const A: &str = "0b b1 0f 4a bc 01 18 03 18 00 00 00 40 00 00 00 01 00 00 00 00 00 00 00";
const C: &str = "0b b1 0f 4a 8c 01 18 03 28 00 00 00 40 00 00 00 01 00 00 00 00 00 00 00 \
                 00 00 00 08 08 00 00 00";
const D: &str = "0b b1 0f 4a 8e 01 18 03 28 00 00 00 40 00 00 00 01 00 00 00 00 00 00 00 \
                 02 00 00 08 00 00 00 00 00 00 00 08 00 00 00 00";

/// The one void of bench example C is given back, which makes it example A again.
#[test]
fn c_becomes_a() {
    becomes(&filled(C, 0, 64), &filled(A, 0, 64), 24);
}

/// The void of size 0 at the end of bench example D.
#[test]
fn d_gives_its_last_void_back() {
    let after = "0b b1 0f 4a 8e 01 18 03 20 00 00 00 40 00 00 00 01 00 00 00 00 00 00 00 \
                 02 00 00 08 00 00 00 00";
    becomes(&filled(D, 0, 64), &filled(after, 0, 64), 32);
}

/// Sizes 0, 8 and 0 cover 8 + 16 + 8 bytes: one void of 24. Used stays, and so does all behind it.
#[test]
fn three_voids_become_one() {
    let before = "0b b1 0f 4a 32 01 18 03 48 00 00 00 50 00 00 00 01 00 00 00 00 00 00 00 \
                  00 00 00 08 00 00 00 00 \
                  00 00 00 08 08 00 00 00 01 02 03 04 05 06 07 08 \
                  00 00 00 08 00 00 00 00 \
                  01 00 00 08 03 00 00 00 aa bb cc 11 22 33 44 55";
    let after = "0b b1 0f 4a 2a 01 18 03 48 00 00 00 50 00 00 00 01 00 00 00 00 00 00 00 \
                 00 00 00 08 18 00 00 00 00 00 00 00 00 00 00 00 \
                 00 00 00 00 00 00 00 00 00 00 00 00 00 00 00 00 \
                 01 00 00 08 03 00 00 00 aa bb cc 11 22 33 44 55";
    becomes(&filled(before, 0xa5, 83), &filled(after, 0xa5, 83), 72);
}

/// "One void alone counts as a run": its data goes, and the checksum follows. Alignment 6 stays.
#[test]
fn one_void_alone_loses_its_data() {
    let before = "0b b1 0f 4a f1 01 18 06 40 00 00 00 40 00 00 00 01 00 00 00 00 00 00 00 \
                  02 00 00 08 00 00 00 00 \
                  00 00 00 08 08 00 00 00 f0 0f 00 00 00 00 00 01 \
                  03 00 00 08 01 00 00 00 77 00 99 00 00 00 00 00";
    let after = "0b b1 0f 4a 0f 01 18 06 40 00 00 00 40 00 00 00 01 00 00 00 00 00 00 00 \
                 02 00 00 08 00 00 00 00 \
                 00 00 00 08 08 00 00 00 00 00 00 00 00 00 00 00 \
                 03 00 00 08 01 00 00 00 77 00 99 00 00 00 00 00";
    becomes(&hex(before), &hex(after), 64);
    // The same without has_checksum.
    let (mut before, mut after) = (hex(before), hex(after));
    for list in [&mut before, &mut after] {
        list[4] = 0;
        list[16] = 0;
    }
    becomes(&before, &after, 64);
}

/// Runs of 16 + 8 bytes at the start, 8 + 16 in the middle and 8 + 16 at the end; other flags, the
/// reserved word, padding that is not 0 and a tag of three bytes stay.
#[test]
fn runs_at_the_start_in_the_middle_and_at_the_end() {
    let before = "0b b1 0f 4a 70 01 18 03 78 00 00 00 80 00 00 00 03 00 00 80 de ad be ef \
                  00 00 00 08 08 00 00 00 11 00 00 00 00 00 00 00 \
                  00 00 00 08 00 00 00 00 \
                  04 01 00 08 02 00 00 00 c1 c2 c3 c4 c5 c6 c7 c8 \
                  00 00 00 08 00 00 00 00 \
                  00 00 00 08 08 00 00 00 00 00 00 00 00 00 00 22 \
                  ff ff ff 08 00 00 00 00 \
                  00 00 00 08 00 00 00 00 \
                  00 00 00 08 08 00 00 00 33 33 33 33 33 33 33 34";
    let after = "0b b1 0f 4a 54 01 18 03 60 00 00 00 80 00 00 00 03 00 00 80 de ad be ef \
                 00 00 00 08 10 00 00 00 00 00 00 00 00 00 00 00 00 00 00 00 00 00 00 00 \
                 04 01 00 08 02 00 00 00 c1 c2 c3 c4 c5 c6 c7 c8 \
                 00 00 00 08 10 00 00 00 00 00 00 00 00 00 00 00 00 00 00 00 00 00 00 00 \
                 ff ff ff 08 00 00 00 00 \
                 00 00 00 00 00 00 00 00 00 00 00 00 00 00 00 00 00 00 00 00 00 00 00 00";
    becomes(&filled(before, 0xa5, 133), &filled(after, 0xa5, 133), 96);
}

/// Nothing to do: no entries; live entries alone; one void whose data is 0, before a live entry.
#[test]
fn a_tidy_list_stays() {
    becomes(&filled(A, 0, 64), &filled(A, 0, 64), 24);
    becomes(&filled(A, 0x99, 64), &filled(A, 0x99, 64), 24);
    let live = "0b b1 0f 4a 5b 01 18 03 28 00 00 00 40 00 00 00 01 00 00 00 00 00 00 00 \
                01 00 00 08 03 00 00 00 aa bb cc";
    becomes(&filled(live, 0, 64), &filled(live, 0, 64), 40);
    let void_first = "0b b1 0f 4a 9f 01 18 03 30 00 00 00 40 00 00 00 01 00 00 00 00 00 00 00 \
                      00 00 00 08 08 00 00 00 00 00 00 00 00 00 00 00 03 00 00 08 00 00 00 00";
    becomes(&filled(void_first, 0, 64), &filled(void_first, 0, 64), 48);
}

/// Nothing but voids, of 8 + 16 + 8 bytes: used is 24. The bytes behind the old used stay.
#[test]
fn voids_alone_are_given_back() {
    let before = "0b b1 0f 4a 6c 01 18 03 38 00 00 00 40 00 00 00 01 00 00 00 00 00 00 00 \
                  00 00 00 08 00 00 00 00 \
                  00 00 00 08 08 00 00 00 80 00 00 00 00 00 00 70 \
                  00 00 00 08 00 00 00 00";
    let mut after = filled(A, 0, 56);
    after.resize(66, 0xa5);
    becomes(&filled(before, 0xa5, 66), &after, 24);
}

/// Three voids of size 0 do not serve 16 bytes; the one of 16 that they become does. No free byte
/// is behind the list.
#[test]
fn an_add_finds_room_in_what_was_a_run() {
    let live = "01 00 00 08 10 00 00 00 07 07 07 07 07 07 07 07 07 07 07 07 07 07 07 07";
    let list = |checksum: &str, entries: &str| {
        let rest = "01 18 03 48 00 00 00 48 00 00 00 01 00 00 00 00 00 00 00";
        hex(&format!("0b b1 0f 4a {checksum} {rest} {entries} {live}"))
    };
    let before = list("f5", "00 00 00 08 00 00 00 00 00 00 00 08 00 00 00 00 00 00 00 08 00 00 00 00");
    let after = list("e5", "00 00 00 08 10 00 00 00 00 00 00 00 00 00 00 00 00 00 00 00 00 00 00 00");
    let added = list("e7", "02 00 00 08 10 00 00 00 5a 5a 5a 5a 5a 5a 5a 5a 5a 5a 5a 5a 5a 5a 5a 5a");
    assert_eq!(add(&mut before.clone(), BASE, 2, &[0x5a; 16], true).number, ROOM);
    becomes(&before, &after, 72);
    let mut area = after;
    assert_eq!(add(&mut area, BASE, 2, &[0x5a; 16], true), ok(32));
    assert_eq!(area, added);
}

/// What is given back serves an add that may not use voids.
#[test]
fn an_add_finds_room_at_the_end() {
    let before = "0b b1 0f 4a ed 01 18 03 30 00 00 00 30 00 00 00 01 00 00 00 00 00 00 00 \
                  01 00 00 08 00 00 00 00 00 00 00 08 00 00 00 00 00 00 00 08 00 00 00 00";
    let after = "0b b1 0f 4a fd 01 18 03 20 00 00 00 30 00 00 00 01 00 00 00 00 00 00 00 \
                 01 00 00 08 00 00 00 00 00 00 00 00 00 00 00 00 00 00 00 00 00 00 00 00";
    for use_voids in [false, true] {
        assert_eq!(add(&mut hex(before), BASE, 2, &[0x5a; 8], use_voids).number, ROOM);
        becomes(&hex(before), &hex(after), 32);
        assert_eq!(add(&mut hex(after), BASE, 2, &[0x5a; 8], use_voids), ok(40));
    }
}

/// "Checks 1 to 8 apply, 5 included", in their order; a refused tidy changes no byte.
#[test]
fn refusals() {
    let refused_at = |area: &[u8], base: u64, number: u32, at: u32| {
        let mut after = area.to_vec();
        assert_eq!(tidy(&mut after, base), Done { number, value: 0, at });
        assert_eq!(after, area);
    };
    let refused = |area: &[u8], base: u64, number: u32| refused_at(area, base, number, 0);
    let list = filled(D, 0, 64);
    let with = |changes: &[(usize, u8)]| {
        let mut area = list.clone();
        for (offset, byte) in changes {
            area[*offset] = *byte;
        }
        area
    };
    refused(&list, BASE + 4, AREA);
    refused(&list, (1 << 48) - 56, AREA);
    refused(&list[..23], BASE, SHORT);
    refused(&[], BASE, SHORT);
    refused(&with(&[(0, 0), (5, 0)]), BASE, SIGNATURE);
    refused(&with(&[(5, 0), (6, 0)]), BASE, VERSION);
    // Version 2 with a wrong size and so a wrong checksum; with a right one, 8e ^ 01 ^ 02.
    refused(&with(&[(5, 2), (6, 0)]), BASE, READONLY);
    refused(&with(&[(5, 2), (4, 0x8d)]), BASE, READONLY);
    refused(&with(&[(7, 2)]), BASE, SIZES);
    refused(&list[..56], BASE, SIZES);
    refused(&with(&[(4, 0), (36, 4)]), BASE, CHECKSUM);
    refused(&with(&[(16, 0)]), BASE, CHECKSUM);
    // The void's data_size is 4, which 8 bytes do not hold and no void may have: 8e ^ 04. It starts at 32.
    refused_at(&with(&[(36, 4), (4, 0x8a)]), BASE, ENTRY, 32);
}
