//! Document 02, request 8, on the model: lists with bad entries byte by byte, and their places worked out by
//! hand. Where a line of bytes has a number before it, that is the offset at which it starts.

use crate::model::*;
use crate::model_certificate::certificate;
use crate::model_tidy::tidy;
use crate::{demand_entry, model09};

const BASE: u64 = 0x1000;

// Lists of 48 used bytes, without has_checksum: the checksum byte is 0.
const HEADER: &str = "0b b1 0f 4a 00 01 18 03 30 00 00 00 40 00 00 00 00 00 00 00 00 00 00 00";
// The same of version 2.
const HEADER_2: &str = "0b b1 0f 4a 00 02 18 03 30 00 00 00 40 00 00 00 00 00 00 00 00 00 00 00";

/// The bytes of the lines, without the offsets, and zeros up to 64.
fn list(lines: &[&str]) -> Vec<u8> {
    let bytes = |line: &&str| line.split(": ").last().unwrap().to_string();
    let text = lines.iter().map(bytes).collect::<Vec<_>>().join(" ");
    let mut area: Vec<u8> =
        text.split_whitespace().map(|byte| u8::from_str_radix(byte, 16).unwrap()).collect();
    area.resize(64, 0);
    area
}

fn both(answer: impl Answer) -> (u32, u32) {
    (answer.number(), answer.at())
}

/// The check's number and place, and that they are what is demanded.
fn checked(lines: &[&str]) -> (u32, u32) {
    let area = list(lines);
    let (number, at) = both(check(&area, BASE));
    assert_eq!(demand_entry::after_call(Some(&area), number, at), Ok(()));
    (number, at)
}

fn checked09(lines: &[&str]) -> (u32, u32) {
    let area = list(lines);
    let (number, at) = both(model09::check(&area, BASE));
    assert_eq!(demand_entry::after_call(Some(&area), number, at), Ok(()));
    (number, at)
}

/// Three entries of 8 bytes each.
const FIRST: &str = "24: 01 00 00 08 00 00 00 00";
const SECOND: &str = "32: 00 00 00 08 00 00 00 00";
const THIRD: &str = "40: 02 00 00 08 00 00 00 00";

#[test]
fn a_good_list() {
    let wanted =
        Checked { number: 0, version: 1, used: 48, total: 64, alignment: 3, live: 2, voids: 1, at: 0 };
    assert_eq!(check(&list(&[HEADER, FIRST, SECOND, THIRD]), BASE), wanted);
}

/// Bad in this way, the first of three, the one in the middle and the last.
#[test]
fn a_wrong_header_size() {
    assert_eq!(checked(&[HEADER, "24: 01 00 00 09 00 00 00 00", SECOND, THIRD]), (ENTRY, 24));
    assert_eq!(checked(&[HEADER, FIRST, "32: 00 00 00 07 00 00 00 00", THIRD]), (ENTRY, 32));
    assert_eq!(checked(&[HEADER, FIRST, SECOND, "40: 02 00 00 00 00 00 00 00"]), (ENTRY, 40));
}

/// 24, 16 and 8 bytes are left: 8 + 17 become 32, 8 + 16 are 24, and 8 + 1 become 16. The sums of the others
/// are 2^32 + 7, 2^32 and 2^32 - 7, which becomes 2^32.
#[test]
fn too_long() {
    assert_eq!(checked(&[HEADER, "24: 01 00 00 08 11 00 00 00", SECOND, THIRD]), (ENTRY, 24));
    assert_eq!(checked(&[HEADER, FIRST, "32: 00 00 00 08 10 00 00 00", THIRD]), (ENTRY, 32));
    assert_eq!(checked(&[HEADER, FIRST, SECOND, "40: 02 00 00 08 01 00 00 00"]), (ENTRY, 40));
    for huge in ["ff ff ff ff", "f8 ff ff ff", "f1 ff ff ff"] {
        assert_eq!(checked(&[HEADER, FIRST, SECOND, &format!("40: 02 00 00 08 {huge}")]), (ENTRY, 40));
        assert_eq!(checked(&[HEADER, &format!("24: 02 00 00 08 {huge}"), SECOND, THIRD]), (ENTRY, 24));
    }
}

/// The last one ends just where the list does, at 24 + 8 + 16 and at 32 + 8 + 8.
#[test]
fn just_long_enough() {
    assert_eq!(checked(&[HEADER, "24: 01 00 00 08 10 00 00 00", SECOND, THIRD]), (0, 0));
    assert_eq!(checked(&[HEADER, FIRST, "32: 00 00 00 08 08 00 00 00", THIRD]), (0, 0));
}

/// 8 + 12 become 24 and 8 + 4 become 16: the first two end at 48, as the list does. The third is too long
/// besides.
#[test]
fn a_void_of_an_odd_size() {
    assert_eq!(checked(&[HEADER, "24: 00 00 00 08 0c 00 00 00", SECOND, THIRD]), (ENTRY, 24));
    assert_eq!(checked(&[HEADER, FIRST, "32: 00 00 00 08 04 00 00 00", THIRD]), (ENTRY, 32));
    assert_eq!(checked(&[HEADER, FIRST, SECOND, "40: 00 00 00 08 01 00 00 00"]), (ENTRY, 40));
    // The same sizes in live entries.
    assert_eq!(checked(&[HEADER, "24: 03 00 00 08 0c 00 00 00", SECOND, THIRD]), (0, 0));
    assert_eq!(checked(&[HEADER, FIRST, "32: 03 00 00 08 04 00 00 00", THIRD]), (0, 0));
}

#[test]
fn the_first_of_several() {
    let (wrong, long) = ("32: 00 00 00 07 00 00 00 00", "40: 02 00 00 08 ff ff ff ff");
    assert_eq!(checked(&[HEADER, FIRST, wrong, long]), (ENTRY, 32));
    assert_eq!(checked(&[HEADER, FIRST, SECOND, long]), (ENTRY, 40));
    // Wrong in all three ways, before both.
    assert_eq!(checked(&[HEADER, "24: 00 00 00 ff ff ff ff ff", wrong, long]), (ENTRY, 24));
}

/// What stands in an entry's data and behind used_size is no entry.
#[test]
fn only_entries_are_judged() {
    let (data, behind) = ("32: 00 00 00 07 ff ff ff ff", "48: 00 00 00 00 f1 ff ff ff");
    assert_eq!(checked(&[HEADER, "24: 01 00 00 08 08 00 00 00", data, THIRD, behind]), (0, 0));
    let bad = "40: 02 00 00 09 00 00 00 00";
    assert_eq!(checked(&[HEADER, "24: 01 00 00 08 08 00 00 00", data, bad, behind]), (ENTRY, 40));
}

/// Bench example K with a right checksum, 5b ^ 03 ^ ff ^ ff ^ ff ^ ff; and with a wrong one.
#[test]
fn with_a_checksum() {
    let entry = "24: 01 00 00 08 ff ff ff ff aa bb cc 00 00 00 00 00";
    let header = |checksum: &str| {
        format!("0b b1 0f 4a {checksum} 01 18 03 28 00 00 00 40 00 00 00 01 00 00 00 00 00 00 00")
    };
    assert_eq!(checked(&[&header("58"), entry]), (ENTRY, 24));
    assert_eq!(checked(&[&header("5b"), entry]), (CHECKSUM, 0));
}

/// A later version allows a header of 16 bytes, here with 8 bytes before the data, and none of 7.
#[test]
fn a_later_version() {
    let (longer, rest) = ("24: 01 00 00 10 00 00 00 00", "32: 00 00 00 07 ff ff ff ff");
    assert_eq!(checked(&[HEADER_2, longer, rest, THIRD]), (0, 0));
    assert_eq!(checked(&[HEADER, longer, rest, THIRD]), (ENTRY, 24));
    assert_eq!(checked(&[HEADER_2, longer, rest, "40: 02 00 00 07 00 00 00 00"]), (ENTRY, 40));
    // A header of 9 bytes takes 16 with one byte of data, and with 7; with 8 it takes 24.
    assert_eq!(checked(&[HEADER_2, FIRST, "32: 03 00 00 09 07 00 00 00", THIRD]), (0, 0));
    assert_eq!(checked(&[HEADER_2, FIRST, "32: 03 00 00 09 08 00 00 00", THIRD]), (ENTRY, 32));
}

/// 8 bytes are left, and the header would have 16, or 9.
#[test]
fn a_header_past_the_end() {
    for hdr_size in ["10", "09", "ff"] {
        let last = format!("40: 02 00 00 {hdr_size} 00 00 00 00");
        assert_eq!(checked(&[HEADER_2, FIRST, SECOND, &last]), (ENTRY, 40));
        assert_eq!(checked(&[HEADER, FIRST, SECOND, &last]), (ENTRY, 40));
    }
}

/// A header of 25 bytes, so that the first entry is at 32.
#[test]
fn a_longer_list_header() {
    let header =
        "0b b1 0f 4a 00 02 19 03 30 00 00 00 40 00 00 00 00 00 00 00 00 00 00 00 00 00 00 00 00 00 00 00";
    assert_eq!(checked(&[header, SECOND, THIRD]), (0, 0));
    assert_eq!(checked(&[header, "32: 00 00 00 07 00 00 00 00", THIRD]), (ENTRY, 32));
    assert_eq!(checked(&[header, SECOND, "40: 02 00 00 08 08 00 00 00"]), (ENTRY, 40));
}

/// Entries at 16 and 24. The bytes of the header but the fifth are ff + d0 + 6e + 01 + 10 + 03 + 20 + 40,
/// that is 2b1, and 2b2 in version 2; those of the entries are added.
#[test]
fn edition_09() {
    let header = |checksum: &str, version: &str| {
        format!("ff d0 6e 00 {checksum} {version} 10 03 20 00 00 00 40 00 00 00")
    };
    let (first, second) = ("16: 01 00 00 08 00 00 00 00", "24: 02 00 00 08 00 00 00 00");
    assert_eq!(checked09(&[&header("c4", "01"), first, second]), (0, 0));
    let bad = "16: 01 00 00 09 00 00 00 00";
    assert_eq!(checked09(&[&header("c5", "01"), bad, second]), (ENTRY, 16));
    assert_eq!(checked09(&[&header("c4", "01"), bad, second]), (CHECKSUM, 0));
    assert_eq!(checked09(&[&header("c5", "01"), first, "24: 02 00 00 08 01 00 00 00"]), (ENTRY, 24));
    assert_eq!(checked09(&[&header("c3", "01"), first, "24: 00 00 00 08 01 00 00 00"]), (ENTRY, 24));
    // Version 2: 9 bytes of a header, which take 16; and a header of 16 with 8 bytes left.
    assert_eq!(checked09(&[&header("c6", "02"), bad, second]), (0, 0));
    assert_eq!(checked09(&[&header("cd", "02"), first, "24: 02 00 00 10 00 00 00 00"]), (ENTRY, 24));
}

/// "Every call that makes the check passes it up", whatever else it would refuse afterwards, and nothing else
/// is said or written.
#[test]
fn every_call() {
    let bad = list(&[HEADER, FIRST, "32: 00 00 00 08 04 00 00 00", THIRD]);
    let (mut area, mut target) = (bad.clone(), [0x5a; 64]);
    let refused = Done { number: ENTRY, value: 0, at: 32 };
    assert_eq!(check(&bad, BASE), Checked { number: ENTRY, at: 32, ..Checked::default() });
    for (tag, n) in [(1, 0), (0, 0), (9, 0), (1, 5)] {
        assert_eq!(find(&bad, BASE, tag, n), Found { number: ENTRY, offset: 0, size: 0, at: 32 });
        assert_eq!(void(&mut area, BASE, tag, n), refused);
    }
    for (tag, length, exponent) in [(1, 0, 3), (0, 0, 3), (6, 1, 2), (1, 0, 22), (1, 99, 3)] {
        let data = vec![1; length];
        assert_eq!(add(&mut area, BASE, tag, &data, true), refused);
        assert_eq!(add_aligned(&mut area, BASE, tag, &data, exponent), refused);
    }
    assert_eq!(tidy(&mut area, BASE), refused);
    assert_eq!(relocate(&bad, BASE, &mut target, BASE), refused);
    assert_eq!(relocate(&bad, BASE, &mut target, u64::MAX), refused);
    assert_eq!(relocate(&bad, BASE, &mut [], BASE), refused);
    let certified = certificate(&bad, BASE, 1, 2);
    assert_eq!((both(certified), certified.pass, certified.reading.to_bits()), ((ENTRY, 32), 0, 0));
    assert_eq!((area, target), (bad, [0x5a; 64]));
}

/// The bytes but the fifth are 2b1 + 01 + 07 + 02 + 08 = 2c3.
#[test]
fn every_call_of_edition_09() {
    let header = "ff d0 6e 00 c3 01 10 03 20 00 00 00 40 00 00 00";
    let bad = list(&[header, "16: 01 00 00 07 00 00 00 00", "24: 02 00 00 08 00 00 00 00"]);
    assert_eq!(model09::check(&bad, BASE), Checked { number: ENTRY, at: 16, ..Checked::default() });
    for tag in [1, 0, 9] {
        assert_eq!(both(model09::find(&bad, BASE, tag, 0)), (ENTRY, 16));
    }
    for target_base in [BASE, u64::MAX] {
        let mut target = [0x5a; 64];
        let refused = Done { number: ENTRY, value: 0, at: 16 };
        assert_eq!(model09::convert(&bad, BASE, &mut target, target_base), refused);
        assert_eq!(target, [0x5a; 64]);
    }
}

/// "Other refusals answer 0 there", and those with a lower number come first.
#[test]
fn lower_refusals() {
    let bad = list(&[HEADER, FIRST, "32: 00 00 00 08 04 00 00 00", THIRD]);
    let with = |offset: usize, byte: u8| {
        let mut area = bad.clone();
        area[offset] = byte;
        area
    };
    assert_eq!(both(check(&bad, BASE + 4)), (AREA, 0));
    assert_eq!(both(check(&bad[..23], BASE)), (SHORT, 0));
    assert_eq!(both(check(&with(0, 0), BASE)), (SIGNATURE, 0));
    assert_eq!(both(check(&with(5, 0), BASE)), (VERSION, 0));
    assert_eq!(both(check(&with(7, 2), BASE)), (SIZES, 0));
    assert_eq!(both(check(&with(4, 1), BASE)), (CHECKSUM, 0));
    // Version 2 is read, where the void is as bad, and not edited.
    assert_eq!(both(check(&with(5, 2), BASE)), (ENTRY, 32));
    assert_eq!(both(tidy(&mut with(5, 2), BASE)), (READONLY, 0));
    assert_eq!(both(add(&mut with(5, 2), BASE, 0, &[], true)), (READONLY, 0));
    // The other edition's calls look no further than the signature; create looks at no list.
    assert_eq!(both(model09::check(&bad, BASE)), (SIGNATURE, 0));
    assert_eq!(both(create(&mut bad.clone(), BASE, true)), (0, 0));
}

/// And so do those with a higher number, on a good list.
#[test]
fn higher_refusals() {
    let good = list(&[HEADER, FIRST, SECOND, THIRD]);
    let mut area = good.clone();
    assert_eq!(both(find(&good, BASE, 0, 0)), (TAG, 0));
    assert_eq!(both(find(&good, BASE, 9, 0)), (NONE, 0));
    assert_eq!(both(add(&mut area, BASE, 6, &[], true)), (SHAPE, 0));
    assert_eq!(both(add_aligned(&mut area, BASE, 1, &[], 22)), (ALIGN, 0));
    assert_eq!(both(add(&mut area, BASE, 1, &[1; 9], true)), (ROOM, 0));
    assert_eq!(both(relocate(&good, BASE, &mut [0; 64], u64::MAX)), (TARGET, 0));
    assert_eq!(both(certificate(&good, BASE, 1, 2)), (18, 0));
    assert_eq!(both(void(&mut area, BASE, 1, 0)), (0, 0));
}
