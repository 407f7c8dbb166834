//! Document 02, request 6, on the model, worked out by hand: one small tree byte by byte, and what the
//! header and the blocks' places may be.

use crate::examples_fdt_structure::tree;
use crate::model::{Found, NONE};
use crate::model_fdt::{check, find, BROKEN};

/// A root with the property `x`, and in it the node `a@1` with the property `y`, whose value is empty.
pub const SMALL: [u8; 116] = [
    0xd0, 0x0d, 0xfe, 0xed, // 0: magic
    0, 0, 0, 116, // 4: totalsize
    0, 0, 0, 56, // 8: structure offset
    0, 0, 0, 112, // 12: strings offset
    0, 0, 0, 40, // 16: reservation offset
    0, 0, 0, 17, // 20: version
    0, 0, 0, 16, // 24: last compatible
    0, 0, 0, 0, // 28: boot cpu
    0, 0, 0, 4, // 32: strings size
    0, 0, 0, 56, // 36: structure size
    0, 0, 0, 0, 0, 0, 0, 0, 0, 0, 0, 0, 0, 0, 0, 0, // 40: the zero pair
    0, 0, 0, 1, // 56: the root
    0, 0, 0, 0, // 60: its empty name, and padding
    0, 0, 0, 3, 0, 0, 0, 3, 0, 0, 0, 0, // 64: a property of 3 bytes, its name at 0
    7, 8, 9, 0, // 76: its value, and padding
    0, 0, 0, 1, // 80: a node
    b'a', b'@', b'1', 0, // 84: its name
    0, 0, 0, 3, 0, 0, 0, 0, 0, 0, 0, 2, // 88: a property of no bytes, its name at 2
    0, 0, 0, 2, // 100: the node's end
    0, 0, 0, 2, // 104: the root's end
    0, 0, 0, 9, // 108: END
    b'x', 0, b'y', 0, // 112: the strings
];

fn put(offset: usize, bytes: &[u8]) -> Vec<u8> {
    let mut data = SMALL.to_vec();
    data[offset..offset + bytes.len()].copy_from_slice(bytes);
    data
}

fn put_word(data: &mut [u8], offset: usize, word: u32) {
    data[offset..offset + 4].copy_from_slice(&word.to_be_bytes());
}

/// The small tree with other numbers in its header.
fn header(fields: &[(usize, u32)]) -> Vec<u8> {
    let mut data = SMALL.to_vec();
    for (offset, word) in fields {
        put_word(&mut data, *offset, *word);
    }
    data
}

/// The small tree with bytes put in, and these numbers in its header.
fn spread(at: usize, bytes: &[u8], fields: &[(usize, u32)]) -> Vec<u8> {
    let mut data = header(fields);
    data.splice(at..at, bytes.iter().copied());
    data
}

fn found(offset: u32, size: u32) -> Found {
    Found { number: 0, offset, size, at: 0 }
}

fn refused(number: u32) -> Found {
    Found { number, offset: 0, size: 0, at: 0 }
}

#[test]
fn the_small_tree() {
    assert_eq!(check(&SMALL), 0);
    assert_eq!(find(&SMALL, b"/", b"x"), found(76, 3));
    assert_eq!(find(&SMALL, b"/a@1", b"y"), found(100, 0));
    assert_eq!(find(&SMALL, b"/", b"y"), refused(NONE));
    assert_eq!(find(&SMALL, b"/a@1", b"x"), refused(NONE));
}

/// "Under 40 bytes is 21"; "totalsize at most the length"; "bytes behind totalsize are not judged".
#[test]
fn lengths() {
    for length in 0..SMALL.len() {
        assert_eq!(check(&SMALL[..length]), BROKEN);
        assert_eq!(find(&SMALL[..length], b"/", b"x"), refused(BROKEN));
        assert_eq!(check(&header(&[(4, length as u32)])[..length]), BROKEN);
    }
    for more in [1, 2, 100] {
        assert_eq!(check(&[&SMALL[..], &vec![0xff; more]].concat()), 0);
    }
    assert_eq!(check(&header(&[(4, 117)])), BROKEN);
    assert_eq!(check(&header(&[(4, 115)])), BROKEN);
    assert_eq!(check(&[&header(&[(4, 118)])[..], &[1, 2]].concat()), 0);
}

/// "Version exactly 17, last compatible exactly 16"; the boot cpu is not judged.
#[test]
fn numbers_of_the_header() {
    for magic in [0xedfe_0dd0, 0, 0xd00d_feec] {
        assert_eq!(check(&header(&[(0, magic)])), BROKEN);
    }
    for version in [0, 16, 18, 0x1100_0000, 0x111] {
        assert_eq!(check(&header(&[(20, version)])), BROKEN);
    }
    for version in [0, 2, 15, 17, 0x1000_0000] {
        assert_eq!(check(&header(&[(24, version)])), BROKEN);
    }
    for cpu in [1, 0xffff_ffff] {
        assert_eq!(check(&header(&[(28, cpu)])), 0);
    }
}

/// "Touching and gaps of any bytes are good", at the offsets' multiples.
#[test]
fn gaps() {
    let moved = |by: u32| [(4, 116 + by), (8, 56 + by), (12, 112 + by), (16, 40 + by)];
    for by in [8, 16] {
        assert_eq!(check(&spread(40, &vec![0xff; by as usize], &moved(by))), 0);
    }
    for by in [1, 2, 4, 12] {
        assert_eq!(check(&spread(40, &vec![0xff; by as usize], &moved(by))), BROKEN);
    }
    let moved = |by: u32| [(4, 116 + by), (8, 56 + by), (12, 112 + by)];
    for by in [4, 8, 20] {
        let data = spread(56, &vec![0xff; by as usize], &moved(by));
        assert_eq!(find(&data, b"/", b"x"), found(76 + by, 3));
    }
    for by in [1, 2, 3, 5] {
        assert_eq!(check(&spread(56, &vec![0xff; by as usize], &moved(by))), BROKEN);
    }
    for by in [1, 2, 3, 4, 5] {
        assert_eq!(check(&spread(112, &vec![0xff; by as usize], &[(4, 116 + by), (12, 112 + by)])), 0);
        assert_eq!(check(&spread(116, &vec![0xff; by as usize], &[(4, 116 + by)])), 0);
    }
}

/// "In the order header, reservation, structure, strings, without overlap, within totalsize."
#[test]
fn order_and_overlap() {
    // Before the header's end, behind the structure's start.
    for reservation in [0, 8, 16, 24, 32, 56, 64] {
        assert_eq!(check(&header(&[(16, reservation)])), BROKEN);
    }
    // The structure with one word before it or less behind it.
    assert_eq!(check(&header(&[(8, 52), (36, 60)])), BROKEN);
    assert_eq!(check(&header(&[(36, 60)])), BROKEN);
    assert_eq!(check(&header(&[(36, 52)])), BROKEN);
    for size in [53, 54, 55, 57, 58, 59, 0, 0xffff_fffc] {
        assert_eq!(check(&header(&[(36, size)])), BROKEN);
    }
    // The strings one byte earlier, so that `x` and `y` are at 1 and 3.
    let mut data = header(&[(12, 111), (32, 5), (72, 1), (96, 3)]);
    assert_eq!(check(&data), BROKEN);
    // With a gap there they may be.
    data.splice(112..112, [0xff]);
    put_word(&mut data, 12, 112);
    put_word(&mut data, 4, 117);
    assert_eq!(check(&data), 0);
    // Longer than totalsize has room for, or by a sum that wraps.
    for size in [5, 0xffff_ffff, 0xffff_ff90] {
        assert_eq!(check(&header(&[(32, size)])), BROKEN);
    }
}

/// "An empty strings block keeps its place (structure end <= strings offset <= totalsize)."
#[test]
fn empty_strings() {
    let data = tree(&[1, 0, 2, 9], &[]);
    assert_eq!(data.len(), 72);
    assert_eq!(check(&data), 0);
    for (strings, number) in [(0, 21), (56, 21), (71, 21), (72, 0), (73, 21), (0xffff_ffff, 21)] {
        let mut data = data.clone();
        put_word(&mut data, 12, strings);
        assert_eq!(check(&data), number);
        // With four bytes more, and totalsize with them.
        data.extend([0xff; 4]);
        put_word(&mut data, 4, 76);
        assert_eq!(check(&data), if (72..=76).contains(&strings) { 0 } else { BROKEN });
    }
}

/// "Reservation pairs stand at 16-byte steps from its offset; the block ends with the first pair whose 16
/// bytes are all 0, at or before the structure offset. A pair with only one half zero does not end it."
#[test]
fn reservations() {
    let pair = |address: u64, size: u64| [address.to_be_bytes(), size.to_be_bytes()].concat();
    let with = |pairs: &[Vec<u8>]| {
        let pairs = pairs.concat();
        let by = pairs.len() as u32;
        spread(40, &pairs, &[(4, 116 + by), (8, 56 + by), (12, 112 + by)])
    };
    // The zero pair follows.
    for pairs in [[pair(1, 2)], [pair(0, 2)], [pair(1, 0)], [pair(u64::MAX, u64::MAX)], [pair(0, 0)]] {
        assert_eq!(check(&with(&pairs)), 0);
    }
    assert_eq!(check(&with(&[pair(1, 0), pair(0, 1), pair(1 << 63, 0)])), 0);
    // Here another takes its place.
    for last in [pair(1, 2), pair(0, 1), pair(1, 0), pair(1 << 56, 0), pair(0, 1 << 56)] {
        assert_eq!(check(&put(40, &last)), BROKEN);
    }
    // 16 zero bytes that are no pair: the offset is 8 before them.
    let mut data = with(&[pair(1, 0)[..8].to_vec(), pair(0, 1)[8..].to_vec()]);
    data.copy_within(56..72, 48);
    data[64..72].fill(1);
    assert_eq!(data[40..48], [0, 0, 0, 0, 0, 0, 0, 1]);
    assert_eq!(check(&data), BROKEN);
    put_word(&mut data, 16, 48);
    assert_eq!(check(&data), 0);
}
