//! Document 02, request 2, on the model, worked out by hand: "a length under 4 is SHAPE from now on; 4
//! is accepted. Both adds read the new row."

use crate::model::*;

const BASE: u64 = 0x1000;
const DATA: [u8; 5] = [1, 0, 0, 0, 0x5a];

/// A list of 48 bytes with this checksum, alignment and used_size, and these bytes behind the header.
fn list(checksum: u8, alignment: u8, used: u8, entry: &[u8]) -> Vec<u8> {
    let mut area = vec![0x0b, 0xb1, 0x0f, 0x4a, checksum, 1, 24, alignment];
    area.extend_from_slice(&[used, 0, 0, 0, 48, 0, 0, 0, 1, 0, 0, 0, 0, 0, 0, 0]);
    area.extend_from_slice(entry);
    area.resize(48, 0);
    area
}

fn new_list() -> Vec<u8> {
    list(0xcc, 3, 24, &[])
}

#[test]
fn lengths_under_4_are_shape() {
    for length in 0..4 {
        let mut area = new_list();
        let refused = Done { number: SHAPE, value: 0, at: 0 };
        assert_eq!(add(&mut area, BASE, 5, &DATA[..length], true), refused);
        assert_eq!(add_aligned(&mut area, BASE, 5, &DATA[..length], 4), refused);
        assert_eq!(area, new_list());
    }
}

#[test]
fn lengths_4_and_5_are_added() {
    let added = Done { number: 0, value: 32, at: 0 };
    let four = [5, 0, 0, 8, 4, 0, 0, 0, 1, 0, 0, 0];
    let five = [5, 0, 0, 8, 5, 0, 0, 0, 1, 0, 0, 0, 0x5a];
    for (length, entry, checksum) in [(4, &four[..], 0xf4), (5, &five[..], 0xaf)] {
        let mut area = new_list();
        assert_eq!(add(&mut area, BASE, 5, &DATA[..length], true), added);
        assert_eq!(area, list(checksum, 3, 40, entry));
        let mut area = new_list();
        assert_eq!(add_aligned(&mut area, BASE, 5, &DATA[..length], 4), added);
        assert_eq!(area, list(checksum ^ 3 ^ 4, 4, 40, entry));
    }
}

#[test]
fn other_tags_may_carry_less() {
    for tag in [1, 4, 7, 0x101, 0x105] {
        for length in 0..4 {
            assert_eq!(add(&mut new_list(), BASE, tag, &DATA[..length], false).number, 0);
            assert_eq!(add_aligned(&mut new_list(), BASE, tag, &DATA[..length], 4).number, 0);
        }
    }
}

#[test]
fn shape_comes_before_align_and_room() {
    let full = || list(0xfe, 3, 48, &[2, 0, 0, 8, 16]);
    assert_eq!(check(&full(), BASE).number, 0);
    for (length, wanted, wanted_at_22) in [(3, SHAPE, SHAPE), (4, ROOM, ALIGN)] {
        assert_eq!(add(&mut full(), BASE, 5, &DATA[..length], true).number, wanted);
        assert_eq!(add_aligned(&mut full(), BASE, 5, &DATA[..length], 4).number, wanted);
        assert_eq!(add_aligned(&mut full(), BASE, 5, &DATA[..length], 22).number, wanted_at_22);
    }
}

/// "Check and find do not use this table": a list made elsewhere with a shorter one is read.
#[test]
fn a_shorter_one_is_read() {
    let area = list(0xf2, 3, 40, &[5, 0, 0, 8, 3, 0, 0, 0, 1, 2, 3]);
    let wanted =
        Checked { number: 0, version: 1, used: 40, total: 48, alignment: 3, live: 1, voids: 0, at: 0 };
    assert_eq!(check(&area, BASE), wanted);
    assert_eq!(find(&area, BASE, 5, 0), Found { number: 0, offset: 32, size: 3, at: 0 });
}
