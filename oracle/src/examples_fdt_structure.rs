//! Document 02, request 6, on the model, worked out by hand: the structure's tokens, names, values and
//! nesting, and the lookup.

use crate::model::{Found, NONE};
use crate::model_fdt::{check, find, BROKEN};

/// A tree whose structure, at 56, is these words.
pub fn tree(structure: &[u32], strings: &[u8]) -> Vec<u8> {
    let strings_at = 56 + 4 * structure.len() as u32;
    let (size, total) = (strings_at - 56, strings_at + strings.len() as u32);
    let header = [0xd00d_feed, total, 56, strings_at, 40, 17, 16, 0, strings.len() as u32, size];
    let words = header.iter().chain(&[0; 4]).chain(structure);
    [words.flat_map(|word| word.to_be_bytes()).collect(), strings.to_vec()].concat()
}

/// `a` or `b` as a node's name, with its zero byte and padding.
const A: u32 = 0x6100_0000;
const B: u32 = 0x6200_0000;
const STRINGS: &[u8] = b"x\0y\0";

fn numbers(structures: &[&[u32]], number: u32) {
    for structure in structures {
        assert_eq!(check(&tree(structure, STRINGS)), number, "{structure:x?}");
    }
}

fn found(offset: u32, size: u32) -> Found {
    Found { number: 0, offset, size, at: 0 }
}

fn none() -> Found {
    Found { number: NONE, offset: 0, size: 0, at: 0 }
}

#[test]
fn one_root_and_end() {
    numbers(&[&[1, 0, 2, 9]], 0);
    numbers(&[&[], &[9], &[4, 9], &[1, 0, 2], &[1, 0, 2, 4], &[1, 0, 9], &[2, 9], &[1, 0, 2, 2, 9]], BROKEN);
    // A second root, a property at the top, a root with a name.
    numbers(&[&[1, 0, 2, 1, 0, 2, 9], &[3, 0, 0, 1, 0, 2, 9], &[1, 0, 2, 3, 0, 0, 9]], BROKEN);
    numbers(&[&[1, A, 2, 9], &[3, 0, 0, 9]], BROKEN);
    // Something behind END.
    numbers(&[&[1, 0, 2, 9, 4], &[1, 0, 2, 9, 9], &[1, 0, 2, 9, 0], &[1, 0, 2, 9, 1, 0, 2, 9]], BROKEN);
    // END inside a node.
    numbers(&[&[1, 0, 9, 2, 9], &[1, 0, 1, A, 9, 2, 2, 9], &[1, 0, 1, A, 2, 9], &[1, 0, 3, 0, 0, 9]], BROKEN);
}

/// "NOP before any token: the root, a property, a node, END_NODE, END."
#[test]
fn nops() {
    numbers(&[&[4, 1, 0, 4, 4, 3, 0, 0, 4, 1, A, 4, 2, 4, 2, 4, 4, 9]], 0);
    for at in 0..8 {
        let mut row = vec![1, 0, 3, 0, 0, 2, 9];
        row.insert(at, 4);
        // As the second word 4 is a name's padding, as the fifth a name's offset. As the fourth it is a
        // length, and a value of four bytes follows.
        numbers(&[&row], if [1, 4, 7].contains(&at) { BROKEN } else { 0 });
    }
}

#[test]
fn other_tokens() {
    for token in [0, 5, 6, 7, 8, 10, 0x0100_0000, 0x0400_0000, 0x104, 0x8000_0004, 0xffff_ffff] {
        numbers(
            &[&[token, 1, 0, 2, 9], &[1, 0, token, 2, 9], &[1, 0, 2, token, 9], &[1, 0, 2, token]],
            BROKEN,
        );
    }
}

#[test]
fn properties_come_first() {
    numbers(&[&[1, 0, 3, 0, 0, 3, 0, 0, 1, A, 3, 0, 0, 2, 1, A, 2, 2, 9]], 0);
    numbers(&[&[1, 0, 1, A, 2, 3, 0, 0, 2, 9], &[1, 0, 1, A, 2, 4, 3, 0, 0, 2, 9]], BROKEN);
    numbers(&[&[1, 0, 1, A, 1, B, 2, 3, 0, 0, 2, 2, 9]], BROKEN);
    // The next node's own property is no property behind a subnode.
    numbers(&[&[1, 0, 1, A, 2, 1, B, 3, 0, 0, 2, 2, 9]], 0);
}

/// "A name offset equal to the strings size is 21, at the last zero byte it is the empty name, and good."
#[test]
fn property_names() {
    for (name, number) in [(0, 0), (1, 0), (2, 0), (3, 0), (4, 21), (5, 21), (0xffff_ffff, 21)] {
        numbers(&[&[1, 0, 3, 0, name, 2, 9]], number);
    }
    let data = tree(&[1, 0, 3, 0, 3, 2, 9], STRINGS);
    assert_eq!(find(&data, b"/", b""), found(76, 0));
    // Not ended inside the strings, though a zero byte follows them.
    let mut data = tree(&[1, 0, 3, 0, 2, 2, 9], b"x\0y");
    assert_eq!(check(&data), BROKEN);
    data.push(0);
    assert_eq!(check(&data), BROKEN);
    assert_eq!(check(&tree(&[1, 0, 3, 0, 0, 2, 9], b"x\0y")), 0);
    // `y` is the tail of `xy`.
    let data = tree(&[1, 0, 3, 0, 1, 3, 0, 0, 2, 9], b"xy\0");
    assert_eq!(find(&data, b"/", b"y"), found(76, 0));
    assert_eq!(find(&data, b"/", b"xy"), found(88, 0));
}

/// "No sum wraps: a value length of 0xffffffff or 0xfffffff4 is 21."
#[test]
fn values() {
    for length in [4, 5, 8, 9, 12, 0x7fff_ffff, 0x8000_0000, 0xffff_fff4, 0xffff_fffc, 0xffff_ffff] {
        numbers(&[&[1, 0, 3, length, 0, 2, 9]], BROKEN);
    }
    for length in 1..5 {
        let data = tree(&[1, 0, 3, length, 0, 0, 2, 9], STRINGS);
        assert_eq!(find(&data, b"/", b"x"), found(76, length));
    }
    numbers(&[&[1, 0, 3, 1, 0, 0xff00_0000, 2, 9], &[1, 0, 3, 3, 0, 0xffff_ff00, 2, 9]], 0);
    numbers(&[&[1, 0, 3, 4, 0, 0xffff_ffff, 2, 9]], 0);
    // Padding.
    numbers(&[&[1, 0, 3, 1, 0, 0xff01_0000, 2, 9], &[1, 0, 3, 1, 0, 0xff00_0001, 2, 9]], BROKEN);
    numbers(&[&[1, 0, 3, 2, 0, 0xffff_8000, 2, 9], &[1, 0, 3, 3, 0, 0xffff_ff80, 2, 9]], BROKEN);
}

#[test]
fn node_names() {
    // Empty below the root, with slashes, of any bytes, as long as the room up to a zero byte.
    numbers(&[&[1, 0, 1, 0, 2, 2, 9], &[1, 0, 1, 0x2f00_0000, 2, 2, 9], &[1, 0, 1, 0xff01_8000, 2, 2, 9]], 0);
    numbers(&[&[1, 0, 1, 0x6161_6100, 2, 2, 9], &[1, 0, 1, 0x6161_6161, 0, 2, 2, 9]], 0);
    numbers(&[&[1, 0, 1, 0x6161_6161, 2, 2, 9], &[1, 0, 1, 0x6161_6161]], BROKEN);
    // Padding, of the root too.
    numbers(&[&[1, 1, 2, 9], &[1, 0x100, 2, 9], &[1, 0x10000, 2, 9]], BROKEN);
    numbers(&[&[1, 0, 1, A + 1, 2, 2, 9], &[1, 0, 1, A + 0x100, 2, 2, 9]], BROKEN);
    numbers(&[&[1, 0, 1, 0x6161_0001, 2, 2, 9], &[1, 0, 1, 0x6161_6161, 1, 2, 2, 9]], BROKEN);
}

/// "The root and 15 below it is good, one more is 21."
#[test]
fn nesting() {
    let nested = |depth: usize| {
        let below = [1, A].repeat(depth - 1);
        [&[1, 0], &below[..], &vec![2; depth], &[9]].concat()
    };
    for depth in 1..40 {
        numbers(&[&nested(depth)], if depth <= 16 { 0 } else { BROKEN });
    }
    // Many beside each other are none in each other.
    let flat = [&[1, 0], &[1, A, 2].repeat(1000)[..], &[2, 9]].concat();
    numbers(&[&flat], 0);
}

/// "Of a{x} a{y}, y under `/a` is the second's."
#[test]
fn equal_siblings() {
    let data = tree(&[1, 0, 1, A, 3, 1, 0, B, 2, 1, A, 3, 1, 2, B, 2, 2, 9], STRINGS);
    assert_eq!(find(&data, b"/a", b"x"), found(84, 1));
    assert_eq!(find(&data, b"/a", b"y"), found(112, 1));
    // The first a has no b, the second one's b has no y, the third one's has.
    let b_with = |name: u32| [1, B, 3, 0, name, 2];
    let second = [&[1, A], &b_with(0)[..], &[2]].concat();
    let third = [&[1, A], &b_with(2)[..], &[2]].concat();
    let data = tree(&[&[1, 0, 1, A, 2], &second[..], &third, &third, &[2, 9]].concat(), STRINGS);
    // 56 + 4 * (5 + 9 + 2 + 5)
    assert_eq!(find(&data, b"/a/b", b"y"), found(140, 0));
    // Equal properties: the first.
    let data = tree(&[1, 0, 3, 1, 0, A, 3, 1, 0, B, 2, 9], STRINGS);
    assert_eq!(find(&data, b"/", b"x"), found(76, 1));
}

/// "``, `a`, `//`, `/a/`, `/a//b` are 13"; "full names with the unit address, bytes compared".
#[test]
fn paths() {
    let data =
        tree(&[1, 0, 3, 0, 0, 1, A, 3, 0, 0, 1, B, 3, 0, 0, 2, 2, 1, 0x6140_3100, 3, 0, 0, 2, 2, 9], STRINGS);
    assert_eq!(find(&data, b"/", b"x"), found(76, 0));
    assert_eq!(find(&data, b"/a", b"x"), found(96, 0));
    assert_eq!(find(&data, b"/a/b", b"x"), found(116, 0));
    assert_eq!(find(&data, b"/a@1", b"x"), found(144, 0));
    let others: [&[u8]; 17] = [
        b"", b"a", b"//", b"/a/", b"/a//b", b"//a", b"a/b", b"/b", b"/a@", b"/a@11", b"/A", b"/a\0",
        b"/a\0b", b"\0", b"/\0", b"/a/b/", b"/a/b/b",
    ];
    for path in others {
        assert_eq!(find(&data, path, b"x"), none(), "{path:?}");
    }
    for name in [&b"y"[..], b"", b"x\0", b"xx", b"x\0y"] {
        assert_eq!(find(&data, b"/a", name), none(), "{name:?}");
    }
    // 21 comes first.
    let mut data = data;
    data[0] = 0;
    assert_eq!(find(&data, b"", b"").number, BROKEN);
    assert_eq!(find(&data, b"/", b"x").number, BROKEN);
}

/// "Nodes with an empty or slashed name, and all below, cannot be reached"; a path has 15 names at most.
#[test]
fn out_of_reach() {
    let slashed = 0x612f_6200;
    let data = tree(
        &[1, 0, 1, slashed, 3, 0, 0, 1, A, 3, 0, 0, 2, 2, 1, 0, 3, 0, 0, 1, A, 3, 0, 0, 2, 2, 2, 9],
        STRINGS,
    );
    assert_eq!(check(&data), 0);
    for path in [&b"/a/b"[..], b"/a/b/a", b"//", b"//a", b"/", b"/a", b"/b"] {
        assert_eq!(find(&data, path, b"x"), none(), "{path:?}");
    }
    let deepest = [&[1, 0], &[1, A].repeat(15)[..], &[3, 0, 0], &[2; 16], &[9]].concat();
    let data = tree(&deepest, STRINGS);
    // 56 + 4 * (2 + 30 + 3)
    assert_eq!(find(&data, &b"/a".repeat(15), b"x"), found(196, 0));
    for names in [1, 14, 16, 17, 100] {
        assert_eq!(find(&data, &b"/a".repeat(names), b"x"), none());
    }
}
