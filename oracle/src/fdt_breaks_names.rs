//! Breaks of a device tree's names, values and padding.

use crate::fdt_breaks::Kind;
use crate::fdt_breaks_blocks::{with_field, without_strings};
use crate::fdt_breaks_tokens::{cut_at, pick, CUT};
use crate::fdt_rules::Rule;
use crate::fdt_tree::{field, Piece, Tree};
use crate::rng::Rng;

/// The tree with these bytes in the place of a piece.
fn with_raw(tree: &Tree, index: usize, bytes: Vec<u8>) -> Option<Vec<u8>> {
    let mut broken = tree.clone();
    broken.pieces[index] = Piece::Raw(bytes);
    Some(broken.bytes())
}

/// A byte that is not 0.
fn dirt(rng: &mut Rng) -> u8 {
    1 << rng.below(8)
}

/// One padding byte behind a node's name, counted from 1, is not 0; the name is made shorter where it has
/// none such.
fn name_padding(rng: &mut Rng, tree: &mut Tree, which: usize) -> Option<Vec<u8>> {
    let index = pick(rng, tree, Piece::is_begin)?;
    let Piece::Begin(name) = &mut tree.pieces[index] else { return None };
    while name.len() % 4 > 3 - which {
        name.pop();
    }
    let place = 4 + name.len() + which;
    let mut bytes = tree.pieces[index].bytes();
    bytes[place] = dirt(rng);
    with_raw(tree, index, bytes)
}

/// The same behind a value, which is made longer.
fn value_padding(rng: &mut Rng, tree: &mut Tree, which: usize) -> Option<Vec<u8>> {
    let index = pick(rng, tree, Piece::is_property)?;
    let Piece::Property { value, .. } = &mut tree.pieces[index] else { return None };
    while value.is_empty() || value.len() % 4 == 0 || value.len() % 4 > 4 - which {
        value.push(0x33);
    }
    let place = 12 + value.len() + which - 1;
    let mut bytes = tree.pieces[index].bytes();
    bytes[place] = dirt(rng);
    with_raw(tree, index, bytes)
}

/// An empty value whose length is said to be this, worked out from the bytes up to the structure's end.
fn value_length(rng: &mut Rng, tree: &mut Tree, length: impl FnOnce(u32) -> u32) -> Option<Vec<u8>> {
    let index = pick(rng, tree, Piece::is_property)?;
    let Piece::Property { value, .. } = &mut tree.pieces[index] else { return None };
    value.clear();
    let left = tree.structure().len() - tree.offset_of(index) - 12;
    let mut bytes = tree.pieces[index].bytes();
    bytes[4..8].copy_from_slice(&length(left as u32).to_be_bytes());
    with_raw(tree, index, bytes)
}

/// A length that leads from the value's place back to one before it, in 32 bits.
fn wrapping(rng: &mut Rng, tree: &mut Tree) -> Option<Vec<u8>> {
    let back = rng.range(1, 200) as u32;
    value_length(rng, tree, |_| back.wrapping_neg())
}

/// A property whose name is at this offset of the strings.
fn name_offset(rng: &mut Rng, tree: &mut Tree, offset: u32) -> Option<Vec<u8>> {
    let index = pick(rng, tree, Piece::is_property)?;
    let mut bytes = tree.pieces[index].bytes();
    bytes[8..12].copy_from_slice(&offset.to_be_bytes());
    with_raw(tree, index, bytes)
}

/// A property put in as the root's first, by its bytes.
fn with_property(tree: &Tree, name: u32) -> Option<Vec<u8>> {
    let mut broken = tree.clone();
    let root = broken.pieces.iter().position(Piece::is_begin)?;
    broken.pieces.insert(root + 1, Piece::Property { name, value: vec![1, 2, 3] });
    Some(broken.bytes())
}

/// The strings without the zero byte that ends a name; one stands right behind them, or none at all.
fn name_not_ended(rng: &mut Rng, tree: &mut Tree, in_data: bool) -> Option<Vec<u8>> {
    let index = pick(rng, tree, Piece::is_property)?;
    tree.strings.truncate(tree.last_name()? + 1);
    let offset = tree.strings.len() as u32;
    tree.strings.extend(b"zz\0");
    let Piece::Property { name, .. } = &mut tree.pieces[index] else { return None };
    *name = offset + rng.below(2) as u32;
    if in_data {
        return with_field(tree, field::STRINGS_SIZE, offset + 2);
    }
    tree.rest.clear();
    tree.behind.clear();
    let mut broken = tree.clone();
    broken.strings.pop();
    Some(broken.bytes())
}

/// The structure's size up to a place inside a piece, counted from its start.
fn cut_inside(
    rng: &mut Rng,
    tree: &Tree,
    such: fn(&Piece) -> bool,
    places: fn(&Piece) -> std::ops::Range<usize>,
) -> Option<Vec<u8>> {
    let index = pick(rng, tree, such)?;
    let places: Vec<usize> = places(&tree.pieces[index]).step_by(4).collect();
    if places.is_empty() {
        return None;
    }
    let place = rng.pick(&places);
    cut_at(tree, tree.offset_of(index) + place)
}

/// Up to the zero byte, which is then outside.
fn in_name(piece: &Piece) -> std::ops::Range<usize> {
    match piece {
        Piece::Begin(name) => 4..4 + name.len() + 1,
        _ => 0..0,
    }
}

fn in_value(piece: &Piece) -> std::ops::Range<usize> {
    match piece {
        Piece::Property { value, .. } => 12..12 + value.len(),
        _ => 0..0,
    }
}

const NAME: &[Rule] = &[Rule::NamePadding];
const VALUE: &[Rule] = &[Rule::ValuePadding];
const LENGTH: &[Rule] = &[Rule::ValueInside];
const OFFSET: &[Rule] = &[Rule::NameOffset];

pub const KINDS: [Kind; 29] = [
    ("the root's name", &[Rule::RootName], |rng, it| {
        let mut broken = it.clone();
        let root = broken.pieces.iter().position(Piece::is_begin)?;
        broken.pieces[root] = Piece::Begin(rng.pick(&[&b"/"[..], b"a", b"root", b"\xff"]).to_vec());
        Some(broken.bytes())
    }),
    ("first byte of a name's padding", NAME, |rng, it| name_padding(rng, it, 1)),
    ("second byte of a name's padding", NAME, |rng, it| name_padding(rng, it, 2)),
    ("third byte of a name's padding", NAME, |rng, it| name_padding(rng, it, 3)),
    ("first byte of a value's padding", VALUE, |rng, it| value_padding(rng, it, 1)),
    ("second byte of a value's padding", VALUE, |rng, it| value_padding(rng, it, 2)),
    ("third byte of a value's padding", VALUE, |rng, it| value_padding(rng, it, 3)),
    ("the structure's size inside a node's name", CUT, |rng, it| {
        cut_inside(rng, it, Piece::is_begin, in_name)
    }),
    ("the structure's size inside a property", CUT, |rng, it| {
        cut_inside(rng, it, Piece::is_property, |_| 4..12)
    }),
    ("the structure's size inside a value", CUT, |rng, it| cut_inside(rng, it, Piece::is_property, in_value)),
    ("a value up to the structure's end", &[Rule::EndIsThere, Rule::EndInsideNoNode], |rng, it| {
        value_length(rng, it, |left| left)
    }),
    ("a value 1 over the structure's end", LENGTH, |rng, it| value_length(rng, it, |left| left + 1)),
    ("a value 4 over the structure's end", LENGTH, |rng, it| value_length(rng, it, |left| left + 4)),
    ("a value further over it", LENGTH, |rng, it| {
        let more = rng.range(5, 500) as u32;
        value_length(rng, it, |left| left + more)
    }),
    ("value length 0x7fffffff", LENGTH, |rng, it| value_length(rng, it, |_| 0x7fff_ffff)),
    ("value length 0x80000000", LENGTH, |rng, it| value_length(rng, it, |_| 0x8000_0000)),
    ("value length 0xfffffff4", LENGTH, |rng, it| value_length(rng, it, |_| 0xffff_fff4)),
    ("value length 0xfffffff8", LENGTH, |rng, it| value_length(rng, it, |_| 0xffff_fff8)),
    ("value length 0xfffffffc", LENGTH, |rng, it| value_length(rng, it, |_| 0xffff_fffc)),
    ("value length 0xfffffffd or 0xfffffffe", LENGTH, |rng, it| {
        let length = rng.pick(&[0xffff_fffd, 0xffff_fffe]);
        value_length(rng, it, |_| length)
    }),
    ("value length 0xffffffff", LENGTH, |rng, it| value_length(rng, it, |_| u32::MAX)),
    ("a value length that wraps", LENGTH, wrapping),
    ("a name offset of the strings' size", OFFSET, |rng, it| {
        it.rest.insert(0, 0);
        let size = it.strings.len() as u32;
        name_offset(rng, it, size)
    }),
    ("a name offset of one more", OFFSET, |rng, it| {
        it.rest.splice(0..0, [0, 0]);
        let size = it.strings.len() as u32;
        name_offset(rng, it, size + 1)
    }),
    ("name offset 0xffffffff", OFFSET, |rng, it| name_offset(rng, it, u32::MAX)),
    ("a name offset that wraps", OFFSET, |rng, it| {
        let strings = it.written().header[field::STRINGS];
        let back = rng.range(1, u64::from(strings)) as u32;
        name_offset(rng, it, back.wrapping_neg())
    }),
    ("a name and no strings", OFFSET, |_, it| {
        without_strings(it);
        it.rest = vec![0; 4];
        with_property(it, 0)
    }),
    ("a name ended right behind the strings", &[Rule::NameEnds], |rng, it| name_not_ended(rng, it, true)),
    ("a name not ended in the data", &[Rule::NameEnds], |rng, it| name_not_ended(rng, it, false)),
];
