//! Breaks of a device tree's header and of its blocks' places, but for the reservations.

use crate::fdt_breaks::Kind;
use crate::fdt_rules::Rule;
use crate::fdt_tree::{block, field, Piece, Tree, Written};
use crate::model_fdt::{HEADER, LAST_COMPATIBLE, MAGIC, VERSION};
use crate::rng::Rng;

/// The tree with another header.
pub fn with_header(tree: &Tree, change: impl FnOnce(&mut [u32; 10])) -> Option<Vec<u8>> {
    let mut written = tree.written();
    change(&mut written.header);
    Some(written.bytes())
}

pub fn with_field(tree: &Tree, field: usize, value: u32) -> Option<Vec<u8>> {
    with_header(tree, |header| header[field] = value)
}

/// A number that is not this one, and often like it.
fn another(rng: &mut Rng, number: u32) -> u32 {
    match rng.below(4) {
        0 => number.swap_bytes(),
        1 => number ^ 1 << rng.below(32),
        2 => number + (1 << rng.range(8, 24)),
        _ => !number,
    }
}

/// Fewer than 40 bytes, whatever totalsize says.
fn under_40(rng: &mut Rng, tree: &mut Tree) -> Option<Vec<u8>> {
    let length = rng.below(HEADER as u64) as usize;
    let total = if rng.once_in(2) { length as u32 } else { tree.written().header[field::TOTAL] };
    let mut bytes = with_field(tree, field::TOTAL, total)?;
    bytes.truncate(length);
    Some(bytes)
}

/// The data ends so many bytes before totalsize, and not before the strings do.
fn cut_before_total(tree: &mut Tree, count: usize) -> Option<Vec<u8>> {
    tree.rest = vec![0x77; count];
    tree.behind.clear();
    let mut bytes = tree.bytes();
    bytes.truncate(bytes.len() - count);
    Some(bytes)
}

/// Totalsize is so many bytes less than where the strings end.
fn total_before_strings_end(tree: &Tree, count: u32) -> Option<Vec<u8>> {
    let end = tree.written().strings_end();
    with_field(tree, field::TOTAL, end - count)
}

/// The strings' size with so many bytes more than totalsize has for them.
fn strings_over_total(tree: &Tree, count: u32) -> Option<Vec<u8>> {
    with_header(tree, |header| {
        header[field::STRINGS_SIZE] = header[field::TOTAL] - header[field::STRINGS] + count
    })
}

/// A size that, added to the block's offset in 32 bits, gives a number up to `end`.
fn wrapped(rng: &mut Rng, offset: u32, end: u32, multiple: u32) -> u32 {
    let sum = rng.below(u64::from(end) + 1) as u32 / multiple * multiple;
    sum.wrapping_sub(offset)
}

fn strings_wrapped(rng: &mut Rng, tree: &mut Tree) -> Option<Vec<u8>> {
    let header = tree.written().header;
    let size = wrapped(rng, header[field::STRINGS], header[field::TOTAL].min(header[field::STRINGS] - 1), 1);
    with_field(tree, field::STRINGS_SIZE, size)
}

fn structure_wrapped(rng: &mut Rng, tree: &mut Tree) -> Option<Vec<u8>> {
    let start = tree.written().header[field::STRUCTURE];
    let size = wrapped(rng, start, start - 4, 4);
    with_field(tree, field::STRUCTURE_SIZE, size)
}

/// Leaves the strings without a byte, and so the tree without properties.
pub fn without_strings(tree: &mut Tree) {
    tree.strings.clear();
    tree.pieces.retain(|piece| !piece.is_property());
}

/// An empty strings block at this place.
fn empty_strings_at(tree: &mut Tree, place: fn(&Written) -> u32) -> Option<Vec<u8>> {
    without_strings(tree);
    let place = place(&tree.written());
    with_field(tree, field::STRINGS, place)
}

/// The strings begin so many bytes before the structure ends, with its last bytes; each name is as it was.
fn overlapping(tree: &mut Tree, count: u32) -> Option<Vec<u8>> {
    tree.gaps[block::STRINGS].clear();
    let mut broken = tree.clone();
    for piece in &mut broken.pieces {
        if let Piece::Property { name, .. } = piece {
            *name += count;
        }
    }
    with_header(&broken, |header| {
        header[field::STRINGS] -= count;
        header[field::STRINGS_SIZE] += count;
    })
}

/// The blocks in another order.
fn ordered(tree: &Tree, order: [usize; 3]) -> Option<Vec<u8>> {
    Some(tree.laid_out(order, [8, 4, 1]).bytes())
}

/// The structure stands so many bytes behind a multiple of 4.
fn structure_shifted(tree: &Tree, count: usize) -> Option<Vec<u8>> {
    let mut broken = tree.clone();
    let gap = &mut broken.gaps[block::STRUCTURE];
    gap.resize(gap.len() + count, 0x5a);
    Some(broken.bytes())
}

/// The structure's size, longer or shorter, with room behind it.
fn resized(tree: &mut Tree, by: i32) -> Option<Vec<u8>> {
    tree.gaps[block::STRINGS] = vec![0; 8];
    with_header(tree, |header| {
        header[field::STRUCTURE_SIZE] = header[field::STRUCTURE_SIZE].wrapping_add_signed(by)
    })
}

const OVER_STRINGS: &[Rule] = &[Rule::StructureBeforeStrings];
const OVER_TOTAL: &[Rule] = &[Rule::StringsInTotal];
/// END stands at a multiple of 4, so that it never fills another size.
const SIZE: &[Rule] = &[Rule::SizeMultiple, Rule::EndFills, Rule::InsideStructure];

const RESERVATION: usize = block::RESERVATION;
const STRUCTURE: usize = block::STRUCTURE;
const STRINGS: usize = block::STRINGS;

pub const KINDS: [Kind; 44] = [
    ("under 40 bytes", &[Rule::HeaderInData], under_40),
    ("magic", &[Rule::Magic], |rng, it| {
        let magic = another(rng, MAGIC);
        with_field(it, field::MAGIC, magic)
    }),
    ("version 16", &[Rule::Version], |_, it| with_field(it, field::VERSION, 16)),
    ("version 18", &[Rule::Version], |_, it| with_field(it, field::VERSION, 18)),
    ("another version", &[Rule::Version], |rng, it| {
        let version = another(rng, VERSION);
        with_field(it, field::VERSION, version)
    }),
    ("last compatible 15", &[Rule::LastCompatible], |_, it| with_field(it, field::LAST_COMPATIBLE, 15)),
    ("last compatible 17", &[Rule::LastCompatible], |_, it| with_field(it, field::LAST_COMPATIBLE, 17)),
    ("another last compatible", &[Rule::LastCompatible], |rng, it| {
        let version = another(rng, LAST_COMPATIBLE);
        with_field(it, field::LAST_COMPATIBLE, version)
    }),
    ("data one byte under totalsize", &[Rule::TotalInData], |_, it| cut_before_total(it, 1)),
    ("data more bytes under totalsize", &[Rule::TotalInData], |rng, it| {
        let count = rng.range(2, 60) as usize;
        cut_before_total(it, count)
    }),
    ("totalsize 0xffffffff", &[Rule::TotalInData], |_, it| with_field(it, field::TOTAL, u32::MAX)),
    ("totalsize one byte under the strings", OVER_TOTAL, |_, it| total_before_strings_end(it, 1)),
    ("totalsize more bytes under the strings", OVER_TOTAL, |rng, it| {
        let count = rng.range(2, u64::from(it.written().strings_end())) as u32;
        total_before_strings_end(it, count)
    }),
    ("strings one byte over totalsize", OVER_TOTAL, |_, it| strings_over_total(it, 1)),
    ("strings up to the data's end", OVER_TOTAL, |_, it| {
        it.behind = vec![0; 3];
        strings_over_total(it, 3)
    }),
    ("strings of 0xffffffff bytes", OVER_TOTAL, |_, it| with_field(it, field::STRINGS_SIZE, u32::MAX)),
    ("strings whose end wraps", OVER_TOTAL, strings_wrapped),
    ("empty strings one byte behind totalsize", OVER_TOTAL, |_, it| {
        it.behind = vec![0; 3];
        empty_strings_at(it, |is| is.header[field::TOTAL] + 1)
    }),
    ("empty strings at 0xffffffff", OVER_TOTAL, |_, it| empty_strings_at(it, |_| u32::MAX)),
    ("empty strings one byte in the structure", OVER_STRINGS, |_, it| {
        empty_strings_at(it, |is| is.structure_end() - 1)
    }),
    ("empty strings where the structure starts", OVER_STRINGS, |_, it| {
        empty_strings_at(it, |is| is.header[field::STRUCTURE])
    }),
    ("empty strings where the header ends", OVER_STRINGS, |_, it| empty_strings_at(it, |_| HEADER as u32)),
    ("empty strings at 0", OVER_STRINGS, |_, it| empty_strings_at(it, |_| 0)),
    ("strings over the structure by 1", OVER_STRINGS, |_, it| overlapping(it, 1)),
    ("strings over the structure by 2", OVER_STRINGS, |_, it| overlapping(it, 2)),
    ("strings over the structure by 4", OVER_STRINGS, |_, it| overlapping(it, 4)),
    ("strings over the structure by 8", OVER_STRINGS, |_, it| overlapping(it, 8)),
    ("order: strings, structure", OVER_STRINGS, |_, it| ordered(it, [RESERVATION, STRINGS, STRUCTURE])),
    ("order: strings first", OVER_STRINGS, |_, it| ordered(it, [STRINGS, RESERVATION, STRUCTURE])),
    ("order: structure first", &[Rule::ReservationBeforeStructure], |_, it| {
        ordered(it, [STRUCTURE, RESERVATION, STRINGS])
    }),
    ("order: reservations last", &[Rule::ReservationBeforeStructure], |_, it| {
        ordered(it, [STRUCTURE, STRINGS, RESERVATION])
    }),
    (
        "order: the other way round",
        &[Rule::ReservationBeforeStructure, Rule::StructureBeforeStrings],
        |_, it| ordered(it, [STRINGS, STRUCTURE, RESERVATION]),
    ),
    ("structure offset 1 over a multiple", &[Rule::StructureMultiple], |_, it| structure_shifted(it, 1)),
    ("structure offset 2 over a multiple", &[Rule::StructureMultiple], |_, it| structure_shifted(it, 2)),
    ("structure offset 3 over a multiple", &[Rule::StructureMultiple], |_, it| structure_shifted(it, 3)),
    ("structure size 1 over a multiple", SIZE, |_, it| resized(it, 1)),
    ("structure size 2 over a multiple", SIZE, |_, it| resized(it, 2)),
    ("structure size 3 over a multiple", SIZE, |_, it| resized(it, 3)),
    ("structure size 1 under a multiple", SIZE, |_, it| resized(it, -1)),
    ("structure size 3 under a multiple", SIZE, |_, it| resized(it, -3)),
    ("structure size 4 over the structure", &[Rule::EndFills], |_, it| resized(it, 4)),
    ("structure size up to the strings", &[Rule::EndFills], |_, it| resized(it, 8)),
    ("structure size 0xfffffffc", &[Rule::StructureBeforeStrings, Rule::EndFills], |_, it| {
        with_field(it, field::STRUCTURE_SIZE, 0xffff_fffc)
    }),
    ("structure whose end wraps", &[Rule::StructureBeforeStrings, Rule::EndFills], structure_wrapped),
];
