//! Breaks of a device tree's reservations.

use crate::fdt_breaks::Kind;
use crate::fdt_breaks_blocks::with_header;
use crate::fdt_rules::Rule;
use crate::fdt_tree::{block, field, Piece, Tree};
use crate::rng::Rng;

/// The reservation offset at this place; the pairs end at once, and zeros follow up to the structure.
fn offset_at(tree: &mut Tree, place: u32) -> Option<Vec<u8>> {
    tree.gaps[block::RESERVATION].clear();
    tree.pairs = vec![[0; 16]];
    tree.gaps[block::STRUCTURE] = vec![0; 16];
    with_header(tree, |header| header[field::RESERVATION] = place)
}

/// The reservation offset so many bytes behind the structure's, and a zero pair there in any case.
fn offset_behind(tree: &mut Tree, count: u32) -> Option<Vec<u8>> {
    tree.rest = vec![0; 64];
    with_header(tree, |header| {
        header[field::RESERVATION] = header[field::STRUCTURE].next_multiple_of(8) + count
    })
}

/// The last pair, which ended the reservations, with these bytes of it zero alone.
fn last_pair(rng: &mut Rng, tree: &mut Tree, zero: std::ops::Range<usize>) -> Option<Vec<u8>> {
    tree.gaps[block::STRUCTURE].clear();
    let mut broken = tree.clone();
    let last = broken.pairs.last_mut()?;
    last.fill(1 << rng.below(8));
    last[zero].fill(0);
    Some(broken.bytes())
}

/// One byte of the last pair is not zero.
fn one_byte(rng: &mut Rng, tree: &mut Tree) -> Option<Vec<u8>> {
    tree.gaps[block::STRUCTURE].clear();
    let mut broken = tree.clone();
    broken.pairs.last_mut()?[rng.below(16) as usize] = 1 << rng.below(8);
    Some(broken.bytes())
}

/// The last pair short of so many bytes; the structure follows.
fn pair_cut(tree: &mut Tree, count: usize) -> Option<Vec<u8>> {
    tree.gaps[block::STRUCTURE].clear();
    let mut broken = tree.clone();
    broken.pairs.pop();
    broken.gaps[block::STRUCTURE] = vec![0; 16 - count];
    Some(broken.bytes())
}

/// No pair ends the reservations before the structure, but these zeros do behind its start.
fn ended_late(tree: &mut Tree, zeros: fn(&mut Tree) -> Option<()>) -> Option<Vec<u8>> {
    zeros(tree)?;
    tree.gaps[block::STRUCTURE].clear();
    let mut broken = tree.clone();
    *broken.pairs.last_mut()? = [0xa5; 16];
    Some(broken.bytes())
}

fn zeros_in_a_value(tree: &mut Tree) -> Option<()> {
    let mut values = tree.pieces.iter_mut().filter_map(|piece| match piece {
        Piece::Property { value, .. } => Some(value),
        _ => None,
    });
    *values.next()? = vec![0; 37];
    Some(())
}

/// Two pairs with 16 zero bytes between their other halves, and no zero pair.
fn between_two_pairs(tree: &mut Tree) -> Option<Vec<u8>> {
    tree.gaps[block::STRUCTURE].clear();
    let mut broken = tree.clone();
    let (mut first, mut second) = ([0; 16], [0; 16]);
    first[..8].fill(0xa5);
    second[8..].fill(0x5a);
    broken.pairs = vec![first, second];
    Some(broken.bytes())
}

const BEHIND_HEADER: &[Rule] = &[Rule::ReservationBehindHeader];
const MULTIPLE: &[Rule] = &[Rule::ReservationMultiple];
const LATE: &[Rule] = &[Rule::ReservationBeforeStructure];
/// Whether zeros further on would end them is left to chance.
const NOT_ENDED: &[Rule] = &[Rule::ReservationEnds, Rule::ReservationBeforeStructure];

pub const KINDS: [Kind; 21] = [
    ("reservation offset 0", BEHIND_HEADER, |_, it| offset_at(it, 0)),
    ("reservation offset 24", BEHIND_HEADER, |_, it| offset_at(it, 24)),
    ("reservation offset 32", BEHIND_HEADER, |_, it| offset_at(it, 32)),
    ("reservation offset 1 over a multiple", MULTIPLE, |_, it| offset_at(it, 41)),
    ("reservation offset 2 over a multiple", MULTIPLE, |_, it| offset_at(it, 42)),
    ("reservation offset 4 over a multiple", MULTIPLE, |_, it| offset_at(it, 44)),
    ("reservation offset another over a multiple", MULTIPLE, |rng, it| {
        let place = 40 + rng.pick(&[3, 5, 6, 7]);
        offset_at(it, place)
    }),
    ("reservation offset the structure's", LATE, |_, it| offset_behind(it, 0)),
    ("reservation offset 8 behind the structure's", LATE, |_, it| offset_behind(it, 8)),
    ("reservation offset 0xfffffff8", NOT_ENDED, |_, it| offset_at(it, 0xffff_fff8)),
    ("no zero pair", NOT_ENDED, |rng, it| last_pair(rng, it, 0..0)),
    ("a zero address alone", &[Rule::BothHalves], |rng, it| last_pair(rng, it, 0..8)),
    ("a zero size alone", &[Rule::BothHalves], |rng, it| last_pair(rng, it, 8..16)),
    ("a last pair with one byte", NOT_ENDED, one_byte),
    ("a last pair short of 4 bytes", NOT_ENDED, |_, it| pair_cut(it, 4)),
    ("a last pair short of 8 bytes", NOT_ENDED, |_, it| pair_cut(it, 8)),
    ("a last pair short of 12 bytes", NOT_ENDED, |_, it| pair_cut(it, 12)),
    ("zeros between two pairs", &[Rule::StepsOf16], |_, it| between_two_pairs(it)),
    ("a zero pair in the structure", LATE, |_, it| ended_late(it, zeros_in_a_value)),
    ("a zero pair behind the structure", LATE, |_, it| {
        ended_late(it, |it| {
            it.gaps[block::STRINGS] = vec![0; 40];
            Some(())
        })
    }),
    ("a zero pair behind totalsize", LATE, |_, it| {
        ended_late(it, |it| {
            it.behind = vec![0; 40];
            Some(())
        })
    }),
];
