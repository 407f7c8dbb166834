//! What stood in the device trees that were accepted, and that each of it must have been seen: document
//! 02, request 6.

use crate::fdt_tree::{block, Piece, Tree};
use crate::model_fdt::DEEPEST;
use std::fmt::Write;

type Holds = fn(&Tree) -> bool;

fn nop_before(tree: &Tree, such: fn(&Piece) -> bool) -> bool {
    tree.pieces.windows(2).any(|two| two[0] == Piece::Nop && such(&two[1]))
}

fn names(tree: &Tree) -> impl Iterator<Item = &Vec<u8>> {
    tree.pieces.iter().filter_map(|piece| match piece {
        Piece::Begin(name) => Some(name),
        _ => None,
    })
}

/// Below the root.
fn has_name(tree: &Tree, such: fn(&[u8]) -> bool) -> bool {
    names(tree).skip(1).any(|name| such(name))
}

fn properties(tree: &Tree) -> impl Iterator<Item = (usize, &Vec<u8>)> {
    tree.pieces.iter().filter_map(|piece| match piece {
        Piece::Property { name, value } => Some((*name as usize, value)),
        _ => None,
    })
}

fn has_padding(tree: &Tree, length: fn(&Piece) -> Option<usize>, padding: usize) -> bool {
    tree.pieces.iter().filter_map(length).any(|length| length.next_multiple_of(4) - length == padding)
}

fn name_length(piece: &Piece) -> Option<usize> {
    match piece {
        Piece::Begin(name) => Some(name.len() + 1),
        _ => None,
    }
}

fn value_length(piece: &Piece) -> Option<usize> {
    match piece {
        Piece::Property { value, .. } => Some(value.len()),
        _ => None,
    }
}

/// Whether two nodes of one name stand side by side.
fn has_equal_siblings(tree: &Tree) -> bool {
    let mut last_named: Vec<Option<&[u8]>> = vec![None];
    let mut open: Vec<&[u8]> = Vec::new();
    for piece in &tree.pieces {
        match piece {
            Piece::Begin(name) => {
                if last_named.last() == Some(&Some(name)) {
                    return true;
                }
                open.push(name);
                last_named.push(None);
            }
            Piece::EndNode => {
                last_named.pop();
                *last_named.last_mut().unwrap() = open.pop();
            }
            _ => {}
        }
    }
    false
}

fn has_equal_properties(tree: &Tree) -> bool {
    let alike = |two: &[Piece]| match two {
        [Piece::Property { name, .. }, Piece::Property { name: next, .. }] => name == next,
        _ => false,
    };
    tree.pieces.windows(2).any(alike)
}

fn has_pair(tree: &Tree, zero: std::ops::Range<usize>) -> bool {
    let others = &tree.pairs[..tree.pairs.len() - 1];
    others.iter().any(|pair| pair[zero.clone()].iter().all(|byte| *byte == 0))
}

fn touches(tree: &Tree) -> bool {
    tree.gaps.iter().all(Vec::is_empty) && tree.rest.is_empty() && tree.behind.is_empty()
}

fn is_dirty(gap: &[u8]) -> bool {
    gap.iter().any(|byte| *byte != 0)
}

const KINDS: [(&str, Holds); 44] = [
    ("the root alone, without members", |it| it.pieces.len() == 3),
    ("nesting of 16", |it| it.nesting().contains(&DEEPEST)),
    ("no NOP", |it| !it.pieces.contains(&Piece::Nop)),
    ("a NOP before the root", |it| it.pieces[0] == Piece::Nop),
    ("a NOP before a property", |it| nop_before(it, Piece::is_property)),
    ("a NOP before a subnode", |it| it.pieces[0] != Piece::Nop && nop_before(it, Piece::is_begin)),
    ("a NOP before END_NODE", |it| nop_before(it, |piece| *piece == Piece::EndNode)),
    ("a NOP before END", |it| nop_before(it, |piece| *piece == Piece::End)),
    ("two NOPs", |it| nop_before(it, |piece| *piece == Piece::Nop)),
    ("an empty name below the root", |it| has_name(it, |name| name.is_empty())),
    ("a name with a slash", |it| has_name(it, |name| name.contains(&b'/'))),
    ("a name of bytes over 0x7f", |it| has_name(it, |name| name.iter().any(|byte| *byte > 0x7f))),
    ("a name over 31 bytes", |it| has_name(it, |name| name.len() > 31)),
    ("equal siblings", has_equal_siblings),
    ("equal properties", has_equal_properties),
    ("an empty property name", |it| properties(it).any(|(name, _)| it.strings[name] == 0)),
    ("it at the strings' last byte", |it| properties(it).any(|(name, _)| name + 1 == it.strings.len())),
    ("a property name that is a tail", |it| {
        properties(it).any(|(name, _)| name > 0 && it.strings[name] != 0 && it.strings[name - 1] != 0)
    }),
    ("strings without a byte", |it| it.strings.is_empty()),
    ("strings that end in no zero byte", |it| it.strings.last().is_some_and(|byte| *byte != 0)),
    ("strings and no property", |it| !it.strings.is_empty() && properties(it).count() == 0),
    ("an empty value", |it| properties(it).any(|(_, value)| value.is_empty())),
    ("a value without padding", |it| {
        properties(it).any(|(_, value)| !value.is_empty() && value.len() % 4 == 0)
    }),
    ("a value with padding of 1", |it| has_padding(it, value_length, 1)),
    ("a value with padding of 2", |it| has_padding(it, value_length, 2)),
    ("a value with padding of 3", |it| has_padding(it, value_length, 3)),
    ("a name without padding", |it| has_padding(it, name_length, 0)),
    ("a name with padding of 1", |it| has_padding(it, name_length, 1)),
    ("a name with padding of 2", |it| has_padding(it, name_length, 2)),
    ("no pair reserved", |it| it.pairs.len() == 1),
    ("more pairs than one", |it| it.pairs.len() > 2),
    ("a pair whose address is zero", |it| has_pair(it, 0..8)),
    ("a pair whose size is zero", |it| has_pair(it, 8..16)),
    ("blocks that touch, and nothing behind", touches),
    ("a gap before the reservations", |it| is_dirty(&it.gaps[block::RESERVATION])),
    ("a gap before the structure", |it| is_dirty(&it.gaps[block::STRUCTURE])),
    ("a gap before the strings", |it| is_dirty(&it.gaps[block::STRINGS])),
    ("a gap of 1 byte before them", |it| it.gaps[block::STRINGS].len() == 1),
    ("bytes behind the strings", |it| is_dirty(&it.rest)),
    ("bytes behind totalsize", |it| is_dirty(&it.behind)),
    ("bytes behind totalsize alone", |it| it.rest.is_empty() && is_dirty(&it.behind)),
    ("empty strings behind a gap", |it| it.strings.is_empty() && !it.gaps[block::STRINGS].is_empty()),
    ("empty strings at totalsize", |it| it.strings.is_empty() && it.rest.is_empty()),
    ("another boot cpu than 0", |it| it.boot_cpu != 0),
];

/// How many of the accepted trees were of each kind.
pub struct Sights([u64; KINDS.len()]);

impl Default for Sights {
    fn default() -> Sights {
        Sights([0; KINDS.len()])
    }
}

impl Sights {
    pub fn count(&mut self, tree: &Tree) {
        for (seen, (_, holds)) in self.0.iter_mut().zip(KINDS) {
            *seen += u64::from(holds(tree));
        }
    }

    pub fn table(&self) -> String {
        let mut table = format!("{:<48}{:>9}", "device trees, accepted, with", "times");
        for ((name, _), seen) in KINDS.iter().zip(self.0) {
            write!(table, "\n{name:<48}{seen:>9}").unwrap();
        }
        table
    }

    /// What no accepted tree had.
    pub fn unseen(&self) -> Vec<String> {
        let never = KINDS.iter().zip(self.0).filter(|(_, seen)| *seen == 0);
        never.map(|((name, _), _)| format!("no device tree was accepted with {name}")).collect()
    }
}
