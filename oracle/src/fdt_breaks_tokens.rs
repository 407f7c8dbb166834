//! Breaks of a device tree's tokens: which there are, and in which order.

use crate::fdt_breaks::Kind;
use crate::fdt_breaks_blocks::with_header;
use crate::fdt_rules::Rule;
use crate::fdt_tree::{field, Piece, Tree};
use crate::fdt_trees::value;
use crate::model_fdt::DEEPEST;
use crate::rng::Rng;

/// The tree with other pieces.
fn with_pieces(tree: &Tree, change: impl FnOnce(&mut Vec<Piece>)) -> Option<Vec<u8>> {
    let mut broken = tree.clone();
    change(&mut broken.pieces);
    Some(broken.bytes())
}

/// The index of a piece that is such.
pub fn pick(rng: &mut Rng, tree: &Tree, such: fn(&Piece) -> bool) -> Option<usize> {
    let indices: Vec<usize> = (0..tree.pieces.len()).filter(|index| such(&tree.pieces[*index])).collect();
    (!indices.is_empty()).then(|| rng.pick(&indices))
}

/// A property that may stand somewhere in this tree.
fn some_property(rng: &mut Rng, tree: &Tree) -> Option<Piece> {
    let name = rng.below(tree.last_name()? as u64 + 1) as u32;
    Some(Piece::Property { name, value: value(rng) })
}

fn some_node(rng: &mut Rng, tree: &Tree) -> Vec<Piece> {
    let name = if rng.once_in(2) { Vec::new() } else { b"n".to_vec() };
    let property = if rng.once_in(2) { some_property(rng, tree) } else { None };
    [Piece::Begin(name)].into_iter().chain(property).chain([Piece::EndNode]).collect()
}

/// The pieces here, before or behind the root, with NOPs around them or not.
fn at_the_top(tree: &Tree, pieces: Vec<Piece>, is_first: bool) -> Option<Vec<u8>> {
    with_pieces(tree, |all| {
        let index = if is_first { 0 } else { all.len() - 1 };
        all.splice(index..index, pieces);
    })
}

/// A property behind a subnode of the root, or of another node.
fn property_behind_subnode(rng: &mut Rng, tree: &Tree, of_the_root: bool) -> Option<Vec<u8>> {
    let property = some_property(rng, tree)?;
    let nesting = tree.nesting();
    let ends_subnode = |index: &usize| {
        let is_end = tree.pieces[*index] == Piece::EndNode;
        is_end && if of_the_root { nesting[*index] == 2 } else { nesting[*index] > 2 }
    };
    let ends: Vec<usize> = (0..tree.pieces.len()).filter(ends_subnode).collect();
    if ends.is_empty() {
        return None;
    }
    let index = rng.pick(&ends) + 1;
    with_pieces(tree, |pieces| pieces.insert(index, property))
}

/// Nodes one in the other, put at the end of a node so that the innermost has this nesting.
fn deepen(rng: &mut Rng, tree: &Tree, nesting: usize) -> Option<Vec<Piece>> {
    let end = pick(rng, tree, |piece| *piece == Piece::EndNode)?;
    let more = nesting.checked_sub(tree.nesting()[end])?;
    let mut chain = vec![Piece::Begin(b"d".to_vec()); more];
    chain.resize(2 * more, Piece::EndNode);
    let mut pieces = tree.pieces.clone();
    pieces.splice(end..end, chain);
    Some(pieces)
}

/// The deepest nesting that is good, and more.
fn too_deep(rng: &mut Rng, tree: &mut Tree, nesting: usize) -> Option<Vec<u8>> {
    tree.pieces = deepen(rng, tree, DEEPEST)?;
    let at = tree.nesting().iter().position(|open| *open == DEEPEST)?;
    let more = nesting - DEEPEST;
    let mut chain = vec![Piece::Begin(b"e".to_vec()); more];
    chain.resize(2 * more, Piece::EndNode);
    // The innermost node's end comes last of what it holds.
    let end = at + tree.pieces[at..].iter().position(|piece| *piece == Piece::EndNode)?;
    with_pieces(tree, |pieces| {
        pieces.splice(end..end, chain);
    })
}

/// A word before a piece, where a NOP may stand.
fn with_token(rng: &mut Rng, tree: &Tree, token: u32) -> Option<Vec<u8>> {
    let index = rng.below(tree.pieces.len() as u64) as usize;
    with_pieces(tree, |pieces| pieces.insert(index, Piece::word(token)))
}

/// A token of the tree with other bytes in its place.
fn changed_token(rng: &mut Rng, tree: &Tree, change: impl FnOnce(u32) -> u32) -> Option<Vec<u8>> {
    let index = rng.below(tree.pieces.len() as u64) as usize;
    with_pieces(tree, |pieces| {
        let mut bytes = pieces[index].bytes();
        let token = u32::from_be_bytes(bytes[..4].try_into().unwrap());
        bytes[..4].copy_from_slice(&change(token).to_be_bytes());
        pieces[index] = Piece::Raw(bytes);
    })
}

/// All pieces up to one inside a node, and then END.
fn ended_inside(rng: &mut Rng, tree: &Tree) -> Option<Vec<u8>> {
    let nesting = tree.nesting();
    let inside: Vec<usize> = (0..nesting.len()).filter(|index| nesting[*index] > 0).collect();
    let index = rng.pick(&inside);
    with_pieces(tree, |pieces| {
        pieces.truncate(index);
        pieces.push(Piece::End);
    })
}

/// END before a piece inside a node, and the rest of the tree behind it.
fn end_inserted(rng: &mut Rng, tree: &Tree) -> Option<Vec<u8>> {
    let nesting = tree.nesting();
    let inside: Vec<usize> = (0..nesting.len()).filter(|index| nesting[*index] > 0).collect();
    let index = rng.pick(&inside);
    with_pieces(tree, |pieces| pieces.insert(index, Piece::End))
}

/// One END_NODE taken away.
fn one_end_less(rng: &mut Rng, tree: &Tree) -> Option<Vec<u8>> {
    let end = pick(rng, tree, |piece| *piece == Piece::EndNode)?;
    with_pieces(tree, |pieces| {
        pieces.remove(end);
    })
}

fn behind_end(tree: &Tree, more: &[Piece]) -> Option<Vec<u8>> {
    with_pieces(tree, |pieces| pieces.extend_from_slice(more))
}

/// The structure's size up to this place of a piece; what follows stands behind it, as it did.
pub fn cut_at(tree: &Tree, place: usize) -> Option<Vec<u8>> {
    with_header(tree, |header| header[field::STRUCTURE_SIZE] = place as u32)
}

const TOKEN: &[Rule] = &[Rule::KnownToken];
const FILLS: &[Rule] = &[Rule::EndFills];
const INSIDE: &[Rule] = &[Rule::EndInsideNoNode];
/// END does not fill a structure that is read beyond its end.
pub const CUT: &[Rule] = &[Rule::InsideStructure, Rule::EndFills];

pub const KINDS: [Kind; 37] = [
    ("a property before the root", &[Rule::PropertyInsideNode], |rng, it| {
        let property = some_property(rng, it)?;
        at_the_top(it, vec![property], true)
    }),
    ("a property behind the root", &[Rule::PropertyInsideNode], |rng, it| {
        let property = some_property(rng, it)?;
        at_the_top(it, vec![property], false)
    }),
    ("a property in the place of the root", &[Rule::PropertyInsideNode, Rule::RootIsThere], |rng, it| {
        let property = some_property(rng, it)?;
        with_pieces(it, |pieces| *pieces = vec![property, Piece::End])
    }),
    ("a second root, named as the first", &[Rule::OneRoot], |_, it| {
        at_the_top(it, vec![Piece::Begin(Vec::new()), Piece::EndNode], false)
    }),
    ("a second root, with a name", &[Rule::OneRoot, Rule::RootName], |rng, it| {
        let node = some_node(rng, it);
        at_the_top(it, node, false)
    }),
    ("END_NODE before the root", &[Rule::EndNodeInsideNode], |_, it| {
        at_the_top(it, vec![Piece::EndNode], true)
    }),
    ("END_NODE behind the root", &[Rule::EndNodeInsideNode], |_, it| {
        at_the_top(it, vec![Piece::EndNode], false)
    }),
    ("END and no root", &[Rule::RootIsThere], |_, it| with_pieces(it, |pieces| *pieces = vec![Piece::End])),
    ("NOPs, END and no root", &[Rule::RootIsThere], |_, it| {
        with_pieces(it, |pieces| *pieces = vec![Piece::Nop, Piece::Nop, Piece::End])
    }),
    ("END before the root", &[Rule::RootIsThere, Rule::EndFills], |_, it| {
        at_the_top(it, vec![Piece::End], true)
    }),
    ("a structure without a byte", &[Rule::RootIsThere, Rule::EndIsThere], |_, it| {
        with_pieces(it, |pieces| pieces.clear())
    }),
    ("a structure of NOPs", &[Rule::RootIsThere, Rule::EndIsThere], |_, it| {
        with_pieces(it, |pieces| *pieces = vec![Piece::Nop; 3])
    }),
    ("no END", &[Rule::EndIsThere], |_, it| with_pieces(it, |pieces| pieces.truncate(pieces.len() - 1))),
    ("a NOP and no END", &[Rule::EndIsThere], |_, it| {
        with_pieces(it, |pieces| *pieces.last_mut().unwrap() = Piece::Nop)
    }),
    ("END behind the structure's size", &[Rule::EndIsThere], |_, it| {
        let end = it.structure().len() - 4;
        cut_at(it, end)
    }),
    ("the structure's size up to another token", CUT, |rng, it| {
        let index = rng.below(it.pieces.len() as u64 - 1) as usize;
        let place = it.offset_of(index);
        if place == 0 {
            None
        } else {
            cut_at(it, place)
        }
    }),
    ("one END_NODE missing", INSIDE, |rng, it| {
        // So that no property stands behind a subnode then.
        it.pieces.retain(|piece| !piece.is_property());
        let nested = it.nesting().iter().all(|open| *open < DEEPEST);
        if nested {
            one_end_less(rng, it)
        } else {
            None
        }
    }),
    ("END inside a node", INSIDE, |rng, it| ended_inside(rng, it)),
    ("END inside a node, and more", &[Rule::EndInsideNoNode, Rule::EndFills], |rng, it| {
        end_inserted(rng, it)
    }),
    ("a NOP behind END", FILLS, |_, it| behind_end(it, &[Piece::Nop])),
    ("END behind END", FILLS, |_, it| behind_end(it, &[Piece::End])),
    ("zeros behind END", FILLS, |_, it| behind_end(it, &[Piece::word(0)])),
    ("another tree behind END", FILLS, |_, it| {
        let more = it.pieces.clone();
        behind_end(it, &more)
    }),
    ("token 0", TOKEN, |rng, it| with_token(rng, it, 0)),
    ("token 5", TOKEN, |rng, it| with_token(rng, it, 5)),
    ("token 6, 7 or 8", TOKEN, |rng, it| {
        let token = rng.range(6, 8) as u32;
        with_token(rng, it, token)
    }),
    ("token 10", TOKEN, |rng, it| with_token(rng, it, 10)),
    ("token 0xffffffff", TOKEN, |rng, it| with_token(rng, it, u32::MAX)),
    ("another token", TOKEN, |rng, it| {
        let token = rng.range(11, u64::from(u32::MAX)) as u32;
        with_token(rng, it, token)
    }),
    ("a token known by its low byte alone", &[Rule::WholeToken], |rng, it| {
        let bit = 1 << rng.range(8, 31);
        changed_token(rng, it, |token| token | bit)
    }),
    ("a token with its low byte first", &[Rule::BigEndianTokens], |rng, it| {
        changed_token(rng, it, u32::swap_bytes)
    }),
    ("a property behind a subnode of the root", &[Rule::PropertiesFirst], |rng, it| {
        property_behind_subnode(rng, it, true)
    }),
    ("a property behind another subnode", &[Rule::PropertiesFirst], |rng, it| {
        property_behind_subnode(rng, it, false)
    }),
    ("nesting of 17", &[Rule::Nesting], |rng, it| too_deep(rng, it, 17)),
    ("nesting of 18", &[Rule::Nesting], |rng, it| too_deep(rng, it, 18)),
    ("nesting of 19 to 300", &[Rule::Nesting], |rng, it| {
        let nesting = rng.range(19, 300) as usize;
        too_deep(rng, it, nesting)
    }),
    ("the root not ended", &[Rule::EndInsideNoNode], |_, it| {
        with_pieces(it, |pieces| {
            let end = pieces.iter().rposition(|piece| *piece == Piece::EndNode).unwrap();
            pieces.remove(end);
        })
    }),
];
