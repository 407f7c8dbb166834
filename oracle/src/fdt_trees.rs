//! Whole device trees from a seed, by the grammar of document 02, request 6.

use crate::fdt_tree::{Piece, Tree};
use crate::model_fdt::DEEPEST;
use crate::rng::Rng;

/// No node gets members any more once there are so many pieces, but for what leads to the deepest.
const MOST_PIECES: usize = 24;

/// What this tree has much or little of.
struct Taste {
    /// A NOP stands before one piece in so many; 0 for none.
    nops: u64,
    /// How many of the names below are used; few make equal siblings.
    names: usize,
    properties: u64,
    subnodes: u64,
    /// The nesting that one node at least has.
    deepest: usize,
}

/// The first ones are like each other on purpose.
const NAMES: [&[u8]; 20] = [
    b"a",
    b"b",
    b"a@1",
    b"ab",
    b"",
    b"a/b",
    b"b@1",
    b"/",
    b"aa",
    b"a@10",
    b"a@",
    b"/a",
    b"a/",
    b"cpus",
    b"cpu@0",
    b"cpu@1",
    b"\xff\x01 .",
    b"@",
    b"a-name-of-31-letters-and-no-more",
    b"memory@80000000",
];

const WORDS: [&[u8]; 14] = [
    b"reg",
    b"x",
    b"y",
    b"",
    b"xy",
    b"#size-cells",
    b"/",
    b"x/y",
    b"model",
    b"a-long-name-of-a-property,with-a-vendor-before-and-more",
    b"linux,phandle",
    b"phandle",
    b"\xfe\x80",
    b"compatible",
];

/// Strings whose last zero byte may have others behind it, or none; and where each word starts.
fn strings(rng: &mut Rng) -> (Vec<u8>, Vec<u32>) {
    let mut strings = Vec::new();
    let mut starts = Vec::new();
    if rng.once_in(10) {
        return (strings, starts);
    }
    for _ in 0..rng.range(1, 5) {
        starts.push(strings.len() as u32);
        strings.extend(rng.pick(&WORDS));
        strings.push(0);
    }
    if rng.once_in(8) {
        strings.extend(b"not ended");
    }
    (strings, starts)
}

fn name(rng: &mut Rng, taste: &Taste) -> Vec<u8> {
    match rng.below(40) {
        0 => (0..rng.small(7)).map(|_| rng.range(1, 255) as u8).collect(),
        _ => rng.pick(&NAMES[..taste.names]).to_vec(),
    }
}

/// Often bytes that could be taken for tokens, or zeros.
pub fn value(rng: &mut Rng) -> Vec<u8> {
    let length = match rng.below(12) {
        0 => rng.range(10, 70),
        1 => 0,
        _ => rng.range(0, 9),
    };
    match rng.below(4) {
        0 => vec![0; length as usize],
        1 => (0..length).map(|index| if index % 4 == 3 { rng.pick(&[1, 2, 3, 4, 9]) } else { 0 }).collect(),
        _ => rng.bytes(length as usize),
    }
}

/// A property whose name is a word, or the tail of one.
fn property(rng: &mut Rng, tree: &Tree, starts: &[u32]) -> Option<Piece> {
    let last = tree.last_name()?;
    let name = match rng.below(4) {
        0 => rng.below(last as u64 + 1) as u32,
        1 => starts[0],
        _ => rng.pick(starts),
    };
    Some(Piece::Property { name, value: value(rng) })
}

/// The pieces of a node; `leads` where the deepest one is to be below it.
fn node(rng: &mut Rng, taste: &Taste, tree: &mut Tree, starts: &[u32], nesting: usize, leads: bool) {
    let room = |tree: &Tree| tree.pieces.len() < MOST_PIECES;
    for _ in 0..rng.range(0, taste.properties) {
        if let Some(property) = property(rng, tree, starts).filter(|_| room(tree)) {
            tree.pieces.push(property);
        }
    }
    let leads = leads && nesting < taste.deepest;
    let subnodes = match nesting < DEEPEST && room(tree) {
        true => rng.range(leads as u64, taste.subnodes.max(1)),
        false => leads as u64,
    };
    let leading = rng.below(subnodes.max(1));
    let mut last = name(rng, taste);
    for index in 0..subnodes {
        if !rng.once_in(3) {
            last = name(rng, taste);
        }
        tree.pieces.push(Piece::Begin(last.clone()));
        node(rng, taste, tree, starts, nesting + 1, leads && index == leading);
        tree.pieces.push(Piece::EndNode);
    }
}

fn taste(rng: &mut Rng) -> Taste {
    Taste {
        nops: rng.pick(&[0, 0, 0, 12, 3, 1]),
        names: rng.pick(&[1, 2, 4, 6, 10, NAMES.len()]),
        properties: rng.range(1, 4),
        subnodes: rng.range(0, 4),
        deepest: rng.pick(&[1, 1, 2, 2, 2, 3, 3, 4, 5, 6, 15, DEEPEST]),
    }
}

/// A pair that does not end the reservations, often with one half zero.
fn pair(rng: &mut Rng) -> [u8; 16] {
    let mut pair: [u8; 16] = rng.bytes(16).try_into().unwrap();
    match rng.below(4) {
        0 => pair[..8].fill(0),
        1 => pair[8..].fill(0),
        2 => {
            pair.fill(0);
            pair[rng.below(16) as usize] = 1 << rng.below(8);
        }
        _ => {}
    }
    pair
}

fn gap(rng: &mut Rng, lengths: &[usize]) -> Vec<u8> {
    let length = rng.pick(lengths);
    if rng.once_in(3) {
        vec![0; length]
    } else {
        rng.bytes(length)
    }
}

fn with_nops(rng: &mut Rng, one_in: u64, pieces: Vec<Piece>) -> Vec<Piece> {
    let mut with = Vec::new();
    for piece in pieces {
        while one_in > 0 && (rng.once_in(one_in) && !rng.once_in(3)) {
            with.push(Piece::Nop);
        }
        with.push(piece);
    }
    with
}

pub fn any(rng: &mut Rng) -> Tree {
    let (strings, starts) = strings(rng);
    let mut tree = Tree::plain(&[Piece::Begin(Vec::new())], &strings);
    let taste = taste(rng);
    node(rng, &taste, &mut tree, &starts, 1, true);
    tree.pieces.extend([Piece::EndNode, Piece::End]);
    tree.pieces = with_nops(rng, taste.nops, tree.pieces);
    let pairs = rng.small(2);
    tree.pairs = (0..pairs).map(|_| pair(rng)).chain([[0; 16]]).collect();
    if rng.once_in(2) {
        tree.gaps = [
            gap(rng, &[0, 0, 8, 16, 24]),
            gap(rng, &[0, 0, 4, 8, 12, 16, 36]),
            gap(rng, &[0, 0, 1, 2, 3, 4, 13, 40]),
        ];
        tree.rest = gap(rng, &[0, 0, 1, 2, 3, 5, 16, 33]);
        tree.behind = gap(rng, &[0, 0, 1, 4, 7, 16, 29]);
    }
    tree.boot_cpu = if rng.once_in(2) { 0 } else { rng.word() as u32 };
    tree
}
