//! Device trees as they are put together: the blocks, the gaps before them and what stands behind them.

use crate::model_fdt::{self as model, BEGIN_NODE, END, END_NODE, NOP, PROPERTY};

/// The header's fields, in their order.
pub mod field {
    pub const MAGIC: usize = 0;
    pub const TOTAL: usize = 1;
    pub const STRUCTURE: usize = 2;
    pub const STRINGS: usize = 3;
    pub const RESERVATION: usize = 4;
    pub const VERSION: usize = 5;
    pub const LAST_COMPATIBLE: usize = 6;
    pub const BOOT_CPU: usize = 7;
    pub const STRINGS_SIZE: usize = 8;
    pub const STRUCTURE_SIZE: usize = 9;
}

/// The blocks, in their order.
pub mod block {
    pub const RESERVATION: usize = 0;
    pub const STRUCTURE: usize = 1;
    pub const STRINGS: usize = 2;
}

/// What a structure block is made of; the last kind only where a tree is spoiled.
#[derive(Clone, Debug, PartialEq)]
pub enum Piece {
    Begin(Vec<u8>),
    Property { name: u32, value: Vec<u8> },
    EndNode,
    Nop,
    End,
    Raw(Vec<u8>),
}

fn put_words(bytes: &mut Vec<u8>, words: &[u32]) {
    words.iter().for_each(|word| bytes.extend(word.to_be_bytes()));
}

/// These bytes, and zeros until there is a multiple of 4 of them.
fn put_padded(bytes: &mut Vec<u8>, text: &[u8]) {
    bytes.extend_from_slice(text);
    bytes.extend_from_slice(&[0; 3][..text.len().next_multiple_of(4) - text.len()]);
}

impl Piece {
    pub fn put(&self, bytes: &mut Vec<u8>) {
        match self {
            Piece::Begin(name) => {
                put_words(bytes, &[BEGIN_NODE]);
                put_padded(bytes, &[name, &[0][..]].concat());
            }
            Piece::Property { name, value } => {
                put_words(bytes, &[PROPERTY, value.len() as u32, *name]);
                put_padded(bytes, value);
            }
            Piece::EndNode => put_words(bytes, &[END_NODE]),
            Piece::Nop => put_words(bytes, &[NOP]),
            Piece::End => put_words(bytes, &[END]),
            Piece::Raw(raw) => bytes.extend_from_slice(raw),
        }
    }

    pub fn bytes(&self) -> Vec<u8> {
        let mut bytes = Vec::new();
        self.put(&mut bytes);
        bytes
    }

    pub fn word(word: u32) -> Piece {
        Piece::Raw(word.to_be_bytes().to_vec())
    }

    pub fn is_begin(&self) -> bool {
        matches!(self, Piece::Begin(_))
    }

    pub fn is_property(&self) -> bool {
        matches!(self, Piece::Property { .. })
    }
}

#[derive(Clone, Debug)]
pub struct Tree {
    /// What stands before each block.
    pub gaps: [Vec<u8>; 3],
    pub pairs: Vec<[u8; 16]>,
    pub pieces: Vec<Piece>,
    pub strings: Vec<u8>,
    /// Behind the strings and within totalsize.
    pub rest: Vec<u8>,
    /// Behind totalsize.
    pub behind: Vec<u8>,
    pub boot_cpu: u32,
}

/// A tree's header and what follows it.
pub struct Written {
    pub header: [u32; 10],
    pub body: Vec<u8>,
}

impl Written {
    pub fn bytes(&self) -> Vec<u8> {
        let mut bytes = Vec::with_capacity(model::HEADER + self.body.len());
        put_words(&mut bytes, &self.header);
        bytes.extend_from_slice(&self.body);
        bytes
    }

    /// Where the structure and the strings end.
    pub fn structure_end(&self) -> u32 {
        self.header[field::STRUCTURE] + self.header[field::STRUCTURE_SIZE]
    }

    pub fn strings_end(&self) -> u32 {
        self.header[field::STRINGS] + self.header[field::STRINGS_SIZE]
    }
}

impl Tree {
    /// The blocks right against each other, no pair reserved, nothing behind.
    pub fn plain(pieces: &[Piece], strings: &[u8]) -> Tree {
        Tree {
            gaps: [Vec::new(), Vec::new(), Vec::new()],
            pairs: vec![[0; 16]],
            pieces: pieces.to_vec(),
            strings: strings.to_vec(),
            rest: Vec::new(),
            behind: Vec::new(),
            boot_cpu: 0,
        }
    }

    pub fn structure(&self) -> Vec<u8> {
        let mut bytes = Vec::new();
        self.pieces.iter().for_each(|piece| piece.put(&mut bytes));
        bytes
    }

    /// Where a piece stands, from the structure's start.
    pub fn offset_of(&self, piece: usize) -> usize {
        let mut bytes = Vec::new();
        self.pieces[..piece].iter().for_each(|piece| piece.put(&mut bytes));
        bytes.len()
    }

    /// The blocks in this order, each at a multiple of its number.
    pub fn laid_out(&self, order: [usize; 3], multiples: [usize; 3]) -> Written {
        let blocks = [self.pairs.concat(), self.structure(), self.strings.clone()];
        let mut body = Vec::new();
        let mut places = [0; 3];
        for block in order {
            body.extend(&self.gaps[block]);
            body.resize(
                (model::HEADER + body.len()).next_multiple_of(multiples[block]) - model::HEADER,
                0xee,
            );
            places[block] = (model::HEADER + body.len()) as u32;
            body.extend(&blocks[block]);
        }
        body.extend(&self.rest);
        let total = (model::HEADER + body.len()) as u32;
        body.extend(&self.behind);
        let sizes = blocks.map(|block| block.len() as u32);
        let [reservation, structure, strings] = places;
        let [_, structure_size, strings_size] = sizes;
        let numbers = [model::VERSION, model::LAST_COMPATIBLE, self.boot_cpu];
        let blocks = [model::MAGIC, total, structure, strings, reservation];
        let header = [&blocks[..], &numbers, &[strings_size, structure_size]].concat();
        Written { header: header.try_into().unwrap(), body }
    }

    pub fn written(&self) -> Written {
        self.laid_out([block::RESERVATION, block::STRUCTURE, block::STRINGS], [1; 3])
    }

    pub fn bytes(&self) -> Vec<u8> {
        self.written().bytes()
    }

    /// The highest offset that a property's name can have: that of the last zero byte.
    pub fn last_name(&self) -> Option<usize> {
        self.strings.iter().rposition(|byte| *byte == 0)
    }

    /// How many nodes are open before each piece.
    pub fn nesting(&self) -> Vec<usize> {
        let mut open = 0;
        let mut nesting = Vec::new();
        for piece in &self.pieces {
            nesting.push(open);
            match piece {
                Piece::Begin(_) => open += 1,
                Piece::EndNode => open -= 1,
                _ => {}
            }
        }
        nesting
    }
}
