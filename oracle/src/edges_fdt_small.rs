//! Small device trees in every way, on every run: every length that a tree is cut to, every byte with every
//! value, any two words of the header and of the structure with numbers that matter, and every row of up
//! to eight tokens: document 02, request 6.

use crate::calls_fdt::Examined;
use crate::compare::Bench;
use crate::edges_fdt::expect;
use oracle::fdt_tree::{field, Piece, Tree};
use oracle::model_fdt::{BROKEN, HEADER};

/// No row of tokens that is made in every way has more than these.
const LONGEST_ROW: u32 = 8;

pub fn begin(name: &[u8]) -> Piece {
    Piece::Begin(name.to_vec())
}

pub fn property(name: u32, value: &[u8]) -> Piece {
    Piece::Property { name, value: value.to_vec() }
}

/// A root, two properties, a node and its property; `x` is at 0 of the strings, `yx` at 2, `` at 1.
pub fn small() -> Tree {
    let pieces = [
        begin(b""),
        property(0, &[1, 2, 3]),
        property(2, &[]),
        begin(b"ab"),
        property(1, &[0, 0, 0, 9, 7]),
        Piece::EndNode,
        Piece::EndNode,
        Piece::End,
    ];
    Tree::plain(&pieces, b"x\0yx\0")
}

/// The same with NOPs, gaps, a pair and bytes behind everything.
fn roomy() -> Tree {
    let mut tree = small();
    for index in [7, 6, 5, 4, 3, 1, 0] {
        tree.pieces.insert(index, Piece::Nop);
    }
    tree.pairs.insert(0, [0, 0, 0, 0, 0, 0, 0, 0, 0, 0, 0, 0, 0, 0, 0, 1]);
    tree.gaps = [vec![0xa5; 8], vec![0x5a; 4], vec![0xc3; 3]];
    tree.rest = vec![0x3c; 2];
    tree.behind = vec![0x99; 5];
    tree
}

/// The root alone and no strings: as short as a tree can be.
fn shortest() -> Tree {
    Tree::plain(&[begin(b""), Piece::EndNode, Piece::End], &[])
}

fn put_word(data: &mut [u8], index: usize, word: u32) {
    data[4 * index..4 * index + 4].copy_from_slice(&word.to_be_bytes());
}

/// Numbers that a header's field may be mistaken for.
fn header_words(tree: &Tree) -> Vec<u32> {
    let written = tree.written();
    let around =
        |number: u32| [number - 1, number, number + 1, number + 4, number.wrapping_sub(4), number + 8];
    let places =
        [field::TOTAL, field::STRUCTURE, field::STRINGS, field::RESERVATION].map(|at| written.header[at]);
    let ends = [written.structure_end(), written.strings_end(), tree.bytes().len() as u32];
    let mut words: Vec<u32> = places.into_iter().chain(ends).flat_map(around).collect();
    words.extend([0, 1, 2, 3, 4, 8, 15, 16, 17, 18, 24, 28, 32, 36, 39]);
    words.extend([0x7fff_ffff, 0x8000_0000, 0xffff_fff8, 0xffff_fffc, 0xffff_ffff]);
    words.extend(written.header);
    words.sort();
    words.dedup();
    words
}

impl Bench {
    pub fn edges_fdt_small(&mut self) -> Result<(), String> {
        for tree in [shortest(), small(), roomy()] {
            self.each_length(&tree)?;
            self.each_byte(&tree)?;
            self.any_two_fields(&tree)?;
        }
        self.any_two_words(&small())?;
        self.each_row()
    }

    /// A check, and a lookup of `x` in the root.
    fn both(&mut self, data: &[u8]) -> Result<u32, String> {
        let tree = Examined::new(data);
        self.fdt_find(&tree, b"/", b"x")?;
        self.fdt_check(&tree)
    }

    /// The tree cut to every length, with totalsize as it was and as what is left; and longer ones.
    fn each_length(&mut self, tree: &Tree) -> Result<(), String> {
        let data = tree.bytes();
        let total = tree.written().header[field::TOTAL] as usize;
        let strings_end = tree.written().strings_end() as usize;
        for length in 0..=data.len() {
            let number = if length < total { BROKEN } else { 0 };
            expect(self.both(&data[..length])?, number, &data[..length])?;
            let mut all = data.clone();
            put_word(&mut all, field::TOTAL, length as u32);
            let number = if length < strings_end { BROKEN } else { 0 };
            expect(self.both(&all)?, number, &all)?;
            all.truncate(length);
            expect(self.both(&all)?, number, &all)?;
        }
        for more in 1..=HEADER {
            let longer = [&data[..], &vec![0xff; more]].concat();
            expect(self.both(&longer)?, 0, &longer)?;
        }
        Ok(())
    }

    fn each_byte(&mut self, tree: &Tree) -> Result<(), String> {
        let mut data = tree.bytes();
        for place in 0..data.len() {
            let old = data[place];
            for byte in 0..=255 {
                data[place] = byte;
                self.both(&data)?;
            }
            data[place] = old;
        }
        Ok(())
    }

    fn any_two_fields(&mut self, tree: &Tree) -> Result<(), String> {
        let good = tree.bytes();
        let words = header_words(tree);
        for one in 0..10 {
            for other in one + 1..10 {
                let mut data = good.clone();
                for word in &words {
                    put_word(&mut data, one, *word);
                    for word in &words {
                        put_word(&mut data, other, *word);
                        self.fdt_check(&Examined::new(&data))?;
                    }
                }
            }
        }
        Ok(())
    }

    /// The structure's words, any two of them.
    fn any_two_words(&mut self, tree: &Tree) -> Result<(), String> {
        let written = tree.written();
        let words = written.header[field::STRUCTURE] as usize / 4..written.structure_end() as usize / 4;
        for one in words.clone() {
            for other in one + 1..words.end {
                let mut data = tree.bytes();
                for word in [0, 1, 2, 3, 4, 9, 5, 8, 12, 0xffff_fff4, 0xffff_ffff] {
                    put_word(&mut data, one, word);
                    for word in [0, 1, 2, 3, 4, 9, 5, 8, 12, 0xffff_fff4, 0xffff_ffff] {
                        put_word(&mut data, other, word);
                        self.both(&data)?;
                    }
                }
            }
        }
        Ok(())
    }

    /// Rows of NOPs, nodes with and without a name, properties and ends.
    fn each_row(&mut self) -> Result<(), String> {
        let letters = [Piece::Nop, begin(b""), begin(b"a"), property(0, &[5]), Piece::EndNode, Piece::End];
        for length in 0..=LONGEST_ROW {
            for mut index in 0..letters.len().pow(length) {
                let mut pieces = Vec::with_capacity(length as usize);
                for _ in 0..length {
                    pieces.push(letters[index % letters.len()].clone());
                    index /= letters.len();
                }
                let data = Tree::plain(&pieces, b"x\0").bytes();
                let tree = Examined::new(&data);
                if self.fdt_check(&tree)? == 0 {
                    self.fdt_find(&tree, b"/", b"x")?;
                    self.fdt_find(&tree, b"/a", b"x")?;
                }
            }
        }
        Ok(())
    }
}
