//! Large device trees: "a flat tree of any size is looped over and not recursed", and "the code's own
//! stack is bounded" where the nesting is far too deep: document 02, request 6. Those over 64 KiB belong to
//! the run on large lists.

use crate::calls_fdt::Examined;
use crate::compare::Bench;
use crate::edges_fdt_small::{begin, property};
use oracle::fdt_tree::{Piece, Tree};
use oracle::model_fdt::BROKEN;

/// Nodes, properties, NOPs or pairs in a row: within 64 KiB, and in the run on large lists.
pub const SOME: usize = 2000;
pub const MANY: usize = 200_000;
/// `x` is at 0, `last` at 2.
const STRINGS: &[u8] = b"x\0last\0";
const X: u32 = 0;
const LAST: u32 = 2;

/// These members over and over, between the root's first token and what stands behind them.
fn flat(count: usize, members: &[Piece], behind: &[Piece]) -> Tree {
    let mut pieces = vec![begin(b"")];
    for _ in 0..count {
        pieces.extend_from_slice(members);
    }
    pieces.extend_from_slice(behind);
    pieces.extend([Piece::EndNode, Piece::End]);
    Tree::plain(&pieces, STRINGS)
}

/// One long name of a node, one long value, one long name of a property.
fn long(count: usize) -> Tree {
    let long = vec![b'n'; 4 * count + 1];
    let pieces = [
        begin(b""),
        property(X, &vec![0; 4 * count + 3]),
        property(LAST, &[1]),
        begin(&long),
        Piece::EndNode,
        begin(b"a"),
        property(LAST, &[2]),
        Piece::EndNode,
        Piece::EndNode,
        Piece::End,
    ];
    Tree::plain(&pieces, &[STRINGS, &long, &[0]].concat())
}

fn reserved(count: usize) -> Tree {
    let mut tree = flat(0, &[], &[property(LAST, &[3])]);
    tree.pairs = vec![[1; 16]; count];
    tree.pairs.push([0; 16]);
    tree
}

impl Bench {
    pub fn edges_fdt_large(&mut self, count: usize) -> Result<(), String> {
        let last = [begin(b"a"), property(LAST, &[4, 5]), Piece::EndNode];
        let trees = [
            flat(count, &[begin(b"b"), Piece::EndNode], &last),
            flat(count, &[begin(b"a"), property(X, &[6]), Piece::EndNode], &last),
            flat(count, &[property(X, &[7])], &last),
            flat(count, &[Piece::Nop], &last),
            long(count),
            reserved(count),
        ];
        for tree in trees {
            let mut data = tree.bytes();
            self.large(&data, 0)?;
            // The END of it is another token.
            let end = tree.written().structure_end() as usize;
            data[end - 1] = 8;
            self.large(&data, BROKEN)?;
        }
        let deep = [vec![begin(b""); count], vec![Piece::EndNode; count], vec![Piece::End]].concat();
        self.large(&Tree::plain(&deep, STRINGS).bytes(), BROKEN)
    }

    fn large(&mut self, data: &[u8], wanted: u32) -> Result<(), String> {
        let tree = Examined::new(data);
        let given = self.fdt_check(&tree)?;
        if given != wanted {
            return Err(format!("a device tree of {} bytes is {given}, not {wanted}", data.len()));
        }
        for (path, name) in [("/", "last"), ("/a", "last"), ("/b", "last")] {
            self.fdt_find(&tree, path.as_bytes(), name.as_bytes())?;
        }
        Ok(())
    }
}
