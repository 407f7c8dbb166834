//! Large device trees: of the five lengths, and as the data of an entry that is found in a large list, of
//! either edition.

use crate::calls_fdt::Examined;
use crate::compare::Bench;
use crate::edges_fdt_large::MANY;
use crate::edges_fdt_small::{begin, property};
use crate::large_lists::{Plan, LENGTHS, LONGEST, SMALL};
use oracle::fdt_tree::{Piece, Tree};
use oracle::lists::List;
use oracle::lists_certificate::entry;
use oracle::model::{self, Edition};
use oracle::model09;
use oracle::model_fdt::BROKEN;

/// The tag of a device tree.
const FDT: u32 = 1;
/// `x` is at 0, `last` at 2.
const STRINGS: &[u8] = b"x\0last\0";
const X: u32 = 0;
const LAST: u32 = 2;

/// A node behind all others, with one property.
fn last_node() -> [Piece; 5] {
    [begin(b"a"), property(LAST, &[4, 5]), Piece::EndNode, Piece::EndNode, Piece::End]
}

/// A tree of just so many bytes; one value takes most of them.
fn of_one_value(bytes: usize) -> Vec<u8> {
    let tree = |value: usize| {
        let pieces = [&[begin(b""), property(X, &vec![3; value])][..], &last_node()].concat();
        Tree::plain(&pieces, STRINGS)
    };
    let least = tree(0).bytes().len();
    filled(tree((bytes - least) / 4 * 4), bytes)
}

/// A tree of just so many bytes; nodes without members take most of them.
fn of_nodes(bytes: usize) -> Vec<u8> {
    let tree = |nodes: usize| {
        let mut pieces = vec![begin(b"")];
        for _ in 0..nodes {
            pieces.extend([begin(b"b"), Piece::EndNode]);
        }
        pieces.extend(last_node());
        Tree::plain(&pieces, STRINGS)
    };
    let least = tree(0).bytes().len();
    filled(tree((bytes - least) / 12), bytes)
}

/// With as many bytes behind the strings as are missing.
fn filled(mut tree: Tree, bytes: usize) -> Vec<u8> {
    tree.rest = vec![0xee; bytes - tree.bytes().len()];
    tree.bytes()
}

impl Bench {
    pub fn large_trees(&mut self) -> Result<(), String> {
        for length in LENGTHS {
            let data = of_one_value(length);
            self.whole_tree(&data)?;
            self.spoiled_tree(data)?;
        }
        for length in LENGTHS.into_iter().filter(|length| *length <= LONGEST) {
            self.tree_in_a_list(&Plan::current(length))?;
            self.tree_in_a_list(&Plan::old(length))?;
        }
        self.whole_tree(&of_nodes(LONGEST))?;
        self.edges_fdt_large(MANY)
    }

    /// A tree that is accepted.
    fn whole_tree(&mut self, data: &[u8]) -> Result<(), String> {
        let tree = Examined::new(data);
        let given = self.fdt_check(&tree)?;
        if given != 0 {
            return Err(format!("a device tree of {} bytes is {given}", data.len()));
        }
        for (path, name) in [("/", "x"), ("/a", "last"), ("/", "last"), ("/b", "x")] {
            self.fdt_find(&tree, path.as_bytes(), name.as_bytes())?;
        }
        Ok(())
    }

    /// The tree without its last byte, which totalsize counts.
    fn spoiled_tree(&mut self, mut data: Vec<u8>) -> Result<(), String> {
        data.pop();
        let tree = Examined::new(&data);
        self.fdt_find(&tree, b"/a", b"last")?;
        match self.fdt_check(&tree)? {
            BROKEN => Ok(()),
            given => Err(format!("a device tree that is cut off at {} bytes is {given}", data.len())),
        }
    }

    /// A tree that fills a list but for a small entry, found there and looked into.
    fn tree_in_a_list(&mut self, plan: &Plan) -> Result<(), String> {
        let small = entry(SMALL, 8, &[1, 2, 3]);
        let length = plan.room() - small.len() - 8;
        for data in [of_one_value(length), of_nodes(length.min(1 << 20))] {
            let list = plan.list(&[small.clone(), entry(FDT, 8, &data)].concat());
            let found = self.found_tree(&list)?;
            self.see_large(|large| large.tree_in_a_list());
            self.whole_tree(&list.area[found])?;
        }
        Ok(())
    }

    /// Where the model has found it; the library has found it there too.
    fn found_tree(&mut self, list: &List) -> Result<std::ops::Range<usize>, String> {
        let found = match list.edition {
            Edition::Current => {
                self.find(list, FDT, 0)?;
                model::find(&list.area, list.base, FDT, 0)
            }
            Edition::E09 => {
                self.find09(list, FDT, 0)?;
                model09::find(&list.area, list.base, FDT, 0)
            }
        };
        match found.number {
            0 => Ok(found.offset as usize..(found.offset + found.size) as usize),
            number => Err(format!("the device tree of a list of {} bytes is {number}", list.area.len())),
        }
    }
}
