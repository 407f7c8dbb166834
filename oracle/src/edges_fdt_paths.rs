//! Lookups in device trees on purpose: every path of up to five bytes, equal siblings, names that no path
//! reaches, every nesting, and buffers without a byte: document 02, request 6.

use crate::calls_fdt::Examined;
use crate::compare::Bench;
use crate::edges_fdt::expect;
use crate::edges_fdt_small::{begin, property, small};
use crate::lent::STARTS;
use oracle::fdt_asked::PATHS;
use oracle::fdt_tree::{Piece, Tree};
use oracle::model::NONE;
use oracle::model_fdt::{BROKEN, DEEPEST};

/// Every path over these bytes is asked for.
const LETTERS: [u8; 5] = *b"/ab@\0";
const LONGEST_PATH: u32 = 5;
/// `x` is at 0, `y` at 2, `` at 1 and 3.
const STRINGS: &[u8] = b"x\0y\0";
const X: u32 = 0;
const Y: u32 = 2;
const EMPTY: u32 = 1;

/// A tree of this root's members.
fn tree(members: &[Piece]) -> Vec<u8> {
    let pieces = [&[begin(b"")], members, &[Piece::EndNode, Piece::End]].concat();
    Tree::plain(&pieces, STRINGS).bytes()
}

/// A node with these members.
fn node(name: &[u8], members: &[Piece]) -> Vec<Piece> {
    [&[begin(name)], members, &[Piece::EndNode]].concat()
}

fn x(value: u8) -> Piece {
    property(X, &[value])
}

fn y(value: u8) -> Piece {
    property(Y, &[value, 0])
}

/// Trees whose nodes are like each other.
fn alike() -> Vec<Vec<u8>> {
    let leaf = |name: &[u8], value: u8| node(name, &[x(value)]);
    let two = |name: &[u8], one: Vec<Piece>, other: Vec<Piece>| node(name, &[one, other].concat());
    vec![
        tree(&[leaf(b"a", 1), node(b"a", &[y(2)])].concat()),
        tree(&[&[x(1), y(2), x(3), property(EMPTY, &[])][..], &leaf(b"b", 4)].concat()),
        tree(
            &[two(b"a", leaf(b"b", 1), leaf(b"b", 2)), two(b"a", leaf(b"a", 3), node(b"b", &[y(4)]))]
                .concat(),
        ),
        tree(&[leaf(b"a/b", 1), leaf(b"", 2), leaf(b"/", 3), leaf(b"a/", 4), leaf(b"/a", 5)].concat()),
        tree(&[node(b"", &leaf(b"a", 1)), node(b"a", &leaf(b"", 2)), node(b"a/b", &leaf(b"b", 3))].concat()),
        tree(&[leaf(b"a@b", 1), leaf(b"ab", 2), leaf(b"a@", 3), leaf(b"@a", 4), leaf(b"aa", 5)].concat()),
        tree(
            &[&[y(1)][..], &node(b"a", &node(b"b", &leaf(b"a", 2))), &leaf(b"b", 3), &leaf(b"b", 4)].concat(),
        ),
    ]
}

/// Nodes of these names, one in the other, each with a property whose value is its nesting.
fn nested(depth: usize) -> Vec<u8> {
    let mut pieces = Vec::new();
    for nesting in 1..=depth {
        pieces.extend([begin(if nesting == 1 { b"" } else { b"n" }), x(nesting as u8)]);
    }
    pieces.resize(pieces.len() + depth, Piece::EndNode);
    pieces.push(Piece::End);
    Tree::plain(&pieces, STRINGS).bytes()
}

impl Bench {
    pub fn edges_fdt_paths(&mut self) -> Result<(), String> {
        self.each_path()?;
        self.second_of_equal_siblings()?;
        self.each_nesting()?;
        self.without_a_byte()
    }

    fn each_path(&mut self) -> Result<(), String> {
        for data in alike() {
            let tree = Examined::new(&data);
            expect(self.fdt_check(&tree)?, 0, &data)?;
            for length in 0..=LONGEST_PATH {
                for mut index in 0..LETTERS.len().pow(length) {
                    let mut path = Vec::new();
                    for _ in 0..length {
                        path.push(LETTERS[index % LETTERS.len()]);
                        index /= LETTERS.len();
                    }
                    for name in [&b"x"[..], b"y", b"", b"x\0", b"xy"] {
                        self.fdt_find(&tree, &path, name)?;
                    }
                }
            }
        }
        Ok(())
    }

    /// "Of a{x} a{y}, y under `/a` is the second's"; and the value is where it was put.
    fn second_of_equal_siblings(&mut self) -> Result<(), String> {
        let data = tree(&[node(b"a", &[x(0x11)]), node(b"a", &[y(0x22)])].concat());
        let tree = Examined::new(&data);
        let place = |byte: u8| data.iter().rposition(|at| *at == byte).unwrap() as u32;
        let found = self.fdt_find(&tree, b"/a", b"y")?;
        expect(found.number, 0, &data)?;
        expect(found.offset, place(0x22), &data)?;
        expect(found.size, 2, &data)?;
        let found = self.fdt_find(&tree, b"/a", b"x")?;
        expect(found.offset, place(0x11), &data)?;
        expect(found.size, 1, &data)
    }

    /// Chains of up to 40 nodes: 16 are good, and each of these is found by its path; 17 are not.
    fn each_nesting(&mut self) -> Result<(), String> {
        for depth in 1..=40 {
            let data = nested(depth);
            let tree = Examined::new(&data);
            let is_good = depth <= DEEPEST;
            expect(self.fdt_check(&tree)?, if is_good { 0 } else { BROKEN }, &data)?;
            for names in 0..=41 {
                let path = if names == 0 { b"/".to_vec() } else { b"/n".repeat(names) };
                let number = match (is_good, names < depth) {
                    (false, _) => BROKEN,
                    (true, true) => 0,
                    (true, false) => NONE,
                };
                let found = self.fdt_find(&tree, &path, b"x")?;
                expect(found.number, number, &data)?;
                if number == 0 {
                    expect(u32::from(data[found.offset as usize]), names as u32 + 1, &data)?;
                }
            }
        }
        Ok(())
    }

    /// No data, no path, no name, at every start: lent as NULL or not.
    fn without_a_byte(&mut self) -> Result<(), String> {
        let data = small().bytes();
        let (tree, none) = (Examined::new(&data), Examined::new(&[]));
        for start in 0..STARTS {
            for path in PATHS {
                for name in [&b""[..], b"x"] {
                    self.guards.start_at(start);
                    self.fdt_find(&tree, path, name)?;
                    self.guards.start_at(start);
                    expect(self.fdt_find(&none, path, name)?.number, BROKEN, &[])?;
                }
            }
            self.guards.start_at(start);
            expect(self.fdt_check(&none)?, BROKEN, &[])?;
        }
        Ok(())
    }
}
