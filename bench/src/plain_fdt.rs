//! Plain Rust's check of a device tree and its lookup, without proofs: what the library is measured beside.
use crate::plain::Found;
use std::ops::Range;

const NONE: u32 = 13;
const FDT: u32 = 21;
const BEGIN_NODE: u32 = 1;
const END_NODE: u32 = 2;
const PROPERTY: u32 = 3;
const NOP: u32 = 4;
const END: u32 = 9;
const DEEPEST: usize = 16;

/// The check.
#[inline(never)]
pub fn check(data: &[u8]) -> u32 {
    if checked(data).is_some() {
        0
    } else {
        FDT
    }
}

/// The lookup, which checks first.
#[inline(never)]
pub fn find(data: &[u8], path: &[u8], name: &[u8]) -> Found {
    let refused = |number| Found { number, ..Found::default() };
    let Some(tree) = checked(data) else {
        return refused(FDT);
    };
    match tree.find(path, name) {
        Some(value) => Found { number: 0, offset: (tree.start + value.start) as u32, size: value.len() as u32, at: 0 },
        None => refused(NONE),
    }
}

fn word(bytes: &[u8], at: usize) -> Option<u32> {
    Some(u32::from_be_bytes(bytes.get(at..at + 4)?.try_into().ok()?))
}

/// The bytes from a place on, up to a zero byte.
fn name_at(bytes: &[u8], at: usize) -> Option<&[u8]> {
    let from = bytes.get(at..)?;
    Some(&from[..from.iter().position(|b| *b == 0)?])
}

/// The tree in the data, if it is a good one.
fn checked(data: &[u8]) -> Option<Tree<'_>> {
    let field = |i: usize| word(data, 4 * i);
    let [total, structure, strings, reservation] = [field(1)?, field(2)?, field(3)?, field(4)?].map(|n| n as usize);
    let [strings_size, structure_size] = [field(8)?, field(9)?].map(|n| n as usize);
    if field(0)? != 0xd00d_feed || field(5)? != 17 || field(6)? != 16 {
        return None;
    }
    if reservation % 8 != 0 || structure % 4 != 0 || structure_size % 4 != 0 {
        return None;
    }
    let (structure_end, strings_end) = (structure + structure_size, strings + strings_size);
    if reservation < 40 || structure_end > strings || strings_end > total || total > data.len() {
        return None;
    }
    // the zero pair that ends the reservation block
    data.get(reservation..structure)?.chunks_exact(16).position(|pair| pair.iter().all(|b| *b == 0))?;
    let tree = Tree { structure: &data[structure..structure_end], strings: &data[strings..strings_end], start: structure };
    tree.check()?;
    Some(tree)
}

/// The two blocks, and where the structure starts in the data. Places are counted from there, and what reads also answers the place behind.
struct Tree<'a> {
    structure: &'a [u8],
    strings: &'a [u8],
    start: usize,
}

impl<'a> Tree<'a> {
    fn check(&self) -> Option<()> {
        let at = self.check_members(self.root()?, 1)?;
        let (token, at) = self.token(at)?;
        (token == END && at == self.structure.len()).then_some(())
    }

    /// The place behind the root's name, which is empty.
    fn root(&self) -> Option<usize> {
        let (token, at) = self.token(0)?;
        let (name, at) = self.node_name(at)?;
        (token == BEGIN_NODE && name.is_empty()).then_some(at)
    }

    /// A node's members, up to its end; `depth` counts the nodes from the root on.
    fn check_members(&self, mut at: usize, depth: usize) -> Option<usize> {
        let mut subnodes = false;
        loop {
            let (token, behind) = self.token(at)?;
            match token {
                PROPERTY if !subnodes => {
                    let (name, _, behind) = self.property(behind)?;
                    name_at(self.strings, name)?;
                    at = behind;
                }
                BEGIN_NODE if depth < DEEPEST => {
                    let (_, behind) = self.node_name(behind)?;
                    at = self.check_members(behind, depth + 1)?;
                    subnodes = true;
                }
                END_NODE => return Some(behind),
                _ => return None,
            }
        }
    }

    /// The next token that is not a NOP.
    fn token(&self, mut at: usize) -> Option<(u32, usize)> {
        loop {
            let token = word(self.structure, at)?;
            at += 4;
            if token != NOP {
                return Some((token, at));
            }
        }
    }

    fn node_name(&self, at: usize) -> Option<(&'a [u8], usize)> {
        let name = name_at(self.structure, at)?;
        Some((name, self.padding(at + name.len() + 1)?))
    }

    /// A property's name, as an offset in the strings, and the place of its value.
    fn property(&self, at: usize) -> Option<(usize, Range<usize>, usize)> {
        let (size, name) = (word(self.structure, at)?, word(self.structure, at + 4)?);
        let value = at + 8..at + 8 + size as usize;
        if value.end > self.structure.len() {
            return None;
        }
        let behind = self.padding(value.end)?;
        Some((name as usize, value, behind))
    }

    /// Zero bytes up to a multiple of 4.
    fn padding(&self, at: usize) -> Option<usize> {
        let end = at.next_multiple_of(4);
        self.structure.get(at..end)?.iter().all(|b| *b == 0).then_some(end)
    }

    /// The place of the value of the first property with this name under this path.
    fn find(&self, path: &[u8], name: &[u8]) -> Option<Range<usize>> {
        let names = path.strip_prefix(b"/")?;
        if names.is_empty() {
            return self.search(self.root()?, b"", name)?.ok();
        }
        if names.split(|b| *b == b'/').any(|name| name.is_empty()) {
            return None;
        }
        self.search(self.root()?, path, name)?.ok()
    }

    /// The place of the value, searched among a node's members, or the place behind the node. The path is the one from this node on: empty
    /// for the node itself, else `/a/b`.
    fn search(&self, mut at: usize, path: &[u8], name: &[u8]) -> Option<Result<Range<usize>, usize>> {
        let next = first_name(path);
        loop {
            let (token, behind) = self.token(at)?;
            match token {
                PROPERTY => {
                    let (offset, value, behind) = self.property(behind)?;
                    if next.is_none() && name_at(self.strings, offset)? == name {
                        return Some(Ok(value));
                    }
                    at = behind;
                }
                BEGIN_NODE => {
                    let (node, behind) = self.node_name(behind)?;
                    at = match next {
                        Some((first, rest)) if first == node => match self.search(behind, rest, name)? {
                            Ok(value) => return Some(Ok(value)),
                            Err(behind) => behind,
                        },
                        _ => self.skip(behind)?,
                    }
                }
                _ => return Some(Err(behind)),
            }
        }
    }

    /// The place behind a node, from its members on.
    fn skip(&self, mut at: usize) -> Option<usize> {
        loop {
            let (token, behind) = self.token(at)?;
            match token {
                PROPERTY => at = self.property(behind)?.2,
                BEGIN_NODE => at = self.skip(self.node_name(behind)?.1)?,
                _ => return Some(behind),
            }
        }
    }
}

/// The first name of a path and the path from there on: `a` and `/b` of `/a/b`.
fn first_name(path: &[u8]) -> Option<(&[u8], &[u8])> {
    let names = path.strip_prefix(b"/")?;
    Some(names.split_at(names.iter().position(|b| *b == b'/').unwrap_or(names.len())))
}
